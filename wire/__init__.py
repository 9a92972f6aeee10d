"""The box on a line: a pseudo-terminal, a clock and the text of readings around the proved bench program."""
