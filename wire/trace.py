"""What people are shown: a line that tells them something, and the wire with its control bytes by name."""

import datetime
import sys

CONTROL = (
    "NUL SOH STX ETX EOT ENQ ACK BEL BS HT LF VT FF CR SO SI "
    "DLE DC1 DC2 DC3 DC4 NAK SYN ETB CAN EM SUB ESC FS GS RS US"
).split()


def _name(byte):
    if byte < 32:
        return "<" + CONTROL[byte] + ">"
    if byte == 127:
        return "<DEL>"
    # a bracket that was sent must not look like a name
    if byte > 127 or byte in b"<>":
        return "<0x%02X>" % byte
    return chr(byte)


def named(data):
    """Characters as they are, control bytes by name as <CR>, brackets and all above 127 in hexadecimal as <0x3C>."""
    return "".join(map(_name, data))


def tell(text):
    """One line for the person who runs the box."""
    print("box: " + text, file=sys.stderr, flush=True)


class Trace:
    """A line for each thing that happens on the wire; nothing where it has no output."""

    def __init__(self, output=None, now=datetime.datetime.now):
        self._output = output
        self._now = now

    def _show(self, what, text):
        if self._output:
            time = self._now().isoformat(timespec="milliseconds")[11:]
            print("%s %-8s %s" % (time, what, text), file=self._output, flush=True)

    def heard(self, data):
        """Bytes that the host sent."""
        self._show("host ->", named(data))

    def sent(self, data, arrives):
        """Bytes for the host; where it does not read, they are lost."""
        self._show("host <-" if arrives else "lost <-", named(data))

    def left(self, count):
        """Bytes that stood in front of a client when it left."""
        self._show("lost <-", "%d bytes or more that a client left unread" % count)

    def gauge(self, line):
        """A line about gauges that the box took."""
        self._show("gauge ->", line)
