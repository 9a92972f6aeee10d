"""./box --try: a box at work, polled through its own pseudo-terminal as a logging program would."""

import contextlib
import subprocess

from wire import conversation
from wire.client import ENQ, Port, Unexpected
from wire.models import MODELS, USUAL
from wire.trace import named, tell


def told(box):
    """The next line that a box prints."""
    line = box.stdout.readline().decode().strip()
    if not line:
        raise Unexpected("the box did not start")
    return line


@contextlib.contextmanager
def started(command, *options, readings=conversation.READINGS):
    """A box in a process of its own that has taken the readings, and the name of its line."""
    with subprocess.Popen([command, *options], stdin=subprocess.PIPE, stdout=subprocess.PIPE) as box:
        try:
            name = told(box)
            # when it has answered the last line it has taken those before it
            box.stdin.write(readings + b"help\n")
            box.stdin.flush()
            while not told(box).startswith("quit"):
                pass
            yield name
        finally:
            box.terminate()


class Shown:
    """A conversation on the screen: a line of the host begins a line, and so does a second one of the box."""

    def __init__(self, box):
        self._box = box
        self._last = None

    def __call__(self, who, data):
        begins = data != ENQ if who == "host" else self._last == "box"
        text = "%s: %s" % (self._box if who == "box" else "host", named(data))
        print(("\n  " if begins else "  ") + text, end="", flush=True)
        self._last = who


def show(part, *words):
    """One part of the conversation under its name."""
    print("\n\n" + part.__doc__, end="", flush=True)
    part(*words)


def attempt(command):
    """The status of --try: 0 where all went as a client expects, else 1."""
    try:
        with started(command) as first, started(command) as second:
            print("Two boxes, on %s and %s, each told of its gauges:" % (first, second))
            print(conversation.READINGS.decode(), end="")
            with contextlib.closing(Port(first, Shown("box"))) as one, \
                    contextlib.closing(Port(second, Shown("second box"))) as two:
                for part in conversation.stream, conversation.poll, conversation.refusal:
                    show(part, one)
                show(conversation.change, one, b"UNI,1", b"SP1,2,1E-3,5E-3")
                show(conversation.sheet, one, two, MODELS[USUAL].sheet)
    except (Unexpected, KeyboardInterrupt) as fault:
        print()
        tell(str(fault) or "stopped")
        return 1
    print("\n\nAll as expected. ./box starts a box that stays.")
    return 0
