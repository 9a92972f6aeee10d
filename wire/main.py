"""The command ./box: its options, and everything put together and taken apart again."""

import argparse
import contextlib
import os
import signal
import sys

from wire.box import Box
from wire.clock import Clock
from wire.engine import Engine, EngineFault
from wire.gauges import Fifo, standard_input
from wire.models import MODELS, USUAL
from wire.terminal import Terminal
from wire.trace import Trace, tell
from wire.trying import attempt

SIGNALS = signal.SIGINT, signal.SIGTERM, signal.SIGHUP
ROOT = os.path.dirname(os.path.dirname(os.path.abspath(__file__)))


class BadOption(Exception):
    """What is wrong with the command line, in one line."""


class Parser(argparse.ArgumentParser):
    """Says what is wrong in one line."""

    def error(self, message):
        raise BadOption(message)


def options(words):
    """The options of the command line."""
    parser = Parser(prog="box", allow_abbrev=False, description="A TPG 361, 362 or 262 on a pseudo-terminal.")
    parser.add_argument("--model", choices=MODELS, default=USUAL, help="which unit; %(default)s where it is not said")
    parser.add_argument("--link", metavar="PATH", help="a link to the pseudo-terminal, while the box runs")
    parser.add_argument("--gauges", metavar="PATH", help="a FIFO with the lines about gauges, not standard input")
    parser.add_argument("--trace", action="store_true", help="show all that goes over the line")
    parser.add_argument("--try", action="store_true", dest="attempt", help="a box at work for a few seconds")
    chosen = parser.parse_args(words)
    if chosen.attempt and len(words) > 1:
        raise BadOption("--try stands alone")
    return chosen


def check_link(path):
    """Refuses what stands in the way, before anything is built; a link that leads nowhere does not."""
    if os.path.exists(path):
        raise BadOption("--link %s: it is there already" % path)
    if not path or not os.path.isdir(os.path.dirname(path) or "."):
        raise BadOption("--link %s: no link can be made there" % path)


@contextlib.contextmanager
def linked(path, name):
    """A link to the terminal, as long as the box runs."""
    try:
        # a box that was killed left it behind, and its number may be this one's
        if os.path.islink(path) and (not os.path.exists(path) or os.readlink(path) == name):
            os.unlink(path)
        os.symlink(name, path)
    except OSError as fault:
        raise BadOption("--link %s: %s" % (path, fault.strerror))
    try:
        yield
    finally:
        # someone may have put another one there
        with contextlib.suppress(OSError):
            if os.readlink(path) == name:
                os.unlink(path)


def gauges(path):
    """Where the lines about gauges come from."""
    try:
        return Fifo(path) if path is not None else standard_input()
    except OSError as fault:
        raise BadOption("--gauges %s: %s" % (path, fault.strerror))


def serve(chosen):
    """Runs a box until it is stopped."""
    with contextlib.ExitStack() as ended:
        source = ended.enter_context(contextlib.closing(gauges(chosen.gauges)))
        engine = ended.enter_context(contextlib.closing(Engine([os.path.join(ROOT, "bench")], chosen.model)))
        terminal = ended.enter_context(contextlib.closing(Terminal()))
        if chosen.link is not None:
            ended.enter_context(linked(chosen.link, terminal.name))
        name = chosen.link or terminal.name
        gauge_lines = "to " + chosen.gauges if chosen.gauges else "here"
        print(name)
        print("A TPG %s: open it as a serial port, as with picocom %s; lines about gauges go %s, help and quit too."
              % (chosen.model, name, gauge_lines), flush=True)
        trace = Trace(sys.stdout if chosen.trace else None)
        Box(engine, terminal, Clock(), trace, MODELS[chosen.model].kinds).run(source)


def stop(*_):
    """Ends the box once: a second signal must not stop it from taking itself apart."""
    for number in SIGNALS:
        signal.signal(number, signal.SIG_IGN)
    raise KeyboardInterrupt


def heed_signals():
    """Signals end the box, unless it was started to ignore them."""
    for number in SIGNALS:
        if signal.getsignal(number) != signal.SIG_IGN:
            signal.signal(number, stop)


def main(words):
    """The status of the command: 0 when it was stopped, 1 when it could not go on, 2 for a bad option."""
    try:
        chosen = options(words)
        heed_signals()
        if chosen.attempt:
            return attempt(os.path.join(ROOT, "box"))
        if chosen.link is not None:
            check_link(chosen.link)
        serve(chosen)
    except KeyboardInterrupt:
        return 0
    except BrokenPipeError:
        # who read what is shown has left; nothing more is written there, not even at the end
        os.dup2(os.open(os.devnull, os.O_WRONLY), sys.stdout.fileno())
        return 0
    except BadOption as fault:
        tell(str(fault))
        return 2
    except (EngineFault, OSError) as fault:
        tell(str(fault))
        return 1
    return 0
