"""Where the lines about gauges come from: standard input or a FIFO."""

import contextlib
import os
import stat
import sys

from wire.readings import LONGEST
from wire.trace import tell


class Gauges:
    """Lines out of a file descriptor."""

    def __init__(self, fd):
        self.fd = fd
        self._begun = b""

    def ready(self):
        """Whether it may be read: a terminal's input is not for a program in the background."""
        if self.fd is None:
            return False
        try:
            return not os.isatty(self.fd) or os.tcgetpgrp(self.fd) == os.getpgrp()
        except OSError:
            # a terminal that controls no one
            return True

    def ended(self):
        """Standard input has no more lines; the box goes on."""
        self.fd = None

    def lines(self):
        """The lines that have come, each with its end; only the last that ever comes can lack it."""
        try:
            data = os.read(self.fd, 4096)
        except BlockingIOError:
            # someone else was faster
            return []
        except OSError:
            # a terminal that is gone
            data = b""
        if not data:
            self.ended()
            cut, self._begun = self._begun, b""
            return [cut] if cut else []
        *whole, begun = (self._begun + data).split(b"\n")
        # a line that is too long stays too long, with an end of CR LF too
        self._begun = begun[:LONGEST + 2]
        return [line + b"\n" for line in whole]

    def close(self):
        """Nothing of it is left behind."""


def standard_input():
    """Lines of standard input, where there is one."""
    return Gauges(0 if sys.stdin else None)


class Fifo(Gauges):
    """Lines that one writer after the other puts into a FIFO; it is made where it is not there."""

    def __init__(self, path):
        self._made = not os.path.lexists(path)
        if self._made:
            os.mkfifo(path)
        elif not stat.S_ISFIFO(os.stat(path).st_mode):
            raise FileExistsError(0, "it is no FIFO", path)
        self._path = path
        super().__init__(self._opened())

    def _opened(self):
        return os.open(self._path, os.O_RDONLY | os.O_NONBLOCK)

    def ended(self):
        """The last writer has left: the next one finds the FIFO open without a pause."""
        fd = self.fd
        try:
            self.fd = self._opened()
        except OSError as fault:
            self.fd = None
            tell("%s: %s; no more lines about gauges can come" % (self._path, fault.strerror))
        os.close(fd)

    def close(self):
        if self.fd is not None:
            os.close(self.fd)
        if self._made:
            with contextlib.suppress(OSError):
                os.unlink(self._path)
