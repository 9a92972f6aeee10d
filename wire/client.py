"""A host: the protocol as a client speaks it, over anything that sends bytes and receives lines."""

import os
import select
import time

ETX, ENQ = b"\x03", b"\x05"
ACK, NAK = b"\x06\r\n", b"\x15\r\n"
# seconds: more than a box ever takes, and enough for what was on its way
PATIENCE, QUIET = 5, 0.3
GONE = "the line is gone"


class Unexpected(Exception):
    """The box sent something else than a client expects."""


class Client:
    """What every client does; a kind of client adds send and receive."""

    def send(self, data):
        raise NotImplementedError

    def receive(self, patience=PATIENCE):
        """The next line with its end; what there is of it where no more comes in time."""
        raise NotImplementedError

    def begin(self):
        """An ETX stops the stream; a line of it that was on its way is no answer to what is asked next."""
        self.send(ETX)
        while self.receive(QUIET):
            pass

    def expect(self, wanted):
        """The next line, which has to be this one."""
        line = self.receive()
        if line != wanted:
            raise Unexpected("expected %r, received %r" % (wanted, line))

    def accepted(self, line):
        """Sends a line that the box has to accept."""
        self.send(line + b"\r")
        self.expect(ACK)

    def refused(self, line):
        """Sends a line that the box has to refuse."""
        self.send(line + b"\r")
        self.expect(NAK)

    def enquired(self, wanted=None):
        """The reply to an ENQ without its end, which has to be the one wanted."""
        self.send(ENQ)
        line = self.receive()
        if not line.endswith(b"\r\n") or wanted not in (None, line[:-2]):
            raise Unexpected("expected %r, received %r" % (wanted or b"a reply", line))
        return line[:-2]

    def asked(self, mnemonic, wanted=None):
        """The reply of a mnemonic."""
        self.accepted(mnemonic)
        return self.enquired(wanted)


class Piped(Client):
    """A client whose bytes go through file descriptors; say is called with all that is said."""

    def __init__(self, read, write, say=lambda who, data: None):
        self._read, self._write = read, write
        self._begun = b""
        self._say = say

    def send(self, data):
        self._say("host", data)
        try:
            os.write(self._write, data)
        except OSError:
            raise Unexpected(GONE)

    def _more(self):
        """Bytes that are there to be read; none are, nor will be, where the other end has hung up."""
        try:
            more = os.read(self._read, 4096)
        except OSError:
            more = b""
        if not more:
            raise Unexpected(GONE)
        return more

    def receive(self, patience=PATIENCE):
        end = time.monotonic() + patience
        while b"\n" not in self._begun:
            if not select.select([self._read], [], [], max(0, end - time.monotonic()))[0]:
                break
            self._begun += self._more()
        line, lf, self._begun = self._begun.partition(b"\n")
        if line + lf:
            self._say("box", line + lf)
        return line + lf


class Port(Piped):
    """A client with nothing but the operating system."""

    def __init__(self, path, *say):
        self._fd = os.open(path, os.O_RDWR | os.O_NOCTTY | os.O_NONBLOCK)
        super().__init__(self._fd, self._fd, *say)

    def close(self):
        os.close(self._fd)
