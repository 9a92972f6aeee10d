"""The pseudo-terminal: the box holds one end, and a client opens the other by its name as a serial port."""

import array
import errno
import fcntl
import os
import select
import termios

# so much of the stream waits for a client that has the line open and does not read: a minute of a 362, a line a second
STREAM_WAITS = 2048


class Terminal:
    """A line that is never in the box's way: what no one reads is lost, whole messages at a time."""

    def __init__(self):
        self.fd, client = os.openpty()
        self.name = os.ttyname(client)
        os.set_blocking(self.fd, False)
        # before a word is said: an echo would come back as host bytes
        self._set_raw()
        os.close(client)
        self.is_open = False
        self._rest = b""

    def _set_raw(self):
        """Every byte passes as it is, in both directions, whatever the last client set."""
        mode = termios.tcgetattr(self.fd)
        # all flags of input, output and the local mode; tty.setraw leaves IGNCR and INLCR
        mode[0] = mode[1] = mode[3] = 0
        mode[6][termios.VMIN], mode[6][termios.VTIME] = 1, 0
        termios.tcsetattr(self.fd, termios.TCSANOW, mode)

    def _unread(self, drop=False):
        """The number of bytes that wait for the client; with drop they wait no more."""
        try:
            client = os.open(self.name, os.O_RDWR | os.O_NOCTTY | os.O_NONBLOCK)
        except OSError:
            # a client may hold the line for itself alone
            return 0
        count = array.array("i", [0])
        fcntl.ioctl(client, termios.FIONREAD, count)
        if drop:
            termios.tcflush(client, termios.TCIFLUSH)
        os.close(client)
        return count[0]

    def _events(self):
        poll = select.poll()
        poll.register(self.fd, select.POLLIN)
        return sum(events for _, events in poll.poll(0))

    def look(self):
        """Sees whether a client has the line open; the number of bytes, at least, that one which left has not read."""
        # one that left counts as long as not all of its bytes are read
        self.is_open = self._events() != select.POLLHUP
        if self.is_open:
            return 0
        unread, self._rest = self._unread(drop=True) + len(self._rest), b""
        self._set_raw()
        return unread

    def read(self):
        """Bytes that a client sent; none where it has left, which is no error."""
        try:
            return os.read(self.fd, 4096)
        except OSError as fault:
            if fault.errno not in (errno.EAGAIN, errno.EIO):
                raise
            return b""

    @property
    def waits(self):
        """Whether a part of a message still has to go out."""
        return bool(self._rest)

    def go_on(self):
        """Writes what there is room for of the message that was begun."""
        try:
            self._rest = self._rest[os.write(self.fd, self._rest):]
        except BlockingIOError:
            pass

    def write(self, message):
        """Writes a message and says true; where it would be cut or read by no one, none of it."""
        if self.waits or not self.is_open:
            return False
        self._rest = message
        self.go_on()
        begun = len(self._rest) < len(message)
        if not begun:
            self._rest = b""
        return begun

    def stream(self, line):
        """Writes a line of the stream, unless too many of them wait: replies must find room."""
        return self._unread() < STREAM_WAITS and self.write(line)

    def close(self):
        """The name is gone, and a client that has it open sees the line hung up."""
        os.close(self.fd)
