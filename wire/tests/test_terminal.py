"""The pseudo-terminal: the traps of a line that clients open, set, leave and do not read."""

import array
import fcntl
import os
import select
import termios
import time
import unittest
from unittest import mock

from wire.terminal import STREAM_WAITS, Terminal


def received(fd, count):
    """So many bytes, or what there is of them when no more comes."""
    data = b""
    while len(data) < count and select.select([fd], [], [], 5)[0]:
        data += os.read(fd, count - len(data))
    return data


def nothing_for(fd):
    """Whether nothing is on its way to a reader."""
    return not select.select([fd], [], [], 0.05)[0]


def waiting(fd):
    """The number of bytes that a client could read."""
    count = array.array("i", [0])
    fcntl.ioctl(fd, termios.FIONREAD, count)
    return count[0]


class TerminalTest(unittest.TestCase):
    def setUp(self):
        # asked of the system: a fault of the terminal's own must not pass for a machine without any
        try:
            pair = os.openpty()
        except OSError:
            self.skipTest("no pseudo-terminals here")
        for fd in pair:
            os.close(fd)
        self.terminal = Terminal()
        self.addCleanup(self.terminal.close)

    def client(self):
        fd = os.open(self.terminal.name, os.O_RDWR | os.O_NOCTTY | os.O_NONBLOCK)
        self.terminal.look()
        return fd

    def test_every_byte_passes_both_ways(self):
        client = self.client()
        every = bytes(range(256))
        os.write(client, every)
        self.assertEqual(received(self.terminal.fd, 256), every)
        self.assertTrue(self.terminal.write(every))
        self.assertEqual(received(client, 256), every)
        os.close(client)

    def test_what_the_box_says_does_not_come_back(self):
        client = self.client()
        self.terminal.write(b"0,+1.0130E+03\r\n")
        self.assertEqual(received(client, 15), b"0,+1.0130E+03\r\n")
        self.assertTrue(nothing_for(self.terminal.fd))
        os.close(client)

    def test_what_a_client_set_is_gone_when_it_leaves(self):
        client = self.client()
        mode = termios.tcgetattr(client)
        mode[0] = termios.IGNCR | termios.INLCR | termios.ISTRIP | termios.IXON
        mode[1] = termios.OPOST | termios.ONLCR
        mode[3] = termios.ECHO | termios.ICANON | termios.ISIG
        mode[6][termios.VMIN], mode[6][termios.VTIME] = 0, 20
        termios.tcsetattr(client, termios.TCSANOW, mode)
        os.close(client)
        self.terminal.look()
        client = self.client()
        left = termios.tcgetattr(client)
        self.assertEqual((left[0], left[1], left[3]), (0, 0, 0))
        self.assertEqual((left[6][termios.VMIN], left[6][termios.VTIME]), (1, 0))
        os.close(client)

    def test_no_client_reads_what_was_said_to_no_one(self):
        self.assertFalse(self.terminal.write(b"old\r\n"))
        self.terminal.look()
        self.assertFalse(self.terminal.is_open)
        self.assertFalse(self.terminal.write(b"old\r\n"))
        self.assertFalse(self.terminal.stream(b"old\r\n"))
        client = self.client()
        self.assertTrue(nothing_for(client))
        os.close(client)

    def test_no_client_reads_what_the_one_before_left(self):
        client = self.client()
        self.terminal.write(b"old\r\n")
        select.select([client], [], [], 5)
        os.close(client)
        self.assertEqual(self.terminal.look(), 5)
        self.assertEqual(self.terminal.look(), 0)
        self.assertFalse(self.terminal.is_open)
        client = self.client()
        self.assertTrue(nothing_for(client))
        os.close(client)

    def test_a_client_that_hangs_up_is_no_error_and_its_bytes_are_heard(self):
        client = self.client()
        os.write(client, b"COM,0\r")
        os.close(client)
        self.terminal.look()
        self.assertTrue(self.terminal.is_open)
        self.assertEqual(self.terminal.read(), b"COM,0\r")
        self.assertEqual(self.terminal.read(), b"")
        self.terminal.look()
        self.assertFalse(self.terminal.is_open)

    def test_the_stream_leaves_room_for_replies(self):
        client = self.client()
        line = b"5,+2.0000E-02\r\n"
        written = 0
        while self.terminal.stream(line):
            written += len(line)
            self.assertLess(written, STREAM_WAITS + len(line))
            # ten lines a second at most: each has arrived before the next
            end = time.monotonic() + 5
            while waiting(client) < written and time.monotonic() < end:
                pass
        self.assertTrue(self.terminal.write(b"\x06\r\n"))
        self.assertTrue(received(client, written + 3).endswith(line + b"\x06\r\n"))
        self.assertTrue(self.terminal.stream(line))
        os.close(client)

    def test_a_message_is_never_cut(self):
        client = self.client()
        message = bytes(range(33, 97)) * 11 + b"\r\n"
        count = 0
        while self.terminal.write(message):
            count += 1
        read = received(client, len(message))
        while self.terminal.waits:
            read += received(client, len(message))
            self.terminal.go_on()
        self.assertEqual(read + received(client, count * len(message) - len(read)), message * count)
        self.assertTrue(self.terminal.write(message))
        os.close(client)

    def test_a_message_without_room_is_lost_whole(self):
        client = self.client()
        with mock.patch("os.write", side_effect=BlockingIOError):
            self.assertFalse(self.terminal.write(b"0\r\n"))
        self.assertFalse(self.terminal.waits)
        os.close(client)

    def test_a_message_that_was_begun_is_lost_with_its_client(self):
        client = self.client()
        with mock.patch("os.write", return_value=1):
            self.assertTrue(self.terminal.write(b"0\r\n"))
        os.close(client)
        self.assertEqual(self.terminal.look(), 2)
        self.assertFalse(self.terminal.waits)

    def test_a_client_that_says_nothing_is_no_error(self):
        client = self.client()
        self.assertEqual(self.terminal.read(), b"")
        os.close(client)

    def test_a_line_that_a_client_holds_alone_is_written_to(self):
        client = self.client()
        with mock.patch("os.open", side_effect=OSError):
            self.assertTrue(self.terminal.stream(b"0\r\n"))
        os.close(client)

    def test_a_client_sees_the_end(self):
        terminal = Terminal()
        client = os.open(terminal.name, os.O_RDWR | os.O_NOCTTY | os.O_NONBLOCK)
        terminal.close()
        self.assertEqual(os.read(client, 1), b"")
        os.close(client)
