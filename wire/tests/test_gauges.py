"""Lines about gauges out of pipes and FIFOs."""

import contextlib
import io
import os
import select
import tempfile
import unittest
from unittest import mock

from wire.gauges import Fifo, Gauges, standard_input
from wire.readings import LONGEST


class GaugesTest(unittest.TestCase):
    def setUp(self):
        read, self.write = os.pipe()
        self.addCleanup(os.close, read)
        self.gauges = Gauges(read)

    def come(self, data):
        os.write(self.write, data)
        return self.gauges.lines()

    def test_lines_in_pieces(self):
        self.assertEqual(self.come(b"1 o"), [])
        self.assertEqual(self.come(b"ff\n2 off\ncy"), [b"1 off\n", b"2 off\n"])
        self.assertEqual(self.come(b"cle\n\n"), [b"cycle\n", b"\n"])

    def test_the_end_of_the_input_does_not_end_a_line(self):
        self.assertEqual(self.come(b"1 IKR 0 1.0"), [])
        os.close(self.write)
        self.assertTrue(self.gauges.ready())
        self.assertEqual(self.gauges.lines(), [b"1 IKR 0 1.0"])
        self.assertFalse(self.gauges.ready())

    def test_a_line_that_is_too_long_is_one_line_and_not_kept(self):
        for _ in range(100):
            self.assertEqual(self.come(b"x" * 4000), [])
        line, = self.come(b"\n")
        self.assertGreater(len(line), LONGEST + 1)
        self.assertLess(len(line), 1000)
        self.assertEqual(self.come(b"1 off\n"), [b"1 off\n"])

    def test_a_cr_within_does_not_shorten_it(self):
        self.assertEqual(self.come(b"x" * LONGEST + b"\ry"), [])
        line, = self.come(b"\n")
        self.assertGreater(len(line.rstrip(b"\r\n")), LONGEST)

    def test_a_terminal_is_read_in_the_foreground_alone(self):
        with mock.patch("os.isatty", return_value=True):
            for group, ready in {os.getpgrp(): True, os.getpgrp() + 1: False}.items():
                with mock.patch("os.tcgetpgrp", return_value=group):
                    self.assertEqual(self.gauges.ready(), ready)
            with mock.patch("os.tcgetpgrp", side_effect=OSError):
                self.assertTrue(self.gauges.ready())
        with mock.patch("os.tcgetpgrp", return_value=os.getpgrp() + 1):
            self.assertTrue(self.gauges.ready())

    def test_a_terminal_that_is_gone_is_an_end(self):
        with mock.patch("os.read", side_effect=OSError):
            self.assertEqual(self.gauges.lines(), [])
        self.assertFalse(self.gauges.ready())

    def test_nothing_there_is_no_end(self):
        with mock.patch("os.read", side_effect=BlockingIOError):
            self.assertEqual(self.gauges.lines(), [])
        self.assertTrue(self.gauges.ready())

    def test_standard_input_where_there_is_one(self):
        with mock.patch("sys.stdin", object()):
            self.assertEqual(standard_input().fd, 0)
        with mock.patch("sys.stdin", None):
            self.assertFalse(standard_input().ready())


class FifoTest(unittest.TestCase):
    def setUp(self):
        place = tempfile.TemporaryDirectory()
        self.addCleanup(place.cleanup)
        self.path = os.path.join(place.name, "gauges")

    def written(self, fifo, data):
        with open(self.path, "wb") as writer:
            writer.write(data)
        found = []
        # the lines, then the end that the writer leaves
        for _ in range(2):
            self.assertTrue(select.select([fifo.fd], [], [], 0)[0])
            found += fifo.lines()
        self.assertFalse(select.select([fifo.fd], [], [], 0)[0])
        return found

    def test_one_writer_after_the_other(self):
        fifo = Fifo(self.path)
        self.assertEqual(self.written(fifo, b"1 off\n"), [b"1 off\n"])
        self.assertEqual(self.written(fifo, b"2 IKR 0 1.0"), [b"2 IKR 0 1.0"])
        self.assertEqual(self.written(fifo, b"13\n"), [b"13\n"])
        fifo.close()

    def test_it_is_made_and_taken_away(self):
        Fifo(self.path).close()
        self.assertFalse(os.path.exists(self.path))

    def test_one_that_was_there_stays(self):
        os.mkfifo(self.path)
        Fifo(self.path).close()
        self.assertTrue(os.path.exists(self.path))

    def test_another_file_is_none(self):
        with open(self.path, "w"):
            pass
        with self.assertRaises(OSError):
            Fifo(self.path)
        self.assertTrue(os.path.exists(self.path))

    def test_one_that_someone_took_away_is_told_and_no_error(self):
        fifo = Fifo(self.path)
        with contextlib.redirect_stderr(io.StringIO()) as told, open(self.path, "wb"):
            os.unlink(self.path)
            fifo.ended()
        self.assertRegex(told.getvalue(), "^box: .*no more lines about gauges can come\n$")
        self.assertFalse(fifo.ready())
        fifo.close()

    def test_a_link_to_one_is_one(self):
        os.mkfifo(self.path + ".fifo")
        os.symlink(self.path + ".fifo", self.path)
        Fifo(self.path).close()

    def test_writers_that_leave_leave_nothing_open(self):
        fifo = Fifo(self.path)
        before = len(os.listdir("/proc/self/fd"))
        self.written(fifo, b"1 off\n")
        self.assertEqual(len(os.listdir("/proc/self/fd")), before)
        fifo.close()
