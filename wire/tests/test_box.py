"""What the box hands from one side to the other."""

import contextlib
import io
import os
import unittest
from unittest import mock

from wire.box import Box
from wire.engine import EngineFault
from wire.gauges import Gauges
from wire.models import MODELS
from wire.readings import reasons
from wire.trace import Trace

KINDS = MODELS["362"].kinds


class Stand:
    """In the place of engine, terminal and clock: what it is asked, and what it answers."""

    def __init__(self, **answers):
        self.answers = answers
        self.asked = []

    def __getattr__(self, name):
        def call(*words):
            self.asked.append((name, *words))
            return self.answers.get(name)
        return call


class BoxTest(unittest.TestCase):
    def setUp(self):
        self.engine = Stand(ticks=b"", host=[], ask=(0, b""))
        self.terminal = Stand(read=b"", look=0)
        self.shown = io.StringIO()
        self.box = self.box_with(KINDS)

    def box_with(self, kinds):
        return Box(self.engine, self.terminal, Stand(due=7), Trace(self.shown), kinds)

    def gauge(self, line):
        """Whether a line ends the box, and what was told."""
        with contextlib.redirect_stderr(io.StringIO()) as told:
            return self.box.gauge(line), told.getvalue()

    def test_missed_ticks_reach_the_engine_and_one_line_the_host(self):
        self.engine.answers["ticks"] = b"line\r\n"
        self.box.tick()
        self.assertEqual(self.engine.asked, [("ticks", 7)])
        self.assertEqual(self.terminal.asked, [("stream", b"line\r\n")])

    def test_ticks_without_a_line_say_nothing(self):
        self.box.tick()
        self.assertEqual(self.terminal.asked, [])

    def test_host_bytes_and_what_they_bring(self):
        self.terminal.answers["read"] = b"PRX\r\x05"
        self.engine.answers["host"] = [b"\x06\r\n", b"", b"0\r\n"]
        self.box.hear()
        self.assertEqual(self.engine.asked, [("host", b"PRX\r\x05")])
        self.assertEqual(self.terminal.asked, [("read",), ("write", b"\x06\r\n"), ("write", b"0\r\n")])
        self.assertIn("host ->  PRX<CR><ENQ>", self.shown.getvalue())
        self.assertEqual(self.shown.getvalue().count("lost"), 2)

    def test_nothing_heard_and_nothing_left_are_not_shown(self):
        self.box.hear()
        self.box.look()
        self.assertEqual(self.shown.getvalue(), "")

    def test_what_a_client_left_unread_is_shown(self):
        self.terminal.answers["look"] = 12
        self.box.look()
        self.assertIn("12 bytes", self.shown.getvalue())

    def test_a_reading_that_is_taken(self):
        self.assertEqual(self.gauge(b"2 off\n"), (False, ""))
        self.assertEqual(self.engine.asked, [("ask", bytes.fromhex("020206050000000000"), reasons(KINDS))])
        self.assertIn("2 off", self.shown.getvalue())

    def test_a_reading_that_the_box_refuses_is_told(self):
        for answer, reason in {4: "no such channel", 5: "no reading is so"}.items():
            self.engine.answers["ask"] = answer, b""
            ended, told = self.gauge(b"2 IKR 5 1\n")
            self.assertFalse(ended)
            self.assertRegex(told, "answered %d: .*%s.*nothing changed\n$" % (answer, reason))
            self.assertEqual(told.count("\n"), 1)
        self.assertEqual(self.shown.getvalue(), "")

    def test_a_line_that_is_not_understood_reaches_no_engine(self):
        for line in b"\n", b"1 IKR 0 1.0", b"1 IKR 0 1E261\n", b"x" * 300 + b"\n":
            ended, told = self.gauge(line)
            self.assertFalse(ended)
            self.assertRegex(told, "^box: .*nothing changed")
            self.assertEqual(told.count("\n"), 1)
        self.assertEqual(self.engine.asked, [])

    def test_help_and_quit(self):
        with contextlib.redirect_stdout(io.StringIO()) as helped:
            self.assertEqual(self.gauge(b" help \n"), (False, ""))
        self.assertIn("cycle", helped.getvalue())
        self.assertEqual(self.gauge(b" quit \n"), (True, ""))
        self.assertEqual(self.engine.asked, [])

    def test_the_kinds_are_the_model_s(self):
        self.box = self.box_with(MODELS["262"].kinds)
        self.assertEqual(self.gauge(b"1 IKR11 0 1E-9\n"), (False, ""))
        self.assertEqual(self.engine.asked[0][1], bytes.fromhex("0201" "0800" "00" "002710" "f7"))
        self.assertRegex(self.gauge(b"1 IKR 0 1E-9\n")[1], "'IKR' .*: TPR, IKR9, .*, IKR11; nothing changed")
        self.assertEqual(len(self.engine.asked), 1)
        self.engine.answers["ask"] = 5, b""
        self.assertIn("kind 0 to 8", self.gauge(b"1 9 0 1E-9\n")[1])
        with contextlib.redirect_stdout(io.StringIO()) as helped:
            self.gauge(b"help\n")
        self.assertIn("TPR, IKR9, ", helped.getvalue())


class Rounds:
    """A clock that does one thing before each round, and is never waited for."""

    def __init__(self, *things):
        self._things = list(things)

    def wait(self):
        self._things.pop(0)()
        return 0

    def due(self):
        return 1


class RunTest(unittest.TestCase):
    def setUp(self):
        self.engine = Stand(ticks=b"", host=[], ask=(0, b""), died=EngineFault("ended"))
        self.terminal = Stand(read=b"", look=0)
        self.engine.fd, self.engine_end = os.pipe()
        self.terminal.fd, self.client = os.pipe()
        self.terminal.is_open, self.terminal.waits = True, False
        read, self.writer = os.pipe()
        self.gauges = Gauges(read)
        self.open = {self.engine.fd, self.engine_end, self.terminal.fd, self.client, read, self.writer}
        self.addCleanup(lambda: [os.close(fd) for fd in self.open])

    def write(self, data):
        return lambda: os.write(self.writer, data)

    def run_box(self, *things):
        Box(self.engine, self.terminal, Rounds(*things), Trace(), KINDS).run(self.gauges)

    def test_each_round_ticks_and_looks_until_quit(self):
        self.run_box(self.write(b"1 off\n"), bool, self.write(b"quit\ncycle\n"))
        asked = [name for name, *_ in self.engine.asked]
        self.assertEqual(asked, ["ticks", "ask", "ticks", "ticks"])
        self.assertEqual(self.terminal.asked, [("look",)] * 3)

    def test_what_comes_over_the_line_is_heard(self):
        self.run_box(lambda: os.write(self.client, b"x"), self.write(b"quit\n"))
        self.assertEqual(self.terminal.asked[:3], [("go_on",), ("read",), ("look",)])

    def test_a_line_that_is_not_open_is_not_waited_for(self):
        self.terminal.is_open = False
        self.run_box(lambda: os.write(self.client, b"x"), self.write(b"quit\n"))
        self.assertEqual(self.terminal.asked, [("look",)] * 2)

    def test_room_is_waited_for_while_a_message_waits_and_only_then(self):
        # the end of a pipe that can always be written to
        self.terminal.fd, self.terminal.waits = self.client, True
        self.run_box(lambda: setattr(self.terminal, "waits", True), lambda: setattr(self.terminal, "waits", False),
                     self.write(b"quit\n"))
        self.assertEqual(self.terminal.asked.count(("go_on",)), 2)

    def test_gauges_that_may_not_be_read_are_not(self):
        with mock.patch.object(self.gauges, "ready", side_effect=[False, True]):
            self.run_box(self.write(b"quit\n"), bool)
        self.assertEqual(len(self.engine.asked), 2)

    def test_the_engine_s_end_ends_it(self):
        def end():
            self.open.remove(self.engine_end)
            os.close(self.engine_end)
        with self.assertRaisesRegex(EngineFault, "ended"):
            self.run_box(end, self.write(b"quit\n"))

    def test_it_waits_up_to_the_next_tick(self):
        with mock.patch("select.poll") as poll:
            poll.return_value.poll.return_value = []
            Box(self.engine, self.terminal, Stand(wait=99_500_000), Trace(), KINDS)._ready(self.gauges)
        poll.return_value.poll.assert_called_once_with(99.5)
