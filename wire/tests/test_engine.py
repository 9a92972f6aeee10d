"""Frames over pipes, with a program in the engine's place that answers as a test wants."""

import os
import select
import sys
import unittest
from unittest import mock

from wire.engine import Engine, EngineFault

# answers a fresh box with 00, then each frame with 00 and the frame itself
ECHO = "import sys\nfor line in sys.stdin: print('00' + line.strip() * (line[:2] != '04'), flush=True)"
# answers ticks with three lines, and the last 45 of three hundred with none
LINES = "import sys\nfor line in sys.stdin: print({'03FF': '00410D0A420D0A430D0A'}.get(line.strip(), '00'), flush=True)"


class EngineTest(unittest.TestCase):
    def engine(self, program, model="362"):
        engine = Engine([sys.executable, "-c", program], model)
        self.addCleanup(engine.close)
        return engine

    def test_the_model_is_asked_for(self):
        for model, frame in {"361": "0401", "362": "0402", "262": "0403"}.items():
            self.engine("print('00' if input() == '%s' else '02')" % frame, model)

    def test_host_bytes_sixty_a_frame(self):
        data = bytes(range(130))
        sent = list(self.engine(ECHO).host(data))
        self.assertEqual(sent, [b"\x01" + data[:60], b"\x01" + data[60:120], b"\x01" + data[120:]])
        self.assertEqual(list(self.engine(ECHO).host(b"")), [])

    def test_every_tick_is_given(self):
        engine = self.engine(ECHO)
        self.assertEqual(engine.ticks(0), b"")
        self.assertEqual(engine.ticks(1), b"\x03\x01")
        self.assertEqual(engine.ticks(255), b"\x03\xff")
        self.assertEqual(engine.ticks(600), b"\x03\x5a")

    def test_of_many_lines_the_last(self):
        engine = self.engine(LINES)
        self.assertEqual(engine.ticks(255), b"C\r\n")
        self.assertEqual(engine.ticks(300), b"C\r\n")
        self.assertEqual(engine.ticks(45), b"")

    def test_an_answer_to_a_reading(self):
        engine = self.engine("input(); print('00', flush=True); input(); print('05', flush=True)")
        self.assertEqual(engine.ask(b"\x02", {4, 5}), (5, b""))

    def test_a_refusal_that_cannot_be(self):
        for answer in "01", "04", "FF":
            with self.subTest(answer), self.assertRaisesRegex(EngineFault, "answers %s to 0301" % answer):
                self.engine("input(); print('00', flush=True); input(); print('%s', flush=True)" % answer).ticks(1)

    def test_its_death_is_told(self):
        with self.assertRaisesRegex(EngineFault, "ended .status 3"):
            self.engine("raise SystemExit(3)")
        with self.assertRaisesRegex(EngineFault, "SIGKILL"):
            self.engine("import os; input(); print('00', flush=True); os.kill(os.getpid(), 9)").ticks(1)

    def test_it_ends_before_it_is_asked(self):
        engine = self.engine("input(); print('00', flush=True)")
        select.select([engine.fd], [], [], 5)
        with self.assertRaisesRegex(EngineFault, "status 0"):
            engine.ticks(1)

    def test_what_it_started_ends_with_it(self):
        engine = self.engine("import os; os.system('read line; echo 00; sleep 9')")
        output = os.dup(engine.fd)
        self.addCleanup(os.close, output)
        engine.close()
        self.assertTrue(select.select([output], [], [], 5)[0])

    def test_one_that_does_not_start_is_closed(self):
        with mock.patch.object(Engine, "close", autospec=True, side_effect=Engine.close) as closed:
            with self.assertRaises(EngineFault):
                self.engine("print('02')")
        closed.assert_called_once()
