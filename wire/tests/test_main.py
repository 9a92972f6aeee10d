"""The options of the command: bad input gets one clear line and status 2, before anything is built."""

import contextlib
import io
import os
import signal
import tempfile
import unittest
from unittest import mock

from wire import main
from wire.engine import EngineFault


class OptionsTest(unittest.TestCase):
    def setUp(self):
        place = tempfile.TemporaryDirectory()
        self.addCleanup(place.cleanup)
        self.place = place.name
        self.addCleanup(mock.patch.stopall)
        mock.patch.object(main, "Engine", side_effect=AssertionError("built")).start()
        mock.patch.object(main, "heed_signals").start()

    def path(self, name):
        return os.path.join(self.place, name)

    def refused(self, *words):
        """The line that a command is answered with."""
        with contextlib.redirect_stderr(io.StringIO()) as told:
            self.assertEqual(main.main(list(words)), 2, words)
        self.assertEqual(told.getvalue().count("\n"), 1)
        self.assertTrue(told.getvalue().startswith("box: "))
        return told.getvalue()

    def test_model(self):
        for word in "263", "0361", "TPG362", "", "36", "261", "62":
            self.assertRegex(self.refused("--model", word), "--model.*361.*362.*262")
        self.assertIn("--model", self.refused("--model"))

    def test_unknown_words(self):
        self.assertIn("--mod", self.refused("--mod", "361"))
        self.assertIn("gauges.txt", self.refused("gauges.txt"))
        self.assertIn("--try", self.refused("--try", "--trace"))

    def test_link(self):
        with open(self.path("file"), "w"):
            pass
        self.assertIn("there already", self.refused("--link", self.path("file")))
        self.assertIn("there already", self.refused("--link", self.place))
        self.assertIn("can be made", self.refused("--link", self.path("no/link")))
        self.refused("--link", "")
        self.refused("--link")
        self.assertEqual(os.listdir(self.place), ["file"])

    def test_gauges(self):
        with open(self.path("file"), "w"):
            pass
        self.assertIn("no FIFO", self.refused("--gauges", self.path("file")))
        self.assertIn("--gauges", self.refused("--gauges", self.path("no/fifo")))
        self.assertIn("--gauges", self.refused("--gauges", self.place))
        self.refused("--gauges", "")
        self.refused("--gauges")
        self.assertEqual(os.listdir(self.place), ["file"])

    def test_what_is_left_out(self):
        chosen = main.options([])
        self.assertEqual((chosen.model, chosen.link, chosen.gauges, chosen.trace), ("362", None, None, False))
        for model in "361", "362", "262":
            self.assertEqual(main.options(["--model", model]).model, model)

    def test_help_names_the_models(self):
        with contextlib.redirect_stdout(io.StringIO()) as helped, self.assertRaises(SystemExit) as end:
            main.options(["--help"])
        self.assertEqual(end.exception.code, 0)
        for text in "{361,362,262}", "A TPG 361, 362 or 262 on", "362 where it is not said":
            # a narrow screen breaks lines
            self.assertIn(text, " ".join(helped.getvalue().split()))

    def test_a_link_without_a_directory_is_made_here(self):
        main.check_link("a-name-that-is-not-there")

    def test_try_has_a_status(self):
        with mock.patch.object(main, "attempt", return_value=1):
            self.assertEqual(main.main(["--try"]), 1)


class LinkTest(unittest.TestCase):
    def setUp(self):
        place = tempfile.TemporaryDirectory()
        self.addCleanup(place.cleanup)
        self.path = os.path.join(place.name, "link")

    def test_it_is_gone_afterwards(self):
        with main.linked(self.path, "/dev/null"):
            self.assertEqual(os.readlink(self.path), "/dev/null")
        self.assertFalse(os.path.lexists(self.path))

    def test_one_that_leads_nowhere_is_replaced(self):
        os.symlink(self.path + ".gone", self.path)
        main.check_link(self.path)
        with main.linked(self.path, "/dev/null"):
            self.assertEqual(os.readlink(self.path), "/dev/null")

    def test_one_that_leads_to_this_terminal_is_replaced(self):
        os.symlink("/dev/null", self.path)
        with main.linked(self.path, "/dev/null"):
            self.assertEqual(os.readlink(self.path), "/dev/null")
        self.assertFalse(os.path.lexists(self.path))

    def test_one_that_leads_somewhere_stays(self):
        os.symlink("/dev/null", self.path)
        with self.assertRaises(main.BadOption):
            main.check_link(self.path)
        with self.assertRaises(main.BadOption), main.linked(self.path, "/dev/zero"):
            pass
        self.assertEqual(os.readlink(self.path), "/dev/null")

    def test_it_is_gone_however_the_box_ends(self):
        with self.assertRaises(KeyboardInterrupt), main.linked(self.path, "/dev/null"):
            raise KeyboardInterrupt
        self.assertFalse(os.path.lexists(self.path))

    def test_one_that_someone_took_away_is_no_error(self):
        with main.linked(self.path, "/dev/null"):
            os.unlink(self.path)

    def test_what_someone_put_in_its_place_stays(self):
        with main.linked(self.path, "/dev/null"):
            os.unlink(self.path)
            os.symlink("/dev/zero", self.path)
        self.assertEqual(os.readlink(self.path), "/dev/zero")


class ServeTest(unittest.TestCase):
    def setUp(self):
        place = tempfile.TemporaryDirectory()
        self.addCleanup(place.cleanup)
        self.place = place.name
        self.addCleanup(mock.patch.stopall)
        self.engine, self.terminal, self.box, self.heed = [
            mock.patch.object(main, name).start() for name in ("Engine", "Terminal", "Box", "heed_signals")]
        self.terminal.return_value.name = "/dev/null"

    def served(self, *words):
        """Status, what was printed and what was told."""
        with contextlib.redirect_stdout(io.StringIO()) as shown, contextlib.redirect_stderr(io.StringIO()) as told:
            status = main.main(list(words))
        return status, shown.getvalue(), told.getvalue()

    def test_the_name_and_what_to_do_next(self):
        status, shown, told = self.served("--model", "361")
        name, advice = shown.splitlines()
        self.assertEqual((status, name, told), (0, "/dev/null", ""))
        self.assertRegex(advice, "TPG 361.*picocom /dev/null.* go here,")
        self.heed.assert_called_once_with()

    def test_engine_and_kinds_are_the_model_s(self):
        for model, kind in {"361": "IKR", "362": "IKR", "262": "IKR9"}.items():
            self.assertIn("A TPG %s:" % model, self.served("--model", model)[1])
            self.assertEqual(self.engine.call_args[0][1], model)
            self.assertEqual(self.box.call_args[0][-1][1], kind)

    def test_link_and_fifo_are_there_while_it_runs(self):
        link, fifo = os.path.join(self.place, "link"), os.path.join(self.place, "fifo")
        there = []
        self.box.return_value.run.side_effect = lambda _: there.extend(os.listdir(self.place))
        name, advice = self.served("--link", link, "--gauges", fifo)[1].splitlines()
        self.assertEqual(name, link)
        self.assertRegex(advice, "picocom %s.* go to %s," % (link, fifo))
        self.assertEqual(sorted(there), ["fifo", "link"])
        self.assertEqual(os.listdir(self.place), [])

    def test_the_trace_is_shown_where_it_is_wanted(self):
        for words, lines in {(): 2, ("--trace",): 3}.items():
            self.box.side_effect = lambda engine, terminal, clock, trace, kinds: trace.heard(b"PRX") or mock.MagicMock()
            self.assertEqual(len(self.served(*words)[1].splitlines()), lines)

    def test_how_it_ends(self):
        ends = (None, 0, 0), (KeyboardInterrupt, 0, 0), (EngineFault("ended"), 1, 1), (OSError("full"), 1, 1)
        for end, status, lines in ends:
            self.box.return_value.run.side_effect = end
            ended, _, told = self.served()
            self.assertEqual((ended, told.count("\n")), (status, lines))
            self.engine.return_value.close.assert_called_once_with()
            self.terminal.return_value.close.assert_called_once_with()
            self.engine.reset_mock(), self.terminal.reset_mock()

    def test_who_read_what_is_shown_has_left(self):
        read, write = os.pipe()
        os.close(read)
        with os.fdopen(write, "w") as shown, mock.patch("sys.stdout", shown):
            self.assertEqual(main.main([]), 0)


class SignalsTest(unittest.TestCase):
    SIGNALS = signal.SIGINT, signal.SIGTERM, signal.SIGHUP

    def set_by(self, call, now=signal.SIG_DFL):
        with mock.patch("signal.signal") as done, mock.patch("signal.getsignal", return_value=now):
            call()
        return [words for words, _ in done.call_args_list]

    def test_each_ends_the_box(self):
        self.assertEqual(self.set_by(main.heed_signals), [(number, main.stop) for number in self.SIGNALS])

    def test_one_that_was_ignored_stays_so(self):
        self.assertEqual(self.set_by(main.heed_signals, signal.SIG_IGN), [])

    def test_a_second_one_does_nothing(self):
        def stopped():
            with self.assertRaises(KeyboardInterrupt):
                main.stop()
        self.assertEqual(self.set_by(stopped), [(number, signal.SIG_IGN) for number in self.SIGNALS])
