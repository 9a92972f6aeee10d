"""The text of readings: what a line says, and that nothing is rounded, wrapped or guessed."""

import re
import unittest

from wire import readings
from wire.models import MODELS
from wire.readings import LONGEST, NotUnderstood, help_text, reasons, text, value

# what TID calls the kinds from 0 on
NEWER, OLDER = "TPR/PCR IKR PKR PBR IMR CMR/APR noSEn noid", "TPR IKR9 PKR PBR IMR CMR noSEn noid IKR11"
NAMES = {"361": NEWER.split(), "362": NEWER.split(), "262": OLDER.split()}


def frame(line, model="362"):
    return readings.frame(line, MODELS[model].kinds)


class ValueTest(unittest.TestCase):
    def test_numbers(self):
        for word, parts in {
            "1.013E3": (0, 10130, 3),
            "1013": (0, 10130, 3),
            "1013.2": (0, 10132, 3),
            "+5e-9": (0, 50000, -9),
            "-1.0000E-03": (1, 10000, -3),
            ".00102": (0, 10200, -3),
            "5.": (0, 50000, 0),
            "99999": (0, 99999, 4),
            "0012E+01": (0, 12000, 2),
            "1E127": (0, 10000, 127),
            "1E-128": (0, 10000, -128),
        }.items():
            with self.subTest(word):
                self.assertEqual(value(word), parts)

    def test_zero_has_no_sign_and_no_exponent(self):
        for word in "0", "-0", "0.000", ".0", "0E261":
            with self.subTest(word):
                self.assertEqual(value(word), (0, 0, 0))

    def test_zeros_at_either_end_are_no_digits(self):
        self.assertEqual(value("1013.000000"), (0, 10130, 3))
        self.assertEqual(value("123450000"), (0, 12345, 8))
        self.assertEqual(value("0.0000000012345"), (0, 12345, -9))

    def test_more_than_five_digits_are_refused_and_not_rounded(self):
        for word in "1013.25", "1.000001", "100001", "123456E-3", "0.0123456":
            with self.subTest(word), self.assertRaisesRegex(NotUnderstood, "more than five digits"):
                value(word)

    def test_exponent_is_tested_before_it_is_a_byte(self):
        for word in "1E261", "1E128", "1E-129", "1E256", "0.1E129", "1E" + "9" * 100, "9" * 5 + "0" * 130:
            with self.subTest(word), self.assertRaisesRegex(NotUnderstood, "beyond any reading"):
                value(word)

    def test_what_is_no_number(self):
        for word in "", ".", "+", "E3", ".E3", "1E", "1E+", "1,013", "1.0.1", "0x10", "nan", "inf", "1_0", "--1", "1 ":
            with self.subTest(word), self.assertRaisesRegex(NotUnderstood, "is no number"):
                value(word)


class FrameTest(unittest.TestCase):
    def test_a_reading(self):
        self.assertEqual(frame("1 CMR/APR 0 1.013E3").hex(), "0201" "0500" "00" "002792" "03")
        self.assertEqual(frame("  2  PKR 1  -9.9999E-20 ").hex(), "0202" "0201" "01" "01869f" "ec")

    def test_each_kind_by_name_and_by_number(self):
        for model, names in NAMES.items():
            for number, name in enumerate(names):
                for word in name, name.lower(), name.upper(), str(number):
                    with self.subTest(word, model=model):
                        self.assertEqual(frame("1 %s 0 1" % word, model)[2], number)

    def test_a_name_that_the_model_s_tid_never_sends_is_told_those_that_it_does(self):
        every = {*NEWER.split(), *OLDER.split(), "PCR", "APR", "IKR1"}
        for model, names in NAMES.items():
            for word in every.difference(names):
                told = "kind '%s' is no number and none of this model's: %s$" % (word, ", ".join(names))
                with self.subTest(word, model=model), self.assertRaisesRegex(NotUnderstood, told):
                    frame("1 %s 0 1" % word, model)

    def test_off_is_no_sensor_with_its_status(self):
        for model in NAMES:
            self.assertEqual(frame("2 off", model).hex(), "0202" "0605" "00" "000000" "00")

    def test_power_cycle(self):
        self.assertEqual(frame("cycle").hex(), "05")

    def test_zeros_before_a_number_do_not_change_it(self):
        self.assertEqual(frame("0001 05 000 1"), frame("1 5 0 1"))

    def test_what_the_box_decides_reaches_it(self):
        self.assertEqual(frame("0 255 9 1E21").hex(), "0200" "ff09" "00" "002710" "15")

    def test_numbers_that_no_byte_holds(self):
        lines = {"256 off": "channel", "1 256 0 1": "kind", "1 0 261 1": "status", "1000 0 0 1": "channel"}
        for line, what in lines.items():
            with self.subTest(line), self.assertRaisesRegex(NotUnderstood, what + " '.*' is no whole number from 0 to"):
                frame(line)

    def test_what_is_left_blank_is_no_zero(self):
        for line in "1 CMR/APR 0", "1 CMR/APR", "1", "off", "1 CMR/APR  1E3", "CMR/APR 0 1E3":
            with self.subTest(line), self.assertRaisesRegex(NotUnderstood, "is no reading"):
                frame(line)
        for line in "", "   ":
            with self.subTest(line), self.assertRaisesRegex(NotUnderstood, "an empty line"):
                frame(line)

    def test_other_lines(self):
        lines = ("1 CMR 0 1", "1 - 0 1", "-1 off", "+1 off", "1x off", "1 off 1", "Off 1", "1 OFF", "1 IKR -1 1",
                 "1 IKR 0x 1", "1 IKR 0 x", "1 IKR 0 1 1", "cycle 1")
        for line in lines:
            with self.subTest(line), self.assertRaises(NotUnderstood):
                frame(line)


class TextTest(unittest.TestCase):
    def test_either_end_of_a_line(self):
        self.assertEqual(text(b"1\toff\r\n"), "1 off")
        self.assertEqual(text(b"cycle\n"), "cycle")

    def test_a_line_that_does_not_end_says_nothing(self):
        for line in b"1 IKR 0 1.0", b"quit", b"\r":
            with self.subTest(line), self.assertRaisesRegex(NotUnderstood, "may be cut"):
                text(line)

    def test_a_line_that_is_too_long(self):
        for end in b"\n", b"\r\n":
            self.assertEqual(text(b"x" * LONGEST + end), "x" * LONGEST)
            with self.assertRaisesRegex(NotUnderstood, "more than 200"):
                text(b"x" * LONGEST + b"x" + end)

    def test_bytes_that_are_no_characters_are_shown_and_not_understood(self):
        self.assertEqual(text(b"\x1b[2J\xff\n"), "<ESC>[2J<0xFF>")
        with self.assertRaises(NotUnderstood):
            frame(text(b"1 IKR 0 1\x00\n"))

    def test_help_names_every_word_and_the_model_s_kinds(self):
        for model, names in NAMES.items():
            helped = help_text(MODELS[model].kinds)
            for word in "off", "cycle", "help", "quit", "hPa", "number from 0 on: %s\n" % ", ".join(names):
                with self.subTest(word, model=model):
                    self.assertIn(word, helped)

    def test_what_help_gives_as_an_example_is_understood(self):
        for model in NAMES:
            reading, off = re.findall(r"\(([12] .*)\)", help_text(MODELS[model].kinds))
            self.assertEqual(frame(reading, model)[:3].hex(), "020102")
            self.assertEqual(frame(off, model)[:3].hex(), "020206")

    def test_why_a_reading_is_refused_names_the_highest_kind(self):
        for model, names in NAMES.items():
            self.assertIn("kind 0 to %d," % (len(names) - 1), reasons(MODELS[model].kinds)[5])

    def test_one_cr_belongs_to_the_end(self):
        self.assertEqual(text(b"cycle\r\r\n"), "cycle<CR>")
