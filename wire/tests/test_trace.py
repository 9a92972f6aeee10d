"""The tracer's names, and its lines."""

import contextlib
import datetime
import io
import unittest

from wire.trace import Trace, named


class NamedTest(unittest.TestCase):
    def test_what_the_protocol_sends(self):
        self.assertEqual(named(b"\x06\r\n"), "<ACK><CR><LF>")
        self.assertEqual(named(b"\x15\r\n"), "<NAK><CR><LF>")
        self.assertEqual(named(b"\x03PRX\r\x05"), "<ETX>PRX<CR><ENQ>")

    def test_every_control_byte_has_a_name_of_its_own(self):
        self.assertEqual(
            named(bytes([*range(32), 127])),
            "<NUL><SOH><STX><ETX><EOT><ENQ><ACK><BEL><BS><HT><LF><VT><FF><CR><SO><SI>"
            "<DLE><DC1><DC2><DC3><DC4><NAK><SYN><ETB><CAN><EM><SUB><ESC><FS><GS><RS><US><DEL>")

    def test_characters_are_themselves(self):
        for byte in set(range(32, 127)) - set(b"<>"):
            self.assertEqual(named(bytes([byte])), chr(byte))

    def test_form_feed_is_not_the_byte_ff(self):
        self.assertEqual(named(b"\x0c\xff"), "<FF><0xFF>")

    def test_other_bytes_and_brackets_are_hexadecimal(self):
        self.assertEqual(named(b"\x80\xff"), "<0x80><0xFF>")
        self.assertEqual(named(b"<CR>"), "<0x3C>CR<0x3E>")

    def test_different_bytes_never_look_alike(self):
        self.assertEqual(len({named(bytes([byte])) for byte in range(256)}), 256)


class TraceTest(unittest.TestCase):
    def shown(self, tell):
        output = io.StringIO()
        tell(Trace(output, lambda: datetime.datetime(2024, 2, 29, 7, 5, 9, 12345)))
        return output.getvalue()

    def test_directions(self):
        self.assertEqual(self.shown(lambda t: t.heard(b"PRX\r")), "07:05:09.012 host ->  PRX<CR>\n")
        self.assertEqual(self.shown(lambda t: t.sent(b"\x06\r\n", True)), "07:05:09.012 host <-  <ACK><CR><LF>\n")
        self.assertEqual(self.shown(lambda t: t.gauge("2 off")), "07:05:09.012 gauge -> 2 off\n")

    def test_what_is_lost(self):
        self.assertEqual(self.shown(lambda t: t.sent(b"0\r\n", False)), "07:05:09.012 lost <-  0<CR><LF>\n")
        self.assertIn("lost <-  7 bytes", self.shown(lambda t: t.left(7)))

    def test_without_an_output_it_is_silent(self):
        with contextlib.redirect_stdout(io.StringIO()) as shown:
            Trace().heard(b"PRX\r")
        self.assertEqual(shown.getvalue(), "")

    def test_a_line_is_shown_at_once(self):
        output = io.TextIOWrapper(io.BytesIO())
        Trace(output).heard(b"PRX\r")
        self.assertIn(b"PRX", output.buffer.getvalue())
