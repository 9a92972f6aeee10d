"""A part of a conversation passes with a box that says what it should, and with no other."""

import unittest

from wire import conversation
from wire.client import ACK, ENQ, ETX, NAK, Client, Unexpected
from wire.models import MODELS, USUAL
from wire.readings import frame, text

NEWER = b"UNI FIL CAL DCD SP1 SP2 SP3 SP4 ERA EVA FMT LNG NAD PRE PRO PUC DCS".split()
OLDER = b"UNI FIL CAL DCD SP1 SP2 SP3 SP4 PUC DIC SCT WDT TLC LOC".split()


class Script(Client):
    """A client whose box says these lines, one after the other, and nothing to an ETX."""

    def __init__(self, *lines):
        self.lines = list(lines)
        self.sent = []

    def send(self, data):
        self.sent.append(data)

    def receive(self, patience=None):
        return b"" if self.sent[-1] == ETX else self.lines.pop(0)


class PartTest(unittest.TestCase):
    def passes(self, part, good, sent):
        """A part with a box that says good lines; then one that says something else in each of their places."""
        client = Script(*good)
        part(client)
        self.assertEqual((client.sent, client.lines), (sent, []))
        for at, line in enumerate(good):
            for other in ACK, NAK, b"0000\r\n", b"0" + line[1:], line[:-2], b"":
                if other != line:
                    with self.subTest(at=at, other=other), self.assertRaises(Unexpected):
                        part(Script(*good[:at], other, *good[at + 1:]))

    def test_what_the_boxes_are_told_is_understood(self):
        for model, lines in {USUAL: conversation.READINGS, "262": conversation.IKR_READINGS}.items():
            for line in lines.splitlines(keepends=True):
                frame(text(line), MODELS[model].kinds)

    def test_without_gauges_no_status_is_0(self):
        self.passes(conversation.without_gauges, [ACK, b"5,+2.0000E-02,5,+2.0000E-02\r\n"], [ETX, b"PRX\r", ENQ])

    def test_kinds(self):
        self.passes(conversation.kinds, [ACK, b"IKR9,IKR11\r\n"], [ETX, b"TID\r", ENQ])

    def test_identity(self):
        self.passes(conversation.identity, [ACK, b"302-510--\r\n", NAK, ACK, b"0001\r\n"],
                    [ETX, b"PNR\r", ENQ, b"AYT\r", b"ERR\r", ENQ])

    def test_change(self):
        lines = b"UNI,1", b"WDT,0"
        self.passes(lambda client: conversation.change(client, *lines), [ACK, ACK], [line + b"\r" for line in lines])

    def test_sheet(self):
        for model, names in {"361": NEWER, "362": NEWER, "262": OLDER}.items():
            written = [name + b"," + name.lower() + b"\r" for name in names]
            asked = [sent for name in names for sent in (name + b"\r", ENQ)]
            replies = [line for name in names for line in (ACK, name.lower() + b"\r\n")]

            def copied(second):
                first = Script(*replies)
                conversation.sheet(first, second, MODELS[model].sheet)
                self.assertEqual(first.sent, [ETX, *asked])

            self.passes(copied, [ACK] * len(names) + replies, [ETX, *written, *asked])
