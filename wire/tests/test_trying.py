"""A box that --try and tools/clients start, with a program in its place that keeps what it is told."""

import os
import sys
import tempfile
import unittest

from wire import conversation
from wire.trying import started

# its line is called by its options
PROGRAM = """#!%s
import sys
print("line", *sys.argv[1:], flush=True)
with open(__file__ + ".told", "w") as told:
    for line in sys.stdin:
        print(line, end="", file=told, flush=True)
        if line == "help\\n":
            print("help\\nquit", flush=True)
"""


class StartedTest(unittest.TestCase):
    def setUp(self):
        place = tempfile.TemporaryDirectory()
        self.addCleanup(place.cleanup)
        self.path = os.path.join(place.name, "box")
        with open(self.path, "w") as program:
            program.write(PROGRAM % sys.executable)
        os.chmod(self.path, 0o700)

    def told(self):
        with open(self.path + ".told", "rb") as told:
            return told.read()

    def test_one_with_options_and_readings_of_its_own(self):
        with started(self.path, "--model", "262", readings=b"1 IKR9 0 1\n") as line:
            self.assertEqual((line, self.told()), ("line --model 262", b"1 IKR9 0 1\nhelp\n"))

    def test_one_that_is_told_of_no_gauge(self):
        with started(self.path, readings=b""):
            self.assertEqual(self.told(), b"help\n")

    def test_where_nothing_is_said(self):
        with started(self.path) as line:
            self.assertEqual((line, self.told()), ("line", conversation.READINGS + b"help\n"))
