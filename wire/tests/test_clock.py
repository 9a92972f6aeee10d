"""Ticks come ten a second, none is lost and none drifts."""

import time
import unittest
from unittest import mock

from wire import clock

MS = 1_000_000


class Hands:
    """A clock that a test moves, in nanoseconds."""

    def __init__(self):
        self.at = 123_456_789

    def __call__(self):
        return self.at


class ClockTest(unittest.TestCase):
    def setUp(self):
        self.hands = Hands()
        self.clock = clock.Clock(self.hands)

    def after(self, nanoseconds):
        self.hands.at += nanoseconds
        return self.clock.due()

    def test_first_tick_is_a_whole_interval_later(self):
        self.assertEqual(self.clock.due(), 0)
        self.assertEqual(self.after(100 * MS - 1), 0)
        self.assertEqual(self.after(1), 1)
        self.assertEqual(self.clock.due(), 0)

    def test_late_ticks_do_not_drift(self):
        # each looked at 37 ms late: ten seconds still have a hundred
        self.assertEqual(sum(self.after(137 * MS) for _ in range(73)), 100)
        self.assertEqual(self.clock.wait(), 99 * MS)

    def test_wait_ends_with_the_tick(self):
        self.assertEqual(self.clock.wait(), 100 * MS)
        self.after(30 * MS)
        self.assertEqual(self.clock.wait(), 70 * MS)
        self.hands.at += self.clock.wait()
        self.assertEqual(self.clock.wait(), 0)
        self.assertEqual(self.clock.due(), 1)

    def test_wait_is_never_negative(self):
        self.hands.at += 500 * MS
        self.assertEqual(self.clock.wait(), 0)

    def test_missed_ticks_are_all_due(self):
        self.after(250 * MS)
        self.assertEqual(self.after(8 * 3600 * 1000 * MS), 8 * 3600 * 10)
        self.assertEqual(self.clock.wait(), 50 * MS)

    def test_sleep_of_the_machine_counts(self):
        with mock.patch("time.clock_gettime_ns", return_value=7) as asked:
            self.assertEqual(clock.boottime(), 7)
        asked.assert_called_once_with(time.CLOCK_BOOTTIME)

    def test_it_is_the_one_that_is_asked(self):
        with mock.patch("time.clock_gettime_ns", side_effect=[0, 700 * MS]):
            self.assertEqual(clock.Clock().due(), 7)
