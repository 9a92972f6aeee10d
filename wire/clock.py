"""Ticks of 100 ms, counted by a clock that goes on while the machine sleeps."""

import time

TICK = 100_000_000


def boottime():
    """Nanoseconds since the machine started, its sleep included; CLOCK_MONOTONIC leaves that out."""
    return time.clock_gettime_ns(time.CLOCK_BOOTTIME)


class Clock:
    """Counts ticks from its start on, so that a late one makes none of the next late."""

    def __init__(self, now=boottime):
        self._now = now
        self._start = now()
        self._given = 0

    def due(self):
        """The number of ticks that have passed since it was last asked."""
        passed = (self._now() - self._start) // TICK
        due, self._given = passed - self._given, passed
        return due

    def wait(self):
        """Nanoseconds up to the next tick; 0 where it has passed."""
        return max(0, self._start + (self._given + 1) * TICK - self._now())
