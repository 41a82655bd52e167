"""Jumps of the machine's clock: by how much the time of day went otherwise than a clock that nobody sets.

Nothing that is promised hangs on the time of day, but who reads the log and the journal must know where it jumped.
"""
from __future__ import annotations

import time
from typing import Callable

from nrm.server.counters import Counters
from nrm.server.event_log import Events

LEAST = 5.0  # seconds: less is how a clock is kept right


class Jumps:
    """Looks once a second whether the clock was set, or the machine slept, since the last look."""

    def __init__(self, events: Events, counters: Counters, wall: Callable[[], float] = time.time,
                 steady: Callable[[], float] = time.monotonic) -> None:
        self.events, self.counters, self.wall, self.steady = events, counters, wall, steady
        self.before = wall() - steady()

    def look(self) -> None:
        """Counts and tells a jump, with the seconds by which the clock went on, or went back below 0."""
        now = self.wall() - self.steady()
        by, self.before = now - self.before, now
        if abs(by) >= LEAST:
            self.counters.jumps += 1
            self.events.tell("time-jumped", seconds=by)
