"""What the server counts as things happen: clients, bytes, commits, programs."""
from __future__ import annotations

import bisect
from collections import Counter
from itertools import accumulate

BOUNDS = (0.001, 0.002, 0.005, 0.01, 0.02, 0.05, 0.1, 0.2, 0.5, 1.0, 2.0, 5.0)  # of commits, in seconds


class Counters:
    """Numbers since the server began.

    came         clients that were taken
    turned_away  those that weren't, since as many as may be were there
    unread       those dropped that didn't take their replies
    closed       why clients were closed, and how many for that
    bytes_in     what came from clients
    bytes_out    what they were sent
    commits      that wrote rows, or were to; and the seconds of all, and of the longest
    rows         that were written
    failed       commits that didn't write all that they were to
    times        commits by the first bound that they didn't exceed, and at the end those beyond the last
    begun        programs, and those that have ended
    passed       clients that were passed on to other servers
    taken        networks, and those that were lost to other servers
    jumps        of the machine's clock
    """

    def __init__(self) -> None:
        self.came = self.turned_away = self.unread = self.bytes_in = self.bytes_out = 0
        self.closed: Counter[str] = Counter()
        self.commits = self.rows = self.failed = 0
        self.seconds = self.longest = 0.0
        self.times = [0] * (len(BOUNDS) + 1)
        self.begun = self.ended = self.passed = self.taken = self.lost = self.jumps = 0

    def running(self) -> int:
        """The programs that run now."""
        return self.begun - self.ended

    def commit(self, seconds: float, rows: int, is_whole: bool) -> None:
        """Counts a commit, with the rows that it wrote, and whether these are all that it was to write."""
        self.commits += 1
        self.seconds += seconds
        self.longest = max(self.longest, seconds)
        self.rows += rows
        self.failed += not is_whole
        self.times[bisect.bisect_left(BOUNDS, seconds)] += 1

    def within(self) -> tuple[tuple[float, int], ...]:
        """How many commits took at most each of the bounds, the last of which none exceeds."""
        return tuple(zip((*BOUNDS, float("inf")), accumulate(self.times)))
