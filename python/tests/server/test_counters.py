"""What is counted of commits."""
from __future__ import annotations

import unittest

from nrm.server.counters import BOUNDS, Counters


class Commits(unittest.TestCase):
    def test_times_are_counted_within_their_bounds(self) -> None:
        """One that took a bound exactly is within it, and each is within all larger ones."""
        counted = Counters()
        for seconds in (0.0004, 0.001, 0.0011, 0.5, 7.0):
            counted.commit(seconds, 2, seconds < 5)
        self.assertEqual(BOUNDS, (0.001, 0.002, 0.005, 0.01, 0.02, 0.05, 0.1, 0.2, 0.5, 1, 2, 5))
        self.assertEqual(dict(counted.within()), {
            0.001: 2, 0.002: 3, 0.005: 3, 0.01: 3, 0.02: 3, 0.05: 3, 0.1: 3, 0.2: 3, 0.5: 4, 1.0: 4, 2.0: 4, 5.0: 4,
            float("inf"): 5})
        self.assertEqual((counted.commits, counted.rows, counted.failed, counted.longest), (5, 10, 1, 7.0))
        self.assertAlmostEqual(counted.seconds, 7.5025)

    def test_each_has_its_own(self) -> None:
        Counters().commit(1.0, 1, True)
        self.assertEqual(sum(Counters().times), 0)
