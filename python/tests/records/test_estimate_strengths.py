"""Strengths of departures: gamma numbers of a size that is found again from what they make."""
from __future__ import annotations

import math
import random
import unittest

from nrm.records.estimate_strengths import about_one, least_place, likeliest_size, size_by_moments
from nrm.seasons.drawing import poisson


def made(size: float, mean: float, count: int, seed: int) -> list[int]:
    """Bookings about a mean times a gamma number about 1."""
    draw = random.Random(seed)
    return [poisson(mean * (draw.gammavariate(size, 1 / size) if size < math.inf else 1), draw) for _ in range(count)]


class Strengths(unittest.TestCase):
    def test_by_hand(self) -> None:
        """(4 + 8) / (4 + 4) = 3/2 and (4 + 2) / (4 + 4) = 3/4, over their mean of 9/8."""
        found = about_one(4.0, [8, 2], [4.0, 4.0])
        for strength, wanted in zip(found, (4 / 3, 2 / 3)):
            self.assertAlmostEqual(strength, wanted, 12)
        self.assertEqual(about_one(math.inf, [8, 2], [4.0, 4.0]), [1.0, 1.0])

    def test_the_size_is_found_again(self) -> None:
        """From many departures, by likelihood within a fifth, and by the moments of many products."""
        for size in (4.0, 16.0):
            found = likeliest_size(made(size, 300, 2000, 1), [300.0] * 2000)
            self.assertTrue(0.8 * size < found < 1.2 * size, found)
            booked = [made(size, 20, 100, seed) for seed in range(50)]
            by_moments = size_by_moments(booked, [[20.0] * 100 for _ in booked])
            self.assertTrue(0.8 * size < by_moments < 1.2 * size, by_moments)

    def test_poissons_numbers_have_none(self) -> None:
        """Nor has what strays less than they do, or one departure alone."""
        self.assertEqual(likeliest_size([30] * 20, [30.0] * 20), math.inf)
        self.assertEqual(likeliest_size([30], [10.0]), math.inf)
        self.assertEqual(likeliest_size([30, 0], [10.0, 0.0]), math.inf)
        self.assertEqual(size_by_moments([[30] * 20], [[30.0] * 20]), math.inf)
        self.assertEqual(size_by_moments([[30]], [[10.0]]), math.inf)

    def test_least_place(self) -> None:
        self.assertAlmostEqual(least_place(lambda x: (x - 2) ** 2, 0.0, 9.0), 2.0, 3)
