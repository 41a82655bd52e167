"""Rates and strengths in turn: worked by hand, true rates found again from made sales, and what is taken where nothing
was seen."""
from __future__ import annotations

import datetime
import math
import random
import unittest

from nrm.records.closures import Closure
from nrm.records.estimate_rates import Known, Rates
from nrm.records.log_demand import Demand
from nrm.records.log_requests import Request
from nrm.records.sale import Calendar, Sale
from nrm.seasons.drawing import poisson

DAY = datetime.date(2025, 3, 7)
CUTS, OPENS = [3], 7  # two periods of four days


def day_of(departure: int) -> datetime.date:
    return DAY + datetime.timedelta(7 * departure)


def sale_of(booked: list[list[list[int]]], closed: dict[tuple[int, int], tuple[float, float]] | None = None) -> Sale:
    """A sale of these seats by product, departure and period, with spans in which a product of a departure was
    closed."""
    requests = [Request(day_of(h), 3 - 3 * t if t else 5, f"P{j}", seats) for j, by_departure in enumerate(booked)
                for h, by_period in enumerate(by_departure) for t, seats in enumerate(by_period) if seats]
    closures = [Closure(day_of(h), f"P{j}", first, last) for (j, h), (first, last) in (closed or {}).items()]
    return Sale(requests, Demand(requests, CUTS), closures)


def rates_of(sale: Sale, **more: object) -> Rates:
    everything = [range(len(sale.products))]
    return Rates(sale, Calendar(CUTS, OPENS), Known(**{"classes": everything, "parts": everything, **more}))


class ByHand(unittest.TestCase):
    def test_without_closures_a_rate_is_the_mean(self) -> None:
        rates = rates_of(sale_of([[[2, 4], [1, 5], [3, 3]]]))
        self.assertEqual((rates.rate, rates.mean(0), rates.unseen(0)), ([[2.0, 4.0]], 6.0, [[0.0, 0.0]] * 3))
        self.assertEqual((rates.size, rates.own_size, rates.never_open(0)), ([math.inf], math.inf, []))

    def test_the_error_is_that_of_the_bookings(self) -> None:
        """6 seats a departure in three, and one more that the prior counts: 6 / 4 is the square."""
        self.assertAlmostEqual(rates_of(sale_of([[[2, 4], [1, 5], [3, 3]]])).error(0) ** 2, 6 / 4, 12)

    def test_the_prior_counts_as_a_departure(self) -> None:
        """Open in one of two departures, with 4 seats: (4 + 6) / (1 + 1)."""
        sale = sale_of([[[2, 4], [2, 0]]], {(0, 1): (-3.0, 1.0)})
        rates = rates_of(sale, before={0: [2.0, 6.0]})
        self.assertEqual((rates.rate, rates.seen), ([[2.0, 5.0]], [[3.0, 2.0]]))
        self.assertEqual(rates.unseen(0), [[0.0, 0.0], [0.0, 5.0]])

    def test_a_course_that_products_have_in_common(self) -> None:
        """P0 sells 2 and 4 a departure, P1 4 where it was open, in the second period: so 2 in the first."""
        sale = sale_of([[[2, 4], [2, 4]], [[0, 4], [0, 4]]], {(1, 0): (-7.0, -3.0), (1, 1): (-7.0, -3.0)})
        rates = rates_of(sale)
        self.assertEqual(rates.never_open(1), [0])
        self.assertAlmostEqual(rates.rate[1][0], 2, 6)
        apart = rates_of(sale, classes=[[0], [1]])
        self.assertEqual((apart.rate[1][0], apart.never_open(1)), (0.0, [0]))

    def test_bookings_of_a_product_that_was_closed_make_no_large_rate(self) -> None:
        """Closures that can't be right: what was booked is then taken as it is, and nothing is divided by next to
        nothing."""
        sale = sale_of([[[0, 4], [0, 4]], [[3, 3], [3, 3]]], {(0, 0): (-7.0, 1.0), (0, 1): (-7.0, 1.0)})
        self.assertLess(max(map(max, rates_of(sale).rate)), 9)

    def test_nothing_is_booked(self) -> None:
        """Of a product that was open all along nothing was wanted, and is expected."""
        rates = rates_of(sale_of([[[0, 0], [0, 0]], [[3, 3], [3, 3]]], {(0, 1): (0.0, 1.0), (1, 1): (0.5, 1.0)}))
        self.assertEqual(len(rates.products), 2)
        self.assertEqual((rates.mean(0), rates.never_open(0)), (0.0, []))


class Again(unittest.TestCase):
    MEANS = [[3.0, 6.0], [2.0, 8.0], [5.0, 4.0], [1.0, 3.0]]

    def drawn(self, departures: int, seed: int, size: float) -> Sale:
        """Departures that are busy or quiet, each product closed from the moment on at which it has sold eight
        seats."""
        draw = random.Random(seed)
        booked, closed = [[[0, 0] for _ in range(departures)] for _ in self.MEANS], {}
        for h in range(departures):
            strength = draw.gammavariate(size, 1 / size)
            for j, means in enumerate(self.MEANS):
                times = sorted((t, draw.random()) for t, mean in enumerate(means)
                               for _ in range(poisson(mean * strength, draw)))
                for t, _ in times[:8]:
                    booked[j][h][t] += 1
                if len(times) >= 8:
                    t, u = times[7]
                    closed[j, h] = (-7.0 + 4 * (t + u), 1.0)
        return sale_of(booked, closed)

    def test_true_means_are_found_again(self) -> None:
        """On the mean of forty sales of 32 departures each within a twentieth, where the bookings alone are a sixth
        and more too few."""
        found = [rates_of(self.drawn(32, seed, 16.0)) for seed in range(40)]
        for j, means in enumerate(self.MEANS):
            self.assertAlmostEqual(sum(it.mean(j) for it in found) / 40, sum(means), delta=sum(means) / 20, msg=str(j))
        booked = sum(it.booked(j) for it in found for j in it.products) / 40
        self.assertLess(booked, 0.85 * sum(map(sum, self.MEANS)))
        self.assertTrue(8 < sorted(it.size[0] for it in found)[20] < 32)

    def test_the_truth_is_within_two_errors(self) -> None:
        """Of twelve departures, twenty times: at least 88 of 100 products."""
        within = [abs(rates.mean(j) - sum(self.MEANS[j])) <= 2 * rates.error(j)
                  for seed in range(20) for rates in [rates_of(self.drawn(12, seed, 16.0))] for j in rates.products]
        self.assertGreaterEqual(sum(within) / len(within), 0.88)
