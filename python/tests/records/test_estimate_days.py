"""Days of a period count by what is booked on them while products are open."""
from __future__ import annotations

import datetime
import unittest

from nrm.records.closures import Closure
from nrm.records.estimate_days import estimated, seats_while_open, weights_in
from nrm.records.estimate_rates import Known, Rates
from nrm.records.log_demand import Demand
from nrm.records.log_requests import Request
from nrm.records.sale import Calendar, Sale

DAY = datetime.date(2025, 3, 7)
ONE = Known([[0]], [[0]])


class Days(unittest.TestCase):
    def test_days_are_taken_together_until_enough_is_booked(self) -> None:
        """20 seats: days 5 and 4 have 24 for 12; day 3 has 30 for 10; days 2 and 1, with 5 for 10, are drawn towards
        the 3 of day 3."""
        booked, expected = {5: 10, 4: 14, 3: 30, 2: 2, 1: 3}, {5: 6.0, 4: 6.0, 3: 10.0, 2: 5.0, 1: 5.0}
        wanted = {5: 2.0, 4: 2.0, 3: 3.0, 2: 65 / 30, 1: 65 / 30}
        self.assertEqual(weights_in([5, 4, 3, 2, 1], booked, expected), wanted)
        self.assertEqual(weights_in([5, 4], {5: 0, 4: 0}, {5: 0.0, 4: 0.0}), {5: 1.0, 4: 1.0})

    def sale(self, booked: dict[int, int], departures: int, closed: float | None = None) -> Sale:
        """Departures of one product, each with the same bookings by day, of which the last is closed from a moment
        on."""
        days = [DAY + datetime.timedelta(7 * it) for it in range(departures)]
        requests = [Request(day, ahead, "A", seats) for day in days for ahead, seats in booked.items()]
        closures = [Closure(days[-1], "A", closed, 1.0)] if closed is not None else []
        return Sale(requests, Demand(requests, [3]), closures)

    def test_what_is_expected_of_a_day(self) -> None:
        """Two departures of 8 seats in the four days 3 to 0, and one of them closed for the last one and a half, with
        8 in 1 + 5/8."""
        sale = self.sale({6: 1, 2: 8}, 2, -0.5)
        rates = Rates(sale, Calendar([3], 6), ONE)
        rates.rate, rates.busy = [[1.0, 8.0]], [[1.0, 1.0]]
        self.assertEqual(seats_while_open(sale, rates, range(3, -1, -1), 1), {3: 4.0, 2: 4.0, 1: 3.0, 0: 2.0})

    def test_the_last_days_may_sell_more(self) -> None:
        """Nine departures sell 2 seats a day, and on the last day 18. A tenth that is closed for that day lacks three
        quarters of the period's demand, and not a quarter."""
        booked = {6: 2, 3: 2, 2: 2, 1: 2, 0: 18}
        even = self.sale(booked, 10)
        last = even.departures[-1]
        requests = [Request(day, ahead, "A", seats) for day in even.departures for ahead, seats in booked.items()
                    if day != last or ahead > 0]
        sale = Sale(requests, Demand(requests, [3]), [Closure(last, "A", 0.0, 1.0)])
        rates = estimated(sale, Calendar([3], 6), ONE)
        self.assertAlmostEqual(sum(map(sum, rates.unseen(0))), 18, delta=0.9)
        self.assertLess(sum(map(sum, Rates(sale, Calendar([3], 6), ONE).unseen(0))), 9)
