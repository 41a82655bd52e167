"""How the periods of a sale pass, and which of its closures count."""
from __future__ import annotations

import datetime
import unittest

from nrm import Stop
from nrm.records.closures import Closure
from nrm.records.log_demand import Demand
from nrm.records.log_requests import Request
from nrm.records.sale import Calendar, Sale, opening_of
from records.made_sales import CLOSURES, HALF, TWO, SalePlace

FIRST, SECOND = datetime.date(2025, 3, 7), datetime.date(2025, 3, 14)


class Calendars(unittest.TestCase):
    def test_the_days_of_the_periods(self) -> None:
        self.assertEqual([list(it) for it in Calendar([5, 2], 8).days], [[8, 7, 6], [5, 4, 3], [2, 1, 0]])

    def test_how_much_of_a_period_has_passed(self) -> None:
        """Days that count the same, then by their weights: the day 5 three times the day 4."""
        calendar = Calendar([5, 3], 6)
        found = [calendar.passed(1, at) for at in (-9, -5, -4.5, -4, -3.5, -3, 1)]
        self.assertEqual(found, [0, 0, 0.25, 0.5, 0.75, 1, 1])
        calendar.weigh({6: 1, 5: 3, 4: 1, 3: 1, 2: 1, 1: 1, 0: 1})
        self.assertEqual([calendar.passed(1, at) for at in (-5, -4.5, -4, -3.5, -3)], [0, 0.375, 0.75, 0.875, 1])
        self.assertEqual(calendar.shares([(-4.5, -3.5), (-3, -2)]), [0, 0.5, 0.25])

    def test_a_sale_that_begins_behind_a_cut_is_refused(self) -> None:
        self.assertRaises(Stop, Calendar, [5], 5)


class Sales(SalePlace):
    def sale(self) -> Sale:
        """Two departures of A, and closures of A, of B, which has no booking, and of a departure that has none."""
        requests = [Request(FIRST, 3, "A", 6), Request(SECOND, 4, "A", 2), Request(FIRST, 9, "A", 1),
                    Request(SECOND, 0, "A", 1)]
        closures = [Closure(SECOND, "A", -1.0, 1.0), Closure(SECOND, "A", -2.0, -1.0), Closure(FIRST, "B", -9.0, 1.0),
                    Closure(SECOND + datetime.timedelta(7), "A", -2.0, 1.0)]
        return Sale(requests, Demand(requests, [5]), closures)

    def test_what_was_booked_and_closed(self) -> None:
        sale = self.sale()
        self.assertEqual((sale.products, sale.seats), (["A", "B"], [[[1, 6], [0, 3]], [[0, 0], [0, 0]]]))
        self.assertEqual((sale.closed, len(sale.idle)), ({(0, 1): [(-2.0, 1.0)], (1, 0): [(-9.0, 1.0)]}, 1))
        self.assertEqual((sale.while_closed, sale.by_day[0, 0, 9]), (1, 1))

    def test_when_it_opens(self) -> None:
        requests = [Request(FIRST, 9, "A", 1)]
        for cuts, said, opens in (([5], None, 9), ([30], None, 31), ([5], 20, 20)):
            self.assertEqual(opening_of(requests, cuts, said), opens)
        for opens, wanted in (("8", "--opens 8, and a booking was made 9 days before departure"),
                              ("5", "--opens 5, and a booking")):
            self.want_in(self.refused(["--opens", opens], TWO, HALF), wanted)

    def test_closures_of_other_departures_are_told(self) -> None:
        found = self.demand(["--mean"], TWO, CLOSURES + "2025-03-21,A,2025-03-11,\n")
        self.assertEqual(found.out, self.told("log", *self.words(TWO)))
        self.want_in(found.err, "closures left out 1, of departures that have no history, the first on 2025-03-21\n")

    def test_bookings_while_closed_are_told(self) -> None:
        """Since the closures are then likely those of other products."""
        closed = CLOSURES + "2025-03-07,A,2025-02-24,\n2025-03-14,A,2025-03-01,\n"
        found = self.demand(["--mean", "--opens", "10"], TWO, closed)
        self.want_in(found.err, "seats booked on days on which their product was closed all day 10: are the closures "
                                "those of other products?\n")
        self.assertEqual(found.out.splitlines()[0], "periods,2,2")

    def test_cancelled_bookings_are_left_out(self) -> None:
        cancelled = TWO.replace("Seats\n", "Seats,Cancelled on\n").replace(",2\n", ",2,2025-03-12\n")
        found = self.demand(["--mean", "--cancelled", "cancelled on"], cancelled)
        self.assertEqual(found.out, "periods,2,2\ndemand,A,1,1,6\ndemand,A,2,1,0\n")
        self.want_in(found.err, "nrm-tools demand: rows left out 1, with something in cancelled on\n")
        none = TWO.replace("Seats\n", "Seats,Cancelled on\n")
        found = self.demand(["--mean", "--cancelled", "cancelled on"], none)
        self.assertEqual(found.out, self.told("log", *self.words(TWO)))
