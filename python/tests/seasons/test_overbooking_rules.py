"""The rules of overbooking are what they say, by all ways in which those who have booked may come."""
from __future__ import annotations

import itertools
import unittest
from fractions import Fraction

from nrm.network import Network, rows_of
from nrm.seasons.overbooking_rules import Boarding, by_margin, by_rules, by_service, chances_of_more, simple, worth_of

THREE_LEGS = b"""periods,2,1
leg,A,10
leg,B,10
leg,IDLE,10
product,P,300,A
product,Q,100,A
product,R,260,A,B
demand,P,1,2
demand,Q,1,3
demand,Q,2,3
demand,R,2,2
"""


def ways(booked: int, show: Fraction) -> list[tuple[int, Fraction]]:
    """How many come, and its chance, in each way in which so many may come or stay away."""
    found = []
    for comes in itertools.product((False, True), repeat=booked):
        chance = Fraction(1)
        for it in comes:
            chance *= show if it else 1 - show
        found.append((sum(comes), chance))
    return found


def value(booked: int, seats: int, worth: Fraction, boarding: Boarding) -> Fraction:
    """What so many bookings bring on the mean, less what denied boardings cost."""
    denied = sum((max(0, come - seats) * chance for come, chance in ways(booked, boarding.show)), Fraction(0))
    return worth * booked - boarding.cost * denied


class Rules(unittest.TestCase):
    def test_chances_are_those_of_all_ways(self) -> None:
        for seats, show in itertools.product((0, 1, 3), (Fraction(1, 2), Fraction(9, 10), Fraction(1))):
            for booked, chance in zip(range(9), chances_of_more(seats, show)):
                wanted = sum(it for come, it in ways(booked, show) if come > seats)
                self.assertEqual(chance, wanted, (seats, show, booked))

    def test_by_hand(self) -> None:
        half = Boarding(Fraction(1, 2), 100, Fraction(1, 4))
        self.assertEqual(simple(1, half), 2)
        self.assertEqual(by_service(1, half), 2, "both of two come in a quarter of departures")
        self.assertEqual(by_margin(1, Fraction(25), half), 2, "100 times a half, times the half of the other")
        self.assertEqual(by_margin(1, Fraction(249, 10), half), 1)
        self.assertEqual(simple(48, Boarding(Fraction("0.9"), 500, Fraction(0))), 53)
        self.assertEqual(simple(9, Boarding(Fraction("0.9"), 500, Fraction(0))), 10, "though 0.9 is no double")
        self.assertEqual(simple(999, half), 999, "no more than a leg may have")

    def test_the_last_seat_of_the_marginal_rule_is_the_last_that_adds(self) -> None:
        for seats, worth in itertools.product((0, 1, 4), (Fraction(40), Fraction(190), Fraction(350))):
            for show in (Fraction(1, 2), Fraction(9, 10)):
                boarding = Boarding(show, 400, Fraction(0))
                last = by_margin(seats, worth, boarding)
                for booked in range(1, 11):
                    adds = value(booked, seats, worth, boarding) >= value(booked - 1, seats, worth, boarding)
                    self.assertEqual(adds, booked <= last, (seats, worth, show, booked, last))

    def test_where_a_rule_has_no_end_it_is_what_a_leg_may_have(self) -> None:
        free = Boarding(Fraction(9, 10), 0, Fraction(1))
        self.assertEqual((by_margin(5, Fraction(0), free), by_service(5, free)), (999, 999))
        all_come = Boarding(Fraction(1), 400, Fraction(1, 20))
        self.assertEqual((simple(5, all_come), by_service(5, all_come)), (5, 5))
        self.assertEqual(by_margin(5, Fraction(399), all_come), 5)
        self.assertEqual(by_margin(5, Fraction(400), all_come), 999, "who is denied has paid as much")

    def test_a_seat_is_worth_the_mean_of_what_is_asked(self) -> None:
        network = Network.of(rows_of(THREE_LEGS))
        worth = {it: worth_of(network, it) for it in network.legs}
        self.assertEqual(worth, {"A": Fraction(2 * 300 + 6 * 100 + 2 * 130, 10), "B": Fraction(130), "IDLE": 0})
        boarding = Boarding(Fraction(9, 10), 450, Fraction(1, 20))
        apart, as_one = by_rules(network, [["A"], ["B"], ["IDLE"]], boarding), by_rules(network, [["A", "B"]], boarding)
        self.assertEqual(apart["simple"], {"A": 11, "B": 11, "IDLE": 11})
        # all of eleven come with the chance 0.9 ** 11, so the eleventh costs 141.2; it brings 146 on A and 130 on B
        self.assertEqual(apart["marginal"], {"A": 11, "B": 10, "IDLE": 10})
        self.assertEqual(as_one["marginal"], {"A": 10, "B": 10}, "138 on the mean of both")
