"""Rules that choose authorised seats leg by leg, as if each leg were full and stood by itself, without any season.

They are those of the static models of overbooking (Talluri and van Ryzin, chapter 4): of so many who have booked, each
comes with one probability, whatever the others do. All chances are exact fractions.
"""
from __future__ import annotations

import itertools
from dataclasses import dataclass
from fractions import Fraction
from math import comb
from typing import Iterator, Sequence

from nrm.limits import MOST_SEATS
from nrm.network import Network

Seats = dict[str, int]  # authorised seats by leg
Units = Sequence[Sequence[str]]  # legs whose authorised seats are one number


@dataclass(frozen=True)
class Boarding:
    """What a rule knows of departures.

    show     the share of those who have booked that comes, above 0 and at most 1
    cost     of a denied boarding, in currency units
    service  the share of departures in which more may come than there are seats
    """
    show: Fraction
    cost: int
    service: Fraction


def simple(seats: int, boarding: Boarding) -> int:
    """The seats divided by the share that comes, rounded down: so many that on the mean the seats suffice."""
    return min(MOST_SEATS, int(seats / boarding.show))


def chances_of_more(seats: int, show: Fraction) -> Iterator[Fraction]:
    """The chance that more come than there are seats, if 0 have booked, if 1 has, and so on.

    One booking more makes it so where just as many come as there are seats, and the one who has booked last comes too.
    """
    more = Fraction(0)
    for booked in itertools.count():
        yield more
        if booked >= seats:
            more += show * comb(booked, seats) * show ** seats * (1 - show) ** (booked - seats)


def by_service(seats: int, boarding: Boarding) -> int:
    """The most seats that can be booked if more than there are come in no larger share of departures than is said."""
    for booked, chance in enumerate(chances_of_more(seats, boarding.show)):
        if chance > boarding.service or booked > MOST_SEATS:
            return booked - 1
    raise AssertionError("the chances don't end")


def by_margin(seats: int, worth: Fraction, boarding: Boarding) -> int:
    """The most seats of which the last is worth its cost: what it brings is at least the cost of a denied boarding
    times the chance that who has booked it comes, and that the seats are taken by the others."""
    if not seats:
        return MOST_SEATS if worth >= boarding.cost * boarding.show else 0
    for others, chance in enumerate(chances_of_more(seats - 1, boarding.show)):
        if worth < boarding.cost * boarding.show * chance or others >= MOST_SEATS:
            return others
    raise AssertionError("the chances don't end")


def worth_of(network: Network, leg: str) -> Fraction:
    """What a seat of a leg brings on the mean: each seat asked for brings its fare, of which a product of several legs
    leaves each an equal part; 0 if nothing was asked for."""
    asked = [(it.demand_in_all(), Fraction(it.fare, len(it.legs))) for it in network.products_on(leg)]
    seats = sum(count for count, _ in asked)
    return sum((count * fare for count, fare in asked), Fraction(0)) / seats if seats else Fraction(0)


def by_rules(network: Network, units: Units, boarding: Boarding) -> dict[str, Seats]:
    """The authorised seats by each rule. Of legs with one number a seat is worth what it is on the mean of them."""
    found: dict[str, Seats] = {"simple": {}, "service": {}, "marginal": {}}
    for unit in units:
        seats, worth = network.legs[unit[0]].seats, sum(worth_of(network, it) for it in unit) / Fraction(len(unit))
        numbers = simple(seats, boarding), by_service(seats, boarding), by_margin(seats, worth, boarding)
        for rule, number in zip(found, numbers):
            found[rule].update(dict.fromkeys(unit, number))
    return found
