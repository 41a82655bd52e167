"""The demand behind a sale: a rate for each product and period, and a strength for each departure, estimated in turn.

Of product j, departure h and period t a sale shows the seats S and the share e of the period in which the product was
open:

    S_jht ~ Poisson(rate_jt F_ph G_jh e_jht),   F_ph ~ Gamma(k_p, k_p),   G_jh ~ Gamma(k', k')

where p is the part of the network that j is in: F says how busy a departure is there, and G beside it how busy for one
product. Then

    rate_jt = (sum_h S_jht + prior_jt) / (sum_h F_ph G_jh e_jht + 1)
    F_ph    = (k_p + sum S) / (k_p + sum rate G e), over its mean;   G_jh likewise with k'
    unseen  = rate_jt F_ph G_jh (1 - e_jht)
    error^2 = sum_t rate_jt / seen_jt + (sum_t rate_jt)^2 (1 / k_p + 1 / k') / H

The first line of these holds whatever closed the product, since a Poisson process that is watched up to a stopping
time has the likelihood rate^S exp(-rate e). F and G are needed because busy departures close early, which alone would
make rates too low. The prior counts as one departure more. Demand that wasn't seen, and other ways to estimate it, are
the subject of chapter 9 of Talluri and van Ryzin, The Theory and Practice of Revenue Management.
"""
from __future__ import annotations

import math
import operator
from dataclasses import dataclass, field
from typing import Mapping, Sequence

from nrm.records.estimate_strengths import about_one, likeliest_size, size_by_moments
from nrm.records.sale import Calendar, Sale

ROUNDS, NEAR = 100, 1e-4
ROUNDS_OF_COURSE = 20
OF_OWN = 10  # how much farther a strength of a product may move, since it has fewer bookings than a departure has
LEAST_SEEN = 1e-9  # departures: below it a product was never open


@dataclass(frozen=True)
class Known:
    """What is known of products, by their numbers, beside their sale.

    classes      those that have one course of the sale over the periods, the dear and the cheap
    parts        those whose departures are busy together
    before       of some, the demand that was reckoned with so far, by period
    is_by_class  whether one that was never open gets the mean rate of its class
    """
    classes: Sequence[Sequence[int]]
    parts: Sequence[Sequence[int]]
    before: Mapping[int, list[float]] = field(default_factory=dict)
    is_by_class: bool = False


class Rates:
    """The rate of each product and period, and the strengths of each departure.

    closed        of each product, the departures and periods in which it was closed, with the share of the period
    rate          product x period
    prior         the rates that count as one departure more
    seen          product x period: by how many departures, of strength 1 and open all along, the rate is known
    strength      part x departure
    size          of each part, that of its strengths; infinite if they are all 1
    own           product x departure: the strength of its own
    own_size      of these, for all products
    busy          product x departure: both strengths together
    """

    def __init__(self, sale: Sale, calendar: Calendar, known: Known) -> None:
        self.sale, self.known = sale, known
        self.products, self.departures = range(len(sale.products)), range(len(sale.departures))
        self.periods = range(sale.periods)
        self.closed: list[list[tuple[int, int, float]]] = [[] for _ in self.products]
        for (j, h), spans in sale.closed.items():
            self.closed[j] += [(h, t, share) for t, share in enumerate(calendar.shares(spans)) if share > 0]
        self.part_of = {j: p for p, part in enumerate(known.parts) for j in part}
        self.strength, self.size = [[1.0] * len(sale.departures) for _ in known.parts], [math.inf for _ in known.parts]
        self.own, self.own_size = [[1.0] * len(sale.departures) for _ in sale.products], math.inf
        self.booked_by_departure = [[sum(seats) for seats in by_departure] for by_departure in sale.seats]
        self.booked_by_period = [[sum(seats) for seats in zip(*by_departure)] for by_departure in sale.seats]
        self.booked_in_part = [[sum(self.booked_by_departure[j][h] for j in part) for h in self.departures]
                               for part in known.parts]
        self.prior, self.weight = [[0.0 for _ in self.periods] for _ in self.products], 0
        self.settle()
        for some in known.classes:
            for j, rates in zip(some, self.common(some)):
                self.prior[j] = known.before.get(j, rates)
        self.weight = 1
        self.settle()

    def settle(self) -> None:
        """Makes rates and strengths in turn until they stay."""
        for self.rounds in range(1, ROUNDS + 1):
            self.busy = [list(map(operator.mul, self.strength[self.part_of[j]], self.own[j])) for j in self.products]
            self.make_rates()
            expected = [self.expected(j) for j in self.products]
            if max(self.make_strengths(expected), self.make_own(expected)) < NEAR:
                break

    def make_rates(self) -> None:
        """New rates, by these strengths."""
        self.seen, self.rate = list[list[float]](), list[list[float]]()
        for j, busy in enumerate(self.busy):
            seen = [sum(busy) + self.weight for _ in self.periods]
            for h, t, share in self.closed[j]:
                seen[t] -= busy[h] * share
            self.seen.append(seen)
            self.rate.append([over(a + b, by) for a, b, by in zip(self.booked_by_period[j], self.prior[j], seen)])

    def expected(self, j: int) -> list[float]:
        """The bookings of a product that are to be expected in each departure, were both its strengths 1."""
        rates = self.rate[j]
        expected = [sum(rates) for _ in self.departures]
        for h, t, share in self.closed[j]:
            expected[h] -= share * rates[t]
        return expected

    def make_strengths(self, expected: Sequence[Sequence[float]]) -> float:
        """New strengths of the departures, and by how much the farthest of them has moved."""
        moved = 0.0
        for p, part in enumerate(self.known.parts):
            booked = self.booked_in_part[p]
            means = [sum(expected[j][h] * self.own[j][h] for j in part) for h in self.departures]
            self.size[p] = likeliest_size(booked, means)
            new = about_one(self.size[p], booked, means)
            moved, self.strength[p] = max(moved, farthest(new, self.strength[p])), new
        return moved

    def make_own(self, expected: Sequence[Sequence[float]]) -> float:
        """New strengths of the products in the departures, and by how much the farthest of them has moved, in its
        measure."""
        means = [list(map(operator.mul, expected[j], self.strength[self.part_of[j]])) for j in self.products]
        self.own_size = size_by_moments(self.booked_by_departure, means)
        new = [about_one(self.own_size, *row) for row in zip(self.booked_by_departure, means)]
        moved, self.own = max(map(farthest, new, self.own)) / OF_OWN, new
        return moved

    def common(self, some: Sequence[int]) -> list[list[float]]:
        """Rates for the products of a class, of which each has a level, and all one course over the periods. A product
        that was never open has the level 0, or the mean level of the others if that is asked for."""
        course, level = [1.0 for _ in self.periods], dict.fromkeys(some, 0.0)
        for _ in range(ROUNDS_OF_COURSE):
            seen = {j: sum(map(operator.mul, course, self.seen[j])) for j in some}
            level = {j: over(sum(self.booked_by_period[j]), seen[j]) for j in some}
            booked = [sum(self.booked_by_period[j][t] for j in some) for t in self.periods]
            course = [over(booked[t], sum(level[j] * self.seen[j][t] for j in some)) for t in self.periods]
        if self.known.is_by_class:
            open_ = [it for j, it in level.items() if sum(self.seen[j]) > LEAST_SEEN]
            level.update({j: sum(open_) / len(open_) for j in some if open_ and sum(self.seen[j]) <= LEAST_SEEN})
        return [[level[j] * c for c in course] for j in some]

    # What they tell

    def unseen(self, j: int) -> list[list[float]]:
        """Departure x period: the mean of the demand for a product that wasn't seen."""
        unseen = [[0.0 for _ in self.periods] for _ in self.departures]
        for h, t, share in self.closed[j]:
            unseen[h][t] = self.rate[j][t] * self.busy[j][h] * share
        return unseen

    def booked(self, j: int) -> float:
        """The mean bookings of a product in a departure."""
        return sum(self.booked_by_departure[j]) / len(self.departures)

    def mean(self, j: int) -> float:
        """The mean demand of a product in a departure."""
        return self.booked(j) + sum(sum(by_period) for by_period in self.unseen(j)) / len(self.departures)

    def error(self, j: int) -> float:
        """The standard error of that mean: of the bookings, which are Poisson's, and of the strengths."""
        by_chance = sum(rate / seen for rate, seen in zip(self.rate[j], self.seen[j]))
        spread = 1 / self.size[self.part_of[j]] + 1 / self.own_size
        return math.sqrt(by_chance + sum(self.rate[j]) ** 2.0 * spread / len(self.departures))

    def never_open(self, j: int) -> list[int]:
        """The periods in which a product was open in no departure."""
        return [t for t in self.periods if self.seen[j][t] < self.weight + LEAST_SEEN]


def over(seats: float, seen: float) -> float:
    """Seats a departure; none where nothing was seen."""
    return seats / seen if seen > LEAST_SEEN else 0.0


def farthest(new: Sequence[float], old: Sequence[float]) -> float:
    """By how much the farthest of some numbers has moved."""
    return max(abs(a - b) for a, b in zip(new, old))
