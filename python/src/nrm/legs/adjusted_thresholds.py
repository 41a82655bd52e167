"""Thresholds from adjusted fares: what a product brings a leg is its fare less the bid prices of its other legs.

The prices are those of the opening plan. A threshold stands halfway between the fares that it parts, since prices
change with each plan. Thresholds are whole and at least 1, so an adjusted fare counts as the greatest whole number that
isn't above it, and as 1 if that is less.
"""
from __future__ import annotations

import dataclasses
import functools
import math
import os
import tempfile
from fractions import Fraction
from typing import Iterator, Mapping, Sequence

from nrm.legs.fare_groupings import Grouping, asked_on, grouping
from nrm.network import Network, Product, text_of
from nrm.program import Program
from nrm.replies import Cuts, plan_of

WAYS = ("gaps", "cost")
LEAST = 1  # that a threshold may be


def adjusted_fare(product: Product, leg: str, prices: Mapping[str, Fraction]) -> Fraction:
    """What a product brings one of its legs."""
    return product.fare - sum((prices[it] for it in product.legs if it != leg), Fraction(0))


def leg_alone(network: Network, leg: str, prices: Mapping[str, Fraction]) -> Network:
    """A leg by itself, with its products at their adjusted fares in whole numbers."""
    fares = [(it, max(LEAST, math.floor(adjusted_fare(it, leg, prices)))) for it in network.products_on(leg)]
    products = {it.name: dataclasses.replace(it, legs=(leg,), fare=fare) for it, fare in fares}
    return dataclasses.replace(network, legs={leg: network.legs[leg]}, products=products)


def by_gaps(leg: str, asked: Mapping[int, int], groups: int) -> Grouping:
    """The fares of a leg in at most so many groups, parted at the largest gaps; of equal gaps at the dearest."""
    parted = sorted(neighbours(asked), key=lambda it: it[1] - it[0])[:groups - 1]
    thresholds = sorted((halfway(high, low) for high, low in parted), reverse=True)
    return described(leg, asked, thresholds)


def neighbours(asked: Mapping[int, int]) -> list[tuple[int, int]]:
    """Each fare of a falling list with the next one."""
    fares = list(asked)
    return list(zip(fares, fares[1:]))


def halfway(high: int, low: int) -> int:
    """The threshold between two fares, which is above the lower one and not above the higher one."""
    return (high + low + 1) // 2


def described(leg: str, asked: Mapping[int, int], thresholds: Sequence[int]) -> Grouping:
    """The fares of a leg as thresholds group them: with the centre of each group, at and above which stands at least
    half of its seats, and what it costs to move each seat's fare there."""
    found = Grouping(leg, dict(asked), Cuts(tuple(thresholds), (), 0))
    centres, cost = [], 0
    for number in range(1, len(thresholds) + 2):
        seats = {fare: count for fare, count in asked.items() if found.group(fare) == number}
        left = sum(seats.values())
        centre = next(fare for fare in seats if 2 * sum(count for it, count in seats.items() if it >= fare) >= left)
        centres.append(centre)
        cost += sum(count * abs(fare - centre) for fare, count in seats.items())
    return Grouping(leg, dict(asked), Cuts(tuple(thresholds), tuple(centres), cost))


def by_cost(alone: Network, leg: str, asked: dict[int, int], groups: int, program: Program) -> Grouping:
    """The fares of a leg in at most so many groups as close to their centres as can be, by `nrm cuts` on a file of the
    leg alone, and each cut moved halfway to the fare below."""
    with tempfile.TemporaryDirectory() as folder:
        path = os.path.join(folder, "leg.csv")
        with open(path, "w", encoding="ascii") as file:
            file.write(text_of(alone.rows()))
        found = program.told(functools.partial(grouping, leg, asked), "cuts", path, leg, str(groups))
    moved = tuple(halfway(high, low) for high, low in neighbours(asked) if high in found.cuts.thresholds)
    return dataclasses.replace(found, cuts=dataclasses.replace(found.cuts, thresholds=moved))


def adjusted_groupings(path: str, network: Network, way: str, groups: int, program: Program) -> Iterator[Grouping]:
    """The grouping of each leg that a product uses, by its adjusted fares, at the largest gaps or by the least cost."""
    prices = program.told(plan_of, "plan", "bid", path).prices
    for leg in network.legs:
        alone = leg_alone(network, leg, prices)
        if asked := asked_on(alone, leg):
            if way == "gaps":
                yield by_gaps(leg, asked, groups)
            else:
                yield by_cost(alone, leg, asked, groups, program)
