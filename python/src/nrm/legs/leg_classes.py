"""The classes of one leg by itself: what is protected from each by the optimum and by EMSR-b, and what each earns.

The optimum is that of `nrm dp`; EMSR-b's protections are those of `nrm plan davn` on a network of the leg and its
classes alone.
"""
from __future__ import annotations

import functools
import os
import tempfile
from collections import Counter
from dataclasses import dataclass
from fractions import Fraction
from typing import Sequence

from nrm import Stop
from nrm.limits import MOST_CLASSES
from nrm.network import Network, fields_in, text_of, with_thresholds
from nrm.pages.tables import Cell, Table
from nrm.program import Program
from nrm.replies import leg_value_of, plan_of


@dataclass(frozen=True)
class FareClass:
    """A class of a leg: a product on it alone, its fare, and the seats that were asked for in each history."""
    name: str
    fare: int
    demand: tuple[int, ...]

    def mean_demand(self) -> float:
        """The seats that were asked for in a history, on the mean."""
        return sum(self.demand) / len(self.demand)


class Policy:
    """How many seats are protected from each class, the highest fare first, and what each number of seats earns so."""

    def __init__(self, protected: Sequence[int], classes: Sequence[FareClass], seats: int) -> None:
        self.protected, self.values = list(protected), values(protected, classes, seats)


def values(protected: Sequence[int], classes: Sequence[FareClass], seats: int) -> list[Fraction]:
    """The mean revenue of a history from 0, 1, 2 seats and so on, if from each class so many are protected.

    It is counted over one denominator, the histories of all classes that were gone through, the highest fare first.
    """
    earned, ways = [0] * (seats + 1), 1
    for level, it in zip(protected, classes):
        often = Counter(it.demand)
        sold = [{asked: min(asked, max(0, left - level)) for asked in often} for left in range(seats + 1)]
        earned = [sum(times * (ways * it.fare * sold[left][asked] + earned[left - sold[left][asked]])
                      for asked, times in often.items())
                  for left in range(seats + 1)]
        ways *= len(it.demand)
    return [Fraction(it, ways) for it in earned]


class LegAlone:
    """A leg by itself: its rows and those of the products on it alone, the seats, the classes and the optimum."""

    def __init__(self, path: str, leg: str, program: Program) -> None:
        network, rows = Network.read(path), fields_in(path)
        if leg not in network.legs:
            raise Stop(f"there is no leg {leg}")
        on_leg = network.products_on(leg)
        alone = {it.name for it in on_leg if it.legs == (leg,)}
        if not 1 <= len(alone) <= MOST_CLASSES:
            raise Stop(f"the products whose only leg is {leg} are {len(alone)}, and this takes 1 to {MOST_CLASSES}")
        self.name, self.program, self.others = leg, program, len(on_leg) - len(alone)
        self.rows = [row for row in rows if row[0] == "periods" or row[:2] == ["leg", leg]
                     or row[0] in ("product", "demand") and row[1] in alone]
        self.seats = network.legs[leg].authorised
        self.classes, self.optimal = program.told(functools.partial(self.optimum, network), "dp", path, leg)

    def optimum(self, network: Network, lines: list[str]) -> tuple[list[FareClass], Policy]:
        """The classes and the protections by the lines of `nrm dp`; a ValueError where they don't earn what is told."""
        told, histories = leg_value_of(self.name, lines), range(1, network.histories + 1)
        products = [network.products[name] for name, _ in told.classes]
        classes = [FareClass(it.name, it.fare, tuple(map(it.demand_in, histories))) for it in products]
        policy = Policy([0, *told.protections], classes, self.seats)
        if [(it.name, it.fare) for it in classes] != [*told.classes] or policy.values[-1] != told.value:
            raise ValueError(self.name)
        return classes, policy

    def value(self) -> Fraction:
        """The mean revenue of a history by the optimum."""
        return self.optimal.values[-1]

    def file(self) -> str:
        """The text of a network file of this leg and its classes, with a threshold at each fare but the lowest."""
        fares = sorted({it.fare for it in self.classes}, reverse=True)
        return text_of(with_thresholds(self.rows, {self.name: fares[:-1]}))

    def emsr(self) -> Policy:
        """What EMSR-b protects from each class: the level above the bucket that its fare falls into."""
        with tempfile.TemporaryDirectory() as folder:
            path = os.path.join(folder, f"{self.name} alone.csv")
            with open(path, "w", encoding="ascii") as file:
                file.write(self.file())
            return self.program.told(self.policy, "plan", "davn", path)

    def policy(self, lines: list[str]) -> Policy:
        """The protections by the lines of a plan."""
        plan = plan_of(lines)
        return Policy([plan.protected_from(self.name, it.name) for it in self.classes], self.classes, self.seats)


def tables(leg: LegAlone, emsr: Policy) -> list[Table]:
    """The tables of the classes and of the revenue."""
    protected: list[list[Cell]] = [[it.name, it.fare, f"{it.mean_demand():.2f}", best, by_emsr]
                                   for it, best, by_emsr in zip(leg.classes, leg.optimal.protected, emsr.protected)]
    value, earned = leg.value(), emsr.values[-1]
    return [Table(f"Seats of {leg.name} that are protected from each class, of {leg.seats}",
                  ["class", "fare", "mean demand", "optimum", "EMSR-b"], protected),
            Table("Mean revenue of a history, in currency units", ["", "revenue", "share"],
                  [["optimum", f"{float(value):,.2f}", ""],
                   ["EMSR-b", f"{float(earned):,.2f}", share_of(earned, value)]])]


def verdict(leg: LegAlone, emsr: Policy) -> str:
    """What the two say first."""
    value, earned = leg.value(), emsr.values[-1]
    if not value:
        return f"Nothing is earned on {leg.name} by itself, by the optimum or by EMSR-b."
    return (f"On {leg.name} by itself EMSR-b earns {share_of(earned, value)} of the optimum, {float(earned):,.2f} of "
            f"{float(value):,.2f} a history, if classes come one after the other, the lowest fare first.")


def share_of(earned: Fraction, value: Fraction) -> str:
    """The share of the optimum that is earned."""
    return f"{100 * float(earned / value):.3f} %" if value else ""


def remarks(leg: LegAlone, emsr: Policy) -> list[str]:
    """What is to be known beside the tables."""
    found = []
    if leg.others:
        found.append(f"products that use {leg.name} and other legs, which aren't counted here: {leg.others}")
    lowest = leg.classes[-1].fare
    if emsr.protected[-1] and not any(any(it.demand) for it in leg.classes if it.fare == lowest):
        found.append(f"nobody asked at {lowest}, the lowest fare: so `nrm` takes the last bucket's fare as 0, and "
                     "EMSR-b protects more from it")
    return found
