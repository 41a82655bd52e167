"""What many seasons tell: their rows added up, and estimates from them.

An analyst's own script may import it too: `Results.read(PATH)` reads a file of rows.
"""
from __future__ import annotations

import csv
import itertools
import math
from array import array
from collections import defaultdict
from dataclasses import dataclass
from typing import Iterator, Sequence

from nrm import Stop, said
from nrm.network import number

NINETY_FIVE = 1.96  # standard errors on each side of a mean, between which 95 of 100 lie
DECIMALS = 10_000  # the bound has four
NO_COUNTS = ("season", "mode", "history", "bound")


@dataclass(frozen=True)
class Estimate:
    """A mean with its standard error, from numbers that were drawn apart from one another."""
    mean: float
    error: float

    @classmethod
    def of(cls, values: Sequence[int]) -> Estimate:
        """The estimate from whole numbers; its error is infinite if there is one alone."""
        count, total = len(values), sum(values)
        if count < 2:
            return cls(total / max(1, count), math.inf)
        squares = count * sum(it * it for it in values) - total * total
        return cls(total / count, math.sqrt(squares / (count * count * (count - 1))))

    def half(self, errors: float = NINETY_FIVE) -> float:
        """Half of the 95 per cent interval, or of one of so many standard errors to each side."""
        return errors * self.error

    def ends(self, errors: float = NINETY_FIVE) -> list[str]:
        """The two ends of that interval."""
        return [amount(self.mean - self.half(errors)), amount(self.mean + self.half(errors))]


class Results:
    """The seasons of a network, added up.

    modes                    in their order
    seasons                  how many there are
    earned, revenue, bounds  of each mode, a number for each season; bounds in ten-thousandths, -1 if there is none
    sums                     of each mode, the sum of each other column by its name
    above_bound              the rows whose revenue is above the bound
    """

    def __init__(self) -> None:
        self.earned: dict[str, array[int]] = defaultdict(lambda: array("q"))
        self.revenue: dict[str, array[int]] = defaultdict(lambda: array("q"))
        self.bounds: dict[str, array[int]] = defaultdict(lambda: array("q"))
        self.sums: dict[str, dict[str, int]] = {}
        self.above_bound = self.seasons = 0
        self.modes: list[str] = []

    @classmethod
    def read(cls, path: str) -> Results:
        """The results of a file of rows."""
        try:
            with open(path, encoding="ascii", newline="") as file:
                return cls.of(csv.reader(file))
        except (ValueError, LookupError, StopIteration, OverflowError):
            raise Stop(f"{said(path)} isn't a file of rows that simulate wrote")

    @classmethod
    def of(cls, rows: Iterator[list[str]]) -> Results:
        """The results of rows, each a list of texts, the first of which has the heads."""
        results, heads = cls(), next(rows)
        places = {name: at for at, name in enumerate(heads)}
        counted = [name for name in heads if name not in NO_COUNTS]
        sums: dict[str, list[int]] = {}
        for row in rows:
            mode, bound = row[places["mode"]], row[places["bound"]]
            numbers = [number(row[places[name]]) for name in counted]
            sums[mode] = [a + b for a, b in zip(sums[mode], numbers)] if mode in sums else numbers
            results.earned[mode].append(number(row[places["earned"]]))
            results.revenue[mode].append(number(row[places["revenue"]]))
            results.bounds[mode].append(number(bound.replace(".", "")) if bound else -1)
            results.above_bound += bool(bound) and results.revenue[mode][-1] * DECIMALS > results.bounds[mode][-1]
        results.sums = {mode: dict(zip(counted, it)) for mode, it in sums.items()}
        results.modes, results.seasons = list(sums), len(next(iter(results.earned.values())))
        return results

    def mean(self, mode: str, column: str) -> float:
        """The mean of a column over the seasons."""
        return self.sums[mode][column] / self.seasons

    def share(self, mode: str) -> float:
        """The revenue of the bookings that stand, of all seasons that have a bound, as a share of their bounds."""
        pairs = [(revenue, bound) for revenue, bound in zip(self.revenue[mode], self.bounds[mode]) if bound >= 0]
        return sum(it for it, _ in pairs) * DECIMALS / (sum(it for _, it in pairs) or 1)

    def shares(self, mode: str) -> list[float]:
        """The share of the bound in each season that has one, in per cent, the lowest first."""
        pairs = zip(self.revenue[mode], self.bounds[mode])
        return sorted(100 * revenue * DECIMALS / bound for revenue, bound in pairs if bound > 0)

    def mean_bound(self) -> float | None:
        """The mean of the bounds that there are."""
        bounds = [bound for bound in self.bounds[self.modes[0]] if bound >= 0]
        return sum(bounds) / len(bounds) / DECIMALS if bounds else None

    def differences(self, mode: str, other: str) -> list[int]:
        """What a mode earns more than another, season by season."""
        return [a - b for a, b in zip(self.earned[mode], self.earned[other])]

    def pairs(self) -> list[tuple[str, str]]:
        """Each two modes, the later one first."""
        return [(b, a) for a, b in itertools.combinations(self.modes, 2)]


def amount(value: float) -> str:
    """An amount of currency units, or what is one on the mean."""
    return "" if math.isinf(value) else f"{round(value, 1) + 0.0:,.1f}"  # what is added makes 0.0 of -0.0


def per_cent(part: float, whole: float) -> str:
    """A share; nothing of nothing is no share."""
    return f"{100 * part / whole:.1f} %" if whole else ""
