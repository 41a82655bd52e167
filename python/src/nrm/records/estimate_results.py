"""What an estimate makes: whole numbers, the rows of demand, the report, and what is told of it.

What wasn't seen is drawn several times rather than rounded, so that the spread of the histories is that of demand;
this is multiple imputation.
"""
from __future__ import annotations

import itertools
import math
import random
from dataclasses import dataclass
from typing import Iterator, Mapping, Sequence

from nrm import Stop
from nrm.limits import MOST_HISTORIES
from nrm.network import demand_row
from nrm.records.estimate_rates import Rates
from nrm.records.name_lists import text_of_rows
from nrm.seasons.drawing import poisson

MOST_COPIES = 3  # that are made unasked
MOST_TOLD = 20  # products that were never open, and parts of a network
HEADINGS = ["product", "name", "booked", "open %", "estimated", "standard error", "never open in"]


def copies_of(departures: int, wanted: int | None) -> int:
    """How many histories are made of each departure: as many as are wanted, else as many as a network file takes,
    three at most."""
    if wanted is None:
        return max(1, min(MOST_COPIES, MOST_HISTORIES // departures))
    if not 1 <= wanted * departures <= MOST_HISTORIES:
        raise Stop(f"--copies {wanted} of {departures} departures: a network file takes 1 to {MOST_HISTORIES} "
                   "histories")
    return wanted


def drawn(rates: Rates, copies: int, seed: int) -> list[list[list[int]]]:
    """Product x history x period: the bookings and what wasn't seen, drawn anew for each copy of the departures."""
    draw, made = random.Random(seed), list[list[list[int]]]()
    for j in rates.products:
        unseen = rates.unseen(j)
        made.append([[seats + poisson(mean, draw) for seats, mean in zip(rates.sale.seats[j][h], unseen[h])]
                     for _ in range(copies) for h in rates.departures])
    return made


def carried(rates: Rates) -> list[list[list[int]]]:
    """Product x history x period: the bookings and the mean of what wasn't seen, in whole numbers, of which each
    begins where the departure before left a remainder."""
    made = list[list[list[int]]]()
    for j in rates.products:
        exact, whole = [0.0 for _ in rates.periods], [0 for _ in rates.periods]
        by_departure = list[list[int]]()
        for seats, unseen in zip(rates.sale.seats[j], rates.unseen(j)):
            exact = [a + b for a, b in zip(exact, unseen)]
            now = [math.floor(it + 0.5) for it in exact]
            by_departure.append([seen + a - b for seen, a, b in zip(seats, now, whole)])
            whole = now
        made.append(by_departure)
    return made


@dataclass(frozen=True)
class DemandEstimate:
    """The rates of a sale, in whole numbers as so many copies of its departures, with the name of each product by its
    text, and the path of an earlier network if there is one."""
    rates: Rates
    names: Mapping[str, str]
    whole: Sequence[Sequence[Sequence[int]]]
    copies: int
    earlier: str | None = None

    def histories(self) -> int:
        """How many histories it makes."""
        return len(self.rates.departures) * self.copies

    def rows(self) -> Iterator[list[object]]:
        """The rows of demand, the products in the order of their names."""
        texts = self.rates.sale.products
        for j in sorted(self.rates.products, key=lambda it: self.names[texts[it]]):
            for history, seats in enumerate(self.whole[j], 1):
                what = f"{texts[j]} has a demand of {sum(seats)} seats in a history"
                yield from demand_row(self.names[texts[j]], history, seats, what)

    # The report

    def report(self) -> str:
        """A row for each product: what was booked, how much of its demand came while it was open, the estimate, its
        error."""
        return text_of_rows([HEADINGS, *map(self.reported, self.rates.products)])

    def reported(self, j: int) -> list[str]:
        """The row of a product. Where it was never open in a period its error isn't known."""
        rates, text = self.rates, self.rates.sale.products[j]
        booked, mean, never = rates.booked(j), rates.mean(j), rates.never_open(j)
        return [text, self.names[text], f"{booked:.2f}", f"{100 * booked / mean:.1f}" if mean else "", f"{mean:.2f}",
                "" if never else f"{rates.error(j):.2f}", spans_of(never)]

    # What is told

    def told(self) -> Iterator[str]:
        """What was estimated, and what of it can't be known."""
        rates, sale = self.rates, self.rates.sale
        booked, mean = sum(map(rates.booked, rates.products)), sum(map(rates.mean, rates.products))
        yield (f"departures {len(sale.departures)}, products {len(sale.products)}; seats booked in a departure "
               f"{booked:.1f}, estimated {mean:.1f}; rounds {rates.rounds}; histories {self.histories()}")
        yield from itertools.islice(self.strengths(), MOST_TOLD)
        if sale.idle:
            yield (f"closures left out {len(sale.idle)}, of departures that have no history, the first on "
                   f"{min(it.departs for it in sale.idle)}")
        if sale.while_closed > booked * len(sale.departures) / 100:
            yield (f"seats booked on days on which their product was closed all day {sale.while_closed}: are the "
                   "closures those of other products?")
        yield from self.unknown()

    def strengths(self) -> Iterator[str]:
        """How busy and how quiet departures were, in each part of the network."""
        rates = self.rates
        for strengths, size, part in zip(rates.strength, rates.size, rates.known.parts):
            spread = "alike" if size == math.inf else f"from {min(strengths):.2f} to {max(strengths):.2f}"
            of = f" in the part of {self.names[rates.sale.products[part[0]]]}" if len(rates.strength) > 1 else ""
            yield f"strengths of the departures{of}: {spread}"

    def unknown(self) -> Iterator[str]:
        """Which products were never open in some period, and what is taken for their demand there."""
        never = [j for j in self.rates.products if self.rates.never_open(j)]
        yield from map(self.never_told, never[:MOST_TOLD])
        if len(never) > MOST_TOLD:
            yield f"and {len(never) - MOST_TOLD} more products were never open in some period"

    def never_told(self, j: int) -> str:
        """What is told of a product that was never open in some period."""
        rates, periods = self.rates, self.rates.never_open(j)
        taken = sum(rates.rate[j][t] for t in periods)
        told = f"{rates.sale.products[j]} was never open in period {spans_of(periods)}: its demand there isn't known"
        if j in rates.known.before:
            return f"{told}, and is taken from {self.earlier}: {taken:.2f} seats a departure"
        if taken:
            whose = "the mean rate of its class" if len(periods) == len(rates.periods) else "its own rate elsewhere"
            return f"{told}, and is taken from {whose} by the course of its class: {taken:.2f} seats a departure"
        row = "it has no row" if len(periods) == len(rates.periods) else "its rows have 0 there"
        return (f"{told}, and {row}, as if nobody had asked; --before NETWORK takes what was asked for earlier, and "
                "--like-class the mean of the products of its class")


def spans_of(periods: Sequence[int]) -> str:
    """Numbers of periods, from 0, as they are told, from 1: 1 to 3, 7."""
    firsts, lasts = ([it + 1 for it in periods if it + step not in periods] for step in (-1, 1))
    return ", ".join(str(a) if a == b else f"{a} to {b}" for a, b in zip(firsts, lasts))
