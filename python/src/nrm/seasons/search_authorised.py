"""The authorised seats of all legs that earn most in seasons, searched for leg by leg, and judged in other seasons."""
from __future__ import annotations

import dataclasses
import fnmatch
from typing import Iterator, Mapping, Sequence

from nrm import Stop
from nrm.limits import MOST_SEATS
from nrm.network import Network
from nrm.pages.tables import Cell, Table, with_text
from nrm.seasons.overbooking_rules import Seats, Units
from nrm.seasons.search_fields import Field, ProgressLine, Rows
from nrm.seasons.search_judging import Judged

FIRST_STEPS, LATER_STEPS = (4, 2, 1), (2, 1)
OF_FILE, SIMPLE, FOUND = "the file", "the simple rule", "found"
NAMES = {"simple": SIMPLE, "service": "the service level", "marginal": "the marginal rule"}


def units_of(network: Network, together: Sequence[Sequence[str]]) -> list[tuple[str, ...]]:
    """The legs whose authorised seats are one number, by patterns of their names, in the order of the legs; of a list
    without a pattern all are one. Each other leg has a number of its own."""
    groups = []
    for patterns in together:
        legs = [it for it in network.legs if any(fnmatch.fnmatchcase(it, one) for one in patterns or ["*"])]
        unknown = [one for one in patterns if not fnmatch.filter(network.legs, one)]
        if unknown:
            raise Stop(f"--together {unknown[0]} names no leg")
        if len({network.legs[it].seats for it in legs}) > 1:
            raise Stop(f"--together: {', '.join(legs)} have different numbers of seats, so they can't have one number "
                       f"of authorised seats")
        groups.append(tuple(legs))
    grouped = [leg for legs in groups for leg in legs]
    if len(set(grouped)) < len(grouped):
        raise Stop(f"--together names {max(grouped, key=grouped.count)} twice")
    first = {legs[0]: legs for legs in groups}
    return [first.get(it, (it,)) for it in network.legs if it in first or it not in grouped]


def rows_with(network: Network, seats: Mapping[str, int]) -> Rows:
    """The rows of a network, of version 2, with other authorised seats."""
    legs = {name: dataclasses.replace(it, authorised=seats[name]) for name, it in network.legs.items()}
    return list(dataclasses.replace(network, version=2, legs=legs).rows())


class Search:
    """Authorised seats are tried on the same seasons, one number moved at a time, as long as more is earned."""

    def __init__(self, network: Network, units: Units, field: Field, line: ProgressLine) -> None:
        self.network, self.field, self.line = network, field, line
        self.units = [legs for legs in units if any(network.products_on(it) for it in legs)]  # of others none is sold
        self.at = ""

    def sum(self, seats: Seats) -> int:
        """What all seasons earn with some authorised seats."""
        earned = self.field.sum(rows_with(self.network, seats))
        self.line.say(f"{self.at}: {len(self.field.texts)} tried, {self.mean(earned)}")
        return earned

    def mean(self, earned: int) -> str:
        """What is earned, in words."""
        return f"{earned / len(self.field.numbers):,.1f} earned a season"

    def moved(self, seats: Seats, legs: Sequence[str], step: int) -> Seats:
        """The authorised seats with a number moved by a step, as often as more is earned."""
        while 0 <= seats[legs[0]] + step <= MOST_SEATS:
            other = {**seats, **dict.fromkeys(legs, seats[legs[0]] + step)}
            if self.sum(other) <= self.sum(seats):
                return seats
            seats = other
        return seats

    def from_seats(self, seats: Seats, sweeps: int) -> Seats:
        """The authorised seats that are found from some, in so many sweeps over the legs, or in fewer if one moves
        nothing."""
        for sweep in range(1, sweeps + 1):
            before = seats
            for number, legs in enumerate(self.units, 1):
                self.at = f"sweep {sweep}, {number} of {len(self.units)}"
                for step in FIRST_STEPS if sweep == 1 else LATER_STEPS:
                    for way in (step, -step):
                        seats = self.moved(seats, legs, way)
            self.line.end(f"sweep {sweep} of at most {sweeps}: {len(self.field.texts)} tried, "
                          f"{self.mean(self.sum(seats))}")
            if seats == before:
                break
        return seats


def tables(network: Network, units: Units, found: Mapping[str, Seats], judged: Judged,
           texts: Mapping[str, str]) -> Iterator[Table]:
    """The authorised seats by each rule and as they were found, and what they earned in other seasons."""
    names = list(found)
    rows: list[list[Cell]] = []
    for first, *others in units:
        name = f"{with_text(first, texts)}{f' and {len(others)} more' if others else ''}"
        rows.append([name, network.legs[first].seats, *(found[it][first] for it in names)])
    yield Table("Authorised seats", ["leg", "seats", *names], rows)
    yield judged.table("authorised seats", "denied")
