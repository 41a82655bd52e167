"""How the fares on each leg are divided into groups, by `nrm cuts`, and the tables of that."""
from __future__ import annotations

import functools
from dataclasses import dataclass
from typing import Iterator, Mapping, Sequence

from nrm import said
from nrm.network import Network
from nrm.pages.tables import Cell, Table, with_text
from nrm.program import Program
from nrm.replies import Cuts, cuts_of


@dataclass(frozen=True)
class Grouping:
    """How the fares of a leg are divided: each fare with the seats that were asked for at it, falling, and the cuts."""
    leg: str
    asked: dict[int, int]
    cuts: Cuts

    def seats(self) -> int:
        """How many seats were asked for on the leg."""
        return sum(self.asked.values())

    def group(self, fare: int) -> int:
        """The number of the group that a fare is in, from 1."""
        return 1 + sum(cut > fare for cut in self.cuts.thresholds)

    def table(self, texts: Mapping[str, str]) -> Table:
        """The fares with their groups, the seats that were asked for at each, and the centres."""
        rows = [[self.group(fare), fare, seats, self.cuts.centres[self.group(fare) - 1]]
                for fare, seats in self.asked.items()]
        return Table(f"The fares on {with_text(self.leg, texts)}", ["group", "fare", "seats", "centre"], rows)


def asked_on(network: Network, leg: str) -> dict[int, int]:
    """The fares of the products on a leg, falling, each with the seats that were asked for at it."""
    asked: dict[int, int] = {}
    for product in network.products_on(leg):
        asked[product.fare] = asked.get(product.fare, 0) + product.demand_in_all()
    return dict(sorted(asked.items(), reverse=True))


def groupings(path: str, network: Network, groups: int, program: Program) -> Iterator[Grouping]:
    """The grouping of each leg that a product uses, by `nrm cuts` on the network file at a path."""
    for leg in network.legs:
        if asked := asked_on(network, leg):
            yield program.told(functools.partial(grouping, leg, asked), "cuts", path, leg, str(groups))


def grouping(leg: str, asked: dict[int, int], lines: Sequence[str]) -> Grouping:
    """The grouping of a leg by the lines of `nrm cuts`; a ValueError where they name a fare that the leg hasn't."""
    cuts = cuts_of(leg, lines)
    if not {*cuts.thresholds, *cuts.centres} <= asked.keys():
        raise ValueError(leg)
    return Grouping(leg, asked, cuts)


def verdict(path: str, found: Sequence[Grouping], rule: str) -> str:
    """What is said first of the thresholds that a rule gives the legs of the file at a path."""
    buckets = [len(it.cuts.thresholds) + 1 for it in found]
    each = "" if len(found) == 1 else f", {' to '.join(map(str, sorted({min(buckets), max(buckets)})))} on each"
    made = f"{rule} make {counted(sum(buckets), 'bucket')}"
    return (f"On {counted(len(found), 'leg')} of {said(path)} the thresholds {made}"
            f"{each}; what they earn isn't measured here.")


def counted(number: int, name: str) -> str:
    """How many things of a name there are."""
    return f"{number:,} {name}{'' if number == 1 else 's'}"


def table_of(found: Sequence[Grouping], groups: int) -> Table:
    """The cuts, the centres, the cost and the cost for a seat of each leg, and of all legs together."""
    rows: list[list[Cell]] = []
    for it in found:
        thresholds, centres = (" ".join(map(str, numbers)) for numbers in (it.cuts.thresholds, it.cuts.centres))
        rows.append([it.leg, thresholds, centres, *costs(it.cuts.cost, it.seats())])
    if len(found) > 1:
        rows.append(["all", "", "", *costs(sum(it.cuts.cost for it in found), sum(it.seats() for it in found))])
    return Table(f"The fares on each leg in {groups} groups at most",
                 ["leg", "cuts", "centres", "cost", "for a seat"], rows)


def costs(cost: int, seats: int) -> list[Cell]:
    """The texts of a cost, and of the cost for a seat."""
    return [f"{cost:,}", f"{cost / seats:.1f}" if seats else ""]
