"""The stops of each train in their order, as the journeys on it show it, and the legs between neighbouring stops."""
from __future__ import annotations

from collections import defaultdict
from dataclasses import dataclass
from typing import Iterable, Iterator, Mapping, Sequence

from nrm import Stop
from nrm.legs.joined_legs import JOINED_AT
from nrm.records.export_bookings import Booking
from nrm.records.log_rows import some_of


@dataclass(frozen=True)
class TrainLeg:
    """A leg: its train, which may be none, its two stops, and those between at which it was joined."""
    train: str
    first: str
    last: str
    joined: tuple[str, ...] = ()

    @property
    def text(self) -> str:
        return " ".join(filter(None, [self.train, f"{self.first} - {self.last}"]))

    @property
    def listed(self) -> str:
        """Its text in a list of names, by which others know that it was joined."""
        return f"{self.text}{JOINED_AT}{', '.join(self.joined)}" if self.joined else self.text


class TrainLines:
    """The lines that bookings are on: of each train its stops in their order, of which some are joined, so that no leg
    begins there; or, where these are flights of which a journey says all stops, each two neighbours that one has."""

    def __init__(self, bookings: Iterable[Booking], given: Sequence[Sequence[str]] = (), joined: Sequence[str] = (),
                 are_flights: bool = False) -> None:
        journeys: dict[str, dict[tuple[str, ...], int]] = defaultdict(dict)
        for it in bookings:
            journeys[it.train].setdefault(it.stops, it.line)
        self.are_flights = are_flights
        self.order: dict[str, list[str]] = {}
        self.neighbours: dict[str, list[tuple[str, str]]] = {}
        for train, lines in sorted(journeys.items()):
            if are_flights:
                pairs = (pair for stops in sorted(lines) for pair in zip(stops, stops[1:]))
                self.neighbours[train] = list(dict.fromkeys(pairs))
            else:
                order = self.order[train] = order_of(train, lines, given)
                ends = [order[0], *[it for it in order[1:-1] if it not in joined], order[-1]]
                self.neighbours[train] = list(zip(ends, ends[1:]))
        stops = {stop for lines in journeys.values() for some in lines for stop in some}
        if unknown := [it for it in joined if it not in stops]:
            known = ", ".join(sorted(stops))
            raise Stop(f"--join {unknown[0]}: no journey begins or ends there; the stops are {known}")

    def legs(self) -> Iterator[TrainLeg]:
        """All legs, train by train."""
        for train, pairs in self.neighbours.items():
            yield from (self.leg(train, *pair) for pair in pairs)

    def leg(self, train: str, first: str, last: str) -> TrainLeg:
        """The leg of a train between two of its stops."""
        order = self.order.get(train, [first, last])
        return TrainLeg(train, first, last, tuple(order[order.index(first) + 1:order.index(last)]))

    def ends_joined(self, joined: Sequence[str]) -> Iterator[str]:
        """What is told of stops that were to be joined at which a train begins or ends: there is no other leg there."""
        for stop in dict.fromkeys(joined):
            trains = [train for train, order in self.order.items() if stop in order]
            at_end = [it for it in trains if stop in (self.order[it][0], self.order[it][-1])]
            if at_end:
                which = f" of {some_of(at_end)}" if len(at_end) < len(trains) else ""
                yield f"--join {stop} joins nothing{which}: it is an end of the line"

    def legs_of(self, train: str, stops: Sequence[str]) -> list[TrainLeg]:
        """The legs of a journey, from its first stop to its last: all of a leg of which it needs a part."""
        if self.are_flights:
            return [TrainLeg(train, *pair) for pair in zip(stops, stops[1:])]
        place = {it: at for at, it in enumerate(self.order[train])}
        return [self.leg(train, first, last) for first, last in self.neighbours[train]
                if place[first] < place[stops[-1]] and place[stops[0]] < place[last]]


def order_of(train: str, journeys: Mapping[tuple[str, ...], int], given: Sequence[Sequence[str]]) -> list[str]:
    """The stops of a train in their order: each behind those that a journey, or a line that is given, has before it."""
    there = {stop for stops in journeys for stop in stops}
    before: dict[str, dict[str, int]] = {it: {} for it in there}
    for line in given:
        on_it = [it for it in line if it in there]
        for first, last in zip(on_it, on_it[1:]):
            before[last][first] = 0
    for stops, number in journeys.items():
        for first, last in zip(stops, stops[1:]):
            before[last].setdefault(first, number)
    order: list[str] = []
    while there:
        heads = sorted(it for it in there if not before[it].keys() & there)
        if len(heads) != 1:
            left = {last: {it: line for it, line in before[last].items() if it in there} for last in there}
            raise no_order(train, heads, left)
        order.append(heads[0])
        there.remove(heads[0])
    return order


def no_order(train: str, heads: Sequence[str], before: Mapping[str, Mapping[str, int]]) -> Stop:
    """A Stop for stops whose order isn't shown, since none of two is before the other, or since each of some is."""
    of_train = f" of {train}" if train else ""
    if heads:
        return Stop(f"no journey{of_train} shows which of {' and '.join(heads[:2])} comes first: give the stops in "
                    "their order with --line STOP STOP.., or with --stops COLUMN if one column has those of each "
                    "journey")
    ring = [min(before)]
    while ring[-1] not in ring[:-1]:
        ring.append(min(before[ring[-1]]))
    ring = ring[ring.index(ring[-1]):][::-1]
    shown = [f"{where(before[last][first])} from {first} to {last}" for first, last in zip(ring, ring[1:])]
    return Stop(f"the journeys{of_train} go in a circle: {', '.join(shown)}; so they are of several trains: name the "
                "column of the train with --train COLUMN, or select the rows of one direction with --only COLUMN TEXT")


def where(line: int) -> str:
    """Where a journey stands."""
    return f"line {line}" if line else "--line"
