"""What was asked for in the streams of past departures: the lines that sessions were given, sold or not."""
from __future__ import annotations

import os
import re
from collections import Counter
from dataclasses import dataclass, field
from typing import Iterable, Iterator, Mapping, Sequence

from nrm import Stop, bytes_in, said
from nrm.limits import MOST_HISTORIES
from nrm.network import Network, demand_row

REQUEST = re.compile(rb"book ([A-Z0-9-]{1,12}) ([1-9][0-9]{0,2})\r?")
NEW_PERIOD = re.compile(rb"reoptimise ([1-9][0-9]?)\r?")
CANCELLATION = re.compile(rb"cancel (?:0|[1-9][0-9]{0,11})\r?")
REPORT = re.compile(rb"(?:plan|hindsight|leg [A-Z0-9-]{1,12})?\r?")  # or an empty line
MOST_NAMED = 5


@dataclass
class StreamRequests:
    """What a stream asked for.

    seats     by product and period
    requests  how many lines were requests for products that the network has
    unknown   the seats asked for of products that the network hasn't, by product
    cancels   how many lines were cancellations
    others    the lines that are none of a session's, by their numbers
    backward  the lines that begin no later period of the network, by their numbers
    """
    seats: Counter[tuple[str, int]] = field(default_factory=Counter)
    requests: int = 0
    unknown: Counter[str] = field(default_factory=Counter)
    cancels: int = 0
    others: list[int] = field(default_factory=list)
    backward: list[int] = field(default_factory=list)

    def told(self, path: str) -> Iterator[str]:
        """What a stream was read as, and what of it was left out."""
        yield (f"{said(path)}: requests {self.requests}, seats {sum(self.seats.values())}; cancellations ignored "
               f"{self.cancels}")
        if self.unknown:
            names = sorted(self.unknown)
            yield (f"{said(path)}: seats left out {sum(self.unknown.values())}, of products that the network doesn't "
                   f"have: {', '.join(names[:MOST_NAMED])}{', ..' if names[MOST_NAMED:] else ''}")
        for lines, which, why in ((self.others, "left out", "no session takes"),
                                  (self.backward, "`reoptimise` ignored", "begin no later period of the network")):
            if lines:
                yield f"{said(path)}: lines {which} {len(lines)}, which {why}; the first is line {lines[0]}"


def asked_in(path: str, network: Network) -> StreamRequests:
    """What the stream at a path asked for."""
    asked, period = StreamRequests(), 1
    see_that_all_of_it_counts(path)
    with open(path, "rb") as stream:
        for number, line in enumerate(stream, 1):
            line = line[:-1] if line.endswith(b"\n") else line
            if found := NEW_PERIOD.fullmatch(line):
                new = int(found[1])
                if period < new <= network.periods:
                    period = new
                elif new != period:
                    asked.backward.append(number)
            elif found := REQUEST.fullmatch(line):
                take_request(asked, found[1].decode(), period, int(found[2]), network)
            elif CANCELLATION.fullmatch(line):
                asked.cancels += 1
            elif not REPORT.fullmatch(line):
                asked.others.append(number)
    return asked


def take_request(asked: StreamRequests, product: str, period: int, seats: int, network: Network) -> None:
    """Takes a request."""
    if product in network.products:
        asked.seats[product, period] += seats
        asked.requests += 1
    else:
        asked.unknown[product] += seats


def see_that_all_of_it_counts(path: str) -> None:
    """A Stop for a stream that isn't there, and for a text journal of an earlier release, if some of its lines changed
    nothing: they were sent again."""
    bytes_in(path, 1)
    if os.path.exists(f"{path}.void"):
        raise Stop(f"{said(path)}.void numbers lines of {said(path)} that changed nothing: `nrm-tools journal import` "
                   "leaves them out, and `nrm-tools journal look` writes the others")


def histories_of(network: Network, asked: Sequence[StreamRequests]) -> list[Mapping[str, Sequence[int]]]:
    """What each of some streams asked for, by product, in each period."""
    periods = range(1, network.periods + 1)
    return [{name: [it.seats[name, period] for period in periods] for name in network.products} for it in asked]


def histories_in(network: Network) -> list[Mapping[str, Sequence[int]]]:
    """What the histories of a network asked for, likewise."""
    none = (0,) * network.periods
    return [{name: it.demand.get(history, none) for name, it in network.products.items()}
            for history in range(1, network.histories + 1)]


def rows_with(network: Network, histories: Sequence[Mapping[str, Sequence[int]]]) -> Iterator[list[object]]:
    """The rows of a network with other histories in the place of its own."""
    if len(histories) > MOST_HISTORIES:
        raise Stop(f"these are {len(histories)} histories, and a network file takes {MOST_HISTORIES}: name fewer, "
                   f"or use --last {MOST_HISTORIES} for the latest")
    for row in network.rows():
        if row[0] != "demand":
            yield [row[0], len(histories), *row[2:]] if row[0] == "periods" else row
    yield from rows_of_demand(network.products, histories)


def rows_of_demand(products: Iterable[str], histories: Sequence[Mapping[str, Sequence[int]]]) -> Iterator[list[object]]:
    """The rows of demand that histories make."""
    for name in products:
        for number, history in enumerate(histories, 1):
            what = f"{name} was asked for {sum(history[name])} seats in history {number}"
            yield from demand_row(name, number, history[name], what)
