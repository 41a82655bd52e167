"""The demand that the requests of a log make: seasons, periods, and the rows of a network file."""
from __future__ import annotations

import datetime
from collections import Counter
from typing import Callable, Iterator, Mapping, Sequence

from nrm import Stop, said
from nrm.limits import MOST_HISTORIES, MOST_PERIODS
from nrm.network import demand_row, fields_in, number
from nrm.records.dates import WEEKDAYS
from nrm.records.log_requests import Request


class Demand:
    """The seats asked for of each product in each season and period, which begins where a cut ends the one before."""

    def __init__(self, requests: Sequence[Request], cuts: Sequence[int], weekday: str | None = None,
                 last: int | None = None) -> None:
        departures = sorted({it.departs for it in requests if weekday in (None, WEEKDAYS[it.departs.weekday()])})
        if not departures:
            raise Stop(f"the log has no departure on a {weekday}")
        self.departures = departures[-last:] if last else departures
        self.periods = len(cuts) + 1
        if len(self.departures) > MOST_HISTORIES:
            raise Stop(f"the log has {len(departures)} days of departure, and a network file takes {MOST_HISTORIES} "
                       f"histories: use --last {MOST_HISTORIES} for the latest of them, "
                       "or --weekday fri for one day of the week")
        history = {it: number for number, it in enumerate(self.departures, 1)}
        self.seats: Counter[tuple[str, int, int]] = Counter()
        for it in requests:
            if it.departs in history:
                self.seats[it.product, history[it.departs], period_of(it.days, cuts)] += it.seats
        self.products = sorted({product for product, _, _ in self.seats})

    def rows(self, names: Mapping[str, str]) -> Iterator[list[object]]:
        """The rows of demand, the products in the order of their names."""
        for product in sorted(self.products, key=lambda it: names[it]):
            for history, day in enumerate(self.departures, 1):
                seats = [self.seats[product, history, period] for period in range(1, self.periods + 1)]
                what = f"{product} was asked for {sum(seats)} seats for {day}"
                yield from demand_row(names[product], history, seats, what)

    def told(self, days: set[datetime.date]) -> str:
        """What was made of a log that has some days of departure."""
        left_out = len(days) - len(self.departures)
        return (f"seasons {len(self.departures)}, from {self.departures[0]} to {self.departures[-1]}"
                f"{f', others left out {left_out}' if left_out else ''}; periods {self.periods}; "
                f"products {len(self.products)}; seats {sum(self.seats.values())}")


def period_of(days: int, cuts: Sequence[int]) -> int:
    """The period of a day that is so many days before departure."""
    return 1 + sum(days <= cut for cut in cuts)


def cuts_of(text: str) -> list[int]:
    """The days before departure at which a new period begins, the earliest first."""
    try:
        cuts = [number(it) for it in text.split(",")]
    except ValueError:
        raise Stop(f"--cuts {text}: these must be days before departure, such as 60,30,7")
    if cuts != sorted(set(cuts), reverse=True) or cuts[-1] < 0:
        raise Stop(f"--cuts {text}: each must be fewer days before departure than the one before it, "
                   "and none below 0, such as 60,30,7")
    if len(cuts) + 1 > MOST_PERIODS:
        raise Stop(f"--cuts {text}: these are {len(cuts) + 1} periods, and a network file takes {MOST_PERIODS}: "
                   "cut fewer times")
    return cuts


def completed(path: str, demand: Demand, names: Mapping[str, str],
              tell: Callable[[str], None]) -> list[Sequence[object]]:
    """The rows of the network file at a path, of the same version, with the periods of the log in the place of its own,
    and without its demand."""
    rows = fields_in(path)
    there = {row[1] for row in rows if row[0] == "product" and row[1:]}
    if not there:
        raise Stop(f"{said(path)} has no row of a product that can be read: "
                   f"`nrm-tools explain {said(path)}` says what is wrong with it")
    missing = [f"{names[it]}, which stands for {it!r}" for it in demand.products if names[it] not in there]
    if missing:
        raise Stop("\n    ".join([f"{said(path)} has no row for these products of the log; "
                                  "add one for each, or remove them from the log", *missing]))
    if idle := sorted(there - {names[it] for it in demand.products}):
        tell(f"no request of the log is for {', '.join(idle)}")
    version = next((row[3:4] for row in rows if row[0] == "periods"), list[str]())
    return [["periods", len(demand.departures), demand.periods, *[it for it in version if it == "2"]],
            *[it for it in rows if it[0] not in ("periods", "demand")]]
