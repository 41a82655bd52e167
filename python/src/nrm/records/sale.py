"""A sale as a log and its closures show it: how its periods pass, what was booked in them, and when products were
closed.
"""
from __future__ import annotations

from collections import Counter, defaultdict
from typing import Iterable, Mapping, Sequence

from nrm import Stop
from nrm.records.closures import Closure, joined
from nrm.records.log_demand import Demand
from nrm.records.log_requests import Request


class Calendar:
    """The time of a sale, in days before departure, and how much of its period each day is.

    days     of each period, its days, the earliest first
    weights  of each day: all alike at first, and then as many seats as are booked on it while products are open
    """

    def __init__(self, cuts: Sequence[int], opens: int) -> None:
        if opens <= cuts[0]:
            raise Stop(f"the sale begins {opens} days before departure, and the first cut is at {cuts[0]}: give an "
                       "earlier --opens, or leave out the cut")
        begins, ends = [opens, *cuts], [*(it + 1 for it in cuts), 0]
        self.days = [range(first, last - 1, -1) for first, last in zip(begins, ends)]
        self.weigh({day: 1.0 for days in self.days for day in days})

    def weigh(self, weights: Mapping[int, float]) -> None:
        """Gives each day its weight."""
        self.weights = weights
        self.passed_before = [self.shares_before(days) for days in self.days]

    def shares_before(self, days: Sequence[int]) -> list[float]:
        """The share of a period that has passed at the beginning of each of its days, and at its end."""
        total, passed, shares = sum(self.weights[it] for it in days), 0.0, list[float]()
        for day in days:
            shares.append(passed / total)
            passed += self.weights[day]
        return [*shares, 1.0]

    def passed(self, period: int, at: float) -> float:
        """The share of a period that has passed at a moment."""
        days, shares = self.days[period], self.passed_before[period]
        place = at + days[0]  # in days since the period began
        if place <= 0:
            return 0.0
        if place >= len(days):
            return 1.0
        whole = int(place)
        return shares[whole] + (place - whole) * (shares[whole + 1] - shares[whole])

    def shares(self, spans: Sequence[tuple[float, float]]) -> list[float]:
        """Of each period, the share that lies in spans of time."""
        return [sum(self.passed(it, last) - self.passed(it, first) for first, last in spans)
                for it in range(len(self.days))]


def opening_of(requests: Iterable[Request], cuts: Sequence[int], opens: int | None) -> int:
    """How many days before departure a sale begins: as is said, else with the earliest booking, and before the first
    cut."""
    earliest = max(it.days for it in requests)
    if opens is None:
        return max(earliest, cuts[0] + 1)
    if earliest > opens:
        raise Stop(f"--opens {opens}, and a booking was made {earliest} days before departure")
    return opens


class Sale:
    """What was booked, and when products were closed; products, departures and periods are numbers from 0.

    products, departures  their texts and days, in order
    periods               how many there are
    seats                 product x departure x period: the seats that were booked
    by_day                the same by product, departure and day before departure, where there are some
    closed                of a product and a departure, its spans of time
    idle                  the closures of departures that have no history
    while_closed          the seats that were booked on days on which their product was closed all day
    """

    def __init__(self, requests: Iterable[Request], demand: Demand, closures: Sequence[Closure]) -> None:
        self.departures, self.periods = demand.departures, demand.periods
        numbers = {day: at for at, day in enumerate(self.departures)}
        self.idle = [it for it in closures if it.departs not in numbers]
        closing = [it for it in closures if it.departs in numbers]
        self.products = sorted({*demand.products, *(it.product for it in closing)})
        places = {text: at for at, text in enumerate(self.products)}
        self.seats = [[[demand.seats[text, 1 + h, 1 + t] for t in range(self.periods)] for h in numbers.values()]
                      for text in self.products]
        spans: dict[tuple[int, int], list[tuple[float, float]]] = defaultdict(list)
        for it in closing:
            spans[places[it.product], numbers[it.departs]].append((it.first, it.last))
        self.closed = {key: joined(some) for key, some in spans.items()}
        self.by_day: Counter[tuple[int, int, int]] = Counter()
        for request in requests:
            if request.departs in numbers:
                self.by_day[places[request.product], numbers[request.departs], request.days] += request.seats
        self.while_closed = sum(seats for (j, h, day), seats in self.by_day.items() if self.is_closed_on(j, h, day))

    def is_closed_on(self, product: int, departure: int, day: int) -> bool:
        """Whether a product of a departure was closed all of a day before it."""
        return any(first <= -day and last >= 1 - day for first, last in self.closed.get((product, departure), ()))
