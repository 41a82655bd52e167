"""How much of its period each day is: by what is booked on it while products are open, since the last days of a period
can sell more.
"""
from __future__ import annotations

from collections import Counter
from typing import Mapping, Sequence

from nrm.records.estimate_rates import Known, Rates
from nrm.records.sale import Calendar, Sale

ENOUGH = 20  # seats that are booked on days that are taken together
TIMES = 2  # that the days are weighed, and the rates made anew


def estimated(sale: Sale, calendar: Calendar, known: Known) -> Rates:
    """The rates of a sale, with days that count by what is booked on them."""
    rates = Rates(sale, calendar, known)
    for _ in range(TIMES):
        calendar.weigh(weights_of(sale, calendar, rates))
        rates = Rates(sale, calendar, known)
    return rates


def weights_of(sale: Sale, calendar: Calendar, rates: Rates) -> dict[int, float]:
    """The weight of each day: the seats booked on it, over those that rates say if all days of a period are alike."""
    booked: Counter[int] = Counter()
    for (_, _, day), seats in sale.by_day.items():
        booked[day] += seats
    weights: dict[int, float] = {}
    for t, days in enumerate(calendar.days):
        weights.update(weights_in(days, booked, seats_while_open(sale, rates, days, t)))
    return weights


def weights_in(days: Sequence[int], booked: Mapping[int, int], expected: Mapping[int, float]) -> dict[int, float]:
    """The weights of the days of a period, by the seats booked on each and those to be expected. Days are taken
    together until enough is booked on them; the rest, too few for a weight of their own, is drawn towards the days
    before."""
    weights: dict[int, float] = {}
    some, seats, mean, last = list[int](), 0, 0.0, 1.0
    for day in days:
        some.append(day)
        seats, mean = seats + booked[day], mean + expected[day]
        if seats >= ENOUGH and mean > 0:
            last = seats / mean
            weights.update(dict.fromkeys(some, last))
            some, seats, mean = [], 0, 0.0
    if some:
        weights.update(dict.fromkeys(some, (seats + last * ENOUGH) / (mean + ENOUGH)))
    return weights


def seats_while_open(sale: Sale, rates: Rates, days: Sequence[int], t: int) -> dict[int, float]:
    """Of each day of a period, the seats that rates say for the products that were open, if all days of the period are
    alike."""
    whole = sum(rates.rate[j][t] * sum(busy) for j, busy in enumerate(rates.busy))
    open_ = dict.fromkeys(days, whole)
    for (j, h), spans in sale.closed.items():
        rate = rates.rate[j][t] * rates.busy[j][h]
        for first, last in spans if rate else ():
            for day in days:
                overlap = min(last, 1 - day) - max(first, -day)
                if overlap > 0:
                    open_[day] -= rate * overlap
    return {day: it / len(days) for day, it in open_.items()}
