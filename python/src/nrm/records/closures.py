"""The times at which products were closed: rows that say them, or readings of availability between which they lie.

A moment is in days, 0 at the beginning of the day of departure, and so below 0 before it.
"""
from __future__ import annotations

import datetime
import math
import re
from collections import defaultdict
from dataclasses import dataclass, field
from typing import Callable, Iterable, Iterator, Mapping, Sequence, TypeVar

from nrm import said
from nrm.records.dates import TIME, Dates
from nrm.records.log_requests import all_made, day_of
from nrm.records.log_rows import Log, LogRow, cut_short

NOON = 0.5
END_OF_DEPARTURE = 1.0  # the end of the day of departure
SECONDS, HALF, ZONE = r"(?:[:.]\d{2}(?:[.,]\d+)?)?", r"(?: ?([AP])\.?M\.?)?", r"(?: ?(?:Z|[+-]\d{2}:?\d{2}))?"
CLOCK = re.compile(rf"(\d{{1,2}})[:h.](\d{{2}}){SECONDS}{HALF}{ZONE}", re.I)
STAMP = re.compile(r"\d{8}(\d{2})(\d{2})(\d{2})?")
SEATS = re.compile("[0-9]{1,18}")
OPEN, CLOSED = ("open", "o", "yes", "y", "true"), ("closed", "c", "no", "n", "false")
Made = TypeVar("Made")


# Moments


def moment_of(dates: Dates, departs: datetime.date, text: str, which: str) -> float:
    """The moment that a field says, noon where it has no time; a ValueError says what is wrong with it."""
    return (day_of(dates, text, which) - departs).days + passed_of_day(text)


def passed_of_day(text: str) -> float:
    """How much of its day has passed at the time in a field."""
    stamp, time = STAMP.fullmatch(text), TIME.search(text)
    if not (stamp or time):
        return NOON
    found = stamp or (CLOCK.fullmatch(time[0].lstrip("T-, ")) if time else None)
    hour, minute = (int(found[1]), int(found[2])) if found else (24, 0)
    half = (found[3] or "").upper() if found and not stamp else ""
    if half:
        hour = hour % 12 + (12 if half == "P" else 0) if 1 <= hour <= 12 else 24
    if hour > 23 or minute > 59:
        raise ValueError(f"{cut_short(text)!r} has no time of day")
    return (hour + minute / 60) / 24


# Rows


@dataclass(frozen=True)
class OfDeparture:
    """A departure, by its day, and a product of it."""
    departs: datetime.date
    product: str


@dataclass(frozen=True)
class Closure(OfDeparture):
    """A time at which a product of a departure was closed, between two moments."""
    first: float
    last: float


@dataclass(frozen=True)
class AvailabilityReading(OfDeparture):
    """Whether a product of a departure was open at a moment."""
    at: float
    is_open: bool


def closure_of(dates: Dates, departing: str, product: str, first: str, last: str) -> Closure:
    """The closure of a row; a ValueError says what is wrong with it."""
    departs = departure_of(dates, departing, product)
    begins = moment_of(dates, departs, first, "from which it was closed")
    ends = moment_of(dates, departs, last, "to which it was closed") if last else END_OF_DEPARTURE
    if max(begins, ends) > END_OF_DEPARTURE:
        raise ValueError(f"it was closed after its departure on {departing}")
    if begins > ends:
        raise ValueError(f"it was closed from {first} to {last}, which is earlier")
    return Closure(departs, product, begins, ends)


def reading_of(dates: Dates, departing: str, product: str, read: str, available: str) -> AvailabilityReading:
    """The reading of a row; a ValueError says what is wrong with it."""
    departs = departure_of(dates, departing, product)
    at = moment_of(dates, departs, read, "on which it was read")
    if at > END_OF_DEPARTURE:
        raise ValueError(f"it was read on {read}, after its departure on {departing}")
    is_number = SEATS.fullmatch(available) is not None
    if not is_number and available.lower() not in OPEN + CLOSED:
        raise ValueError(f"{cut_short(available)!r} is neither a number of seats nor open or closed")
    return AvailabilityReading(departs, product, at, int(available) > 0 if is_number else available.lower() in OPEN)


def departure_of(dates: Dates, text: str, product: str) -> datetime.date:
    """The day of departure of a row, which is to name a product too."""
    departs = day_of(dates, text, "of departure")
    if not product:
        raise ValueError("it names no product")
    return departs


@dataclass(frozen=True)
class ClosureTimes:
    """A file of times: its path, the headings of the departure, of the product and of the two fields that say the
    times, how its dates are read, whether fields may have line feeds, and other names of trains, which are the first of
    several fields of the product, by the ones that count."""
    path: str
    departs: str
    product: Sequence[str]
    others: Sequence[str]
    order: str | None
    is_multiline: bool
    same: Mapping[str, str] = field(default_factory=dict)

    def rows(self, of: Callable[[Dates, str, str, str, str], Made], tell: Callable[[str], None]) -> list[Made]:
        """What is made of each row; all that can't be read are told in one refusal. Tells what was read."""
        log = Log(self.path, [self.departs, *self.product, *self.others], self.is_multiline, gathers=True)
        tell(f"{said(self.path)}: {log.told()}")
        dates = Dates((text for it in log.rows for text in (it.fields[0], *it.fields[-2:])), self.order)

        def made_of(row: LogRow) -> Made:
            departs, *product, first, last = row.fields
            product[0] = self.same.get(product[0], product[0])
            return of(dates, departs, " ".join(filter(None, product)), first, last)

        return all_made(log, log.rows, made_of, 0, tell) if log.rows or log.faults else []

    def closures(self, tell: Callable[[str], None]) -> list[Closure]:
        """The closures that the rows say."""
        return self.rows(closure_of, tell)

    def readings(self, tell: Callable[[str], None]) -> list[Closure]:
        """The closures between the readings that the rows say."""
        return list(closures_between(self.rows(reading_of, tell)))


def closures_between(readings: Iterable[AvailabilityReading]) -> Iterator[Closure]:
    """The closures that readings tell of. Between an open and a closed one it changed in the middle; before the first
    it was as at the first, and behind the last as at the last. Of two at one moment the closed one counts."""
    states: dict[tuple[datetime.date, str], dict[float, bool]] = defaultdict(dict)
    for it in readings:
        of_product = states[it.departs, it.product]
        of_product[it.at] = of_product.get(it.at, True) and it.is_open
    for (departs, product), by_moment in states.items():
        for first, last in closed_spans(sorted(by_moment.items())):
            yield Closure(departs, product, first, last)


def closed_spans(states: Sequence[tuple[float, bool]]) -> Iterator[tuple[float, float]]:
    """The times between which a product was closed that was open or not at some moments, in their order."""
    since, at, was_open = -math.inf, -math.inf, states[0][1]
    for moment, is_open in states:
        changed = (at + moment) / 2
        if was_open and not is_open:
            since = changed
        if is_open and not was_open:
            yield since, changed
        at, was_open = moment, is_open
    if not was_open:
        yield since, END_OF_DEPARTURE


def joined(spans: Iterable[tuple[float, float]]) -> list[tuple[float, float]]:
    """Spans of time that don't overlap and cover the same."""
    together: list[tuple[float, float]] = []
    for first, last in sorted(spans):
        if together and first <= together[-1][1]:
            together[-1] = (together[-1][0], max(last, together[-1][1]))
        else:
            together.append((first, last))
    return together
