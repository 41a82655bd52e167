"""The trains of a log: which departs on some of the days alone, and which are one that was renamed."""
from __future__ import annotations

import datetime
import shlex
from collections import defaultdict
from dataclasses import dataclass
from typing import Collection, Iterator, Mapping, Sequence

from nrm import Stop
from nrm.records.dates import Dates
from nrm.records.log_rows import LogRow, some_of

MOST_TOLD = 9  # trains


# Several names of one train


def last_names(same: Sequence[Sequence[str]]) -> dict[str, str]:
    """By each name of trains that are one the last, which it is to have."""
    return {name: names[-1] for names in same for name in names[:-1]}


def with_last_names(rows: Sequence[LogRow], at: int | None, same: Sequence[Sequence[str]],
                    dates: Dates) -> Sequence[LogRow]:
    """Rows whose train, in a field, has the last of its names; a Stop for names that no row has, and for trains of
    which two depart on one day."""
    if not same:
        return rows
    if at is None:
        raise Stop("--same needs the column of the train: --train, or the first of several in --product")
    there = {it.fields[at] for it in rows}
    if missing := [name for names in same for name in names if name not in there]:
        raise Stop(f"--same {shlex.quote(missing[0])}: no row is of that train; there are "
                   f"{some_of(sorted(there), MOST_TOLD)}")
    for names in same:
        see_one_a_day(names, [it for it in rows if it.fields[at] in names], at, dates)
    last = last_names(same)
    return [LogRow(it.line, [*it.fields[:at], last.get(it.fields[at], it.fields[at]), *it.fields[at + 1:]])
            for it in rows]


def see_one_a_day(names: Sequence[str], rows: Sequence[LogRow], at: int, dates: Dates) -> None:
    """A Stop where trains of two names depart on one day, which are two trains then."""
    first: dict[datetime.date, LogRow] = {}
    for it in rows:
        try:
            other = first.setdefault(dates.day(it.fields[0]), it)
        except ValueError:
            continue  # the row is told as a fault
        if other.fields[at] != it.fields[at]:
            raise Stop(f"--same {' '.join(map(shlex.quote, names))}: {other.fields[at]} and {it.fields[at]} depart on "
                       f"{dates.day(it.fields[0])}, in lines {other.line} and {it.line}; so they are two trains")


# What is told of their days


@dataclass(frozen=True)
class Trains:
    """On which days of some seasons trains depart, what each sells, and what that is: its stops or its products."""
    seasons: Sequence[datetime.date]
    days: Mapping[str, Sequence[datetime.date]]
    sells: Mapping[str, Collection[str]]
    what: str

    def told(self) -> Iterator[str]:
        """Which trains depart on some days alone, those first that seem to be one."""
        left = {it: some for it, some in self.days.items() if len(some) < len(self.seasons)}
        for train in sorted(left, key=lambda it: (left[it][-1], it)):
            names = [train]
            while train in left and (later := self.later(names[-1], left)):
                names.append(later)
            if len(names) > 1:
                yield self.renamed(names)
                left = {it: some for it, some in left.items() if it not in names}
        if left:
            trains = [f"{it} on {self.spoken(it)}" for it in sorted(left)]
            yield (f"trains that depart on only some of the {len(self.seasons)} days, and have no demand in the other "
                   f"seasons: {len(left)}, {some_of(trains, MOST_TOLD)}")

    def later(self, train: str, left: Mapping[str, Sequence[datetime.date]]) -> str | None:
        """The train that begins next when one has ended, and sells the same or most of it."""
        found = [it for it, some in left.items() if some[0] > left[train][-1] and self.is_like(train, it)]
        return min(found, key=lambda it: (left[it][0], it)) if found else None

    def is_like(self, one: str, other: str) -> bool:
        """Whether two trains have half of what they sell in common, or more."""
        return 2 * len({*self.sells[one]} & {*self.sells[other]}) >= len({*self.sells[one]} | {*self.sells[other]})

    def renamed(self, names: Sequence[str]) -> str:
        """What is told of trains that seem to be one."""
        days = [f"{names[0]} departs on {len(self.days[names[0]])} of {len(self.seasons)} days"
                f"{self.span(names[0])}", *[f"{it} on {self.spoken(it)}" for it in names[1:]]]
        alike = all({*self.sells[it]} == {*self.sells[names[0]]} for it in names)
        common = f"the same {self.what}" if alike else f"most {self.what} in common"
        return (f"{'; '.join(days)}, with {common}: each has no demand in the seasons of the other; if it is one "
                f"train, --same {' '.join(map(shlex.quote, names))} makes them one, {names[-1]}")

    def spoken(self, train: str) -> str:
        """On how many days a train departs, and when."""
        return f"{len(self.days[train])}{self.span(train)}"

    def span(self, train: str) -> str:
        """From which day to which a train departs, where that isn't from the first or to the last."""
        days = self.days[train]
        return "".join([f", from {days[0]}" if days[0] > self.seasons[0] else "",
                        f", to {days[-1]}" if days[-1] < self.seasons[-1] else ""])


def trains_of(departures: Collection[tuple[str, datetime.date, str]], seasons: Sequence[datetime.date],
              what: str) -> Trains:
    """The trains of departures, each with its day and something that the train sells, in some seasons."""
    days: dict[str, set[datetime.date]] = defaultdict(set)
    sells: dict[str, set[str]] = defaultdict(set)
    for train, day, it in departures:
        if day in seasons and train:
            days[train].add(day)
            sells[train].add(it)
    return Trains(seasons, {it: sorted(some) for it, some in days.items()}, sells, what)
