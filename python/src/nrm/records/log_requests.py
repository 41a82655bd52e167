"""The requests of a log: of each its day of departure, the days before it, the product and the seats."""
from __future__ import annotations

import datetime
import re
from dataclasses import dataclass
from typing import Callable, Sequence, TypeVar

from nrm import Stop, said
from nrm.records.dates import Dates, departures_told, has_short_year
from nrm.records.log_rows import Log, LogRow, cut_short, some_of
from nrm.records.log_trains import with_last_names

Made = TypeVar("Made")
MOST_TOLD = 20  # rows that can't be read, and days without a departure
SEATS = re.compile(r"([0-9]{1,18})(?:[.,]0+)?")


@dataclass(frozen=True)
class Columns:
    """The headings of the columns that are read: those of the product are several, there may be none of the seats, and
    further ones mean something to who asks. Rows that have some texts in a column are left out, or are the only ones.
    The train is in one of the columns, or in the first of several of the product; some of its names may be the same.
    """
    departs: str
    booked: str
    product: Sequence[str]
    seats: str | None = None
    without: Sequence[Sequence[str]] = ()
    only: Sequence[Sequence[str]] = ()
    further: Sequence[str] = ()
    train: str | None = None
    same: Sequence[Sequence[str]] = ()

    def train_at(self) -> int | None:
        """Where the train stands in a row that is read; nowhere where no column is of it."""
        column = self.train or (self.product[0] if len(self.product) > 1 else None)
        return self.read().index(column) if column else None

    def train_of(self, fields: Sequence[str]) -> str:
        """The train of a row, which may be none."""
        at = self.train_at()
        return "" if at is None else fields[at]

    def read(self) -> list[str]:
        """The headings, in the order in which a row is read, those that leave rows out at the end."""
        return [self.departs, self.booked, *self.product, *([self.seats] if self.seats else []), *self.further,
                *[column for column, *_ in (*self.without, *self.only)]]

    def further_from(self) -> int:
        """Where the further columns begin in a row."""
        return 2 + len(self.product) + bool(self.seats)

    def asked_for(self, fields: Sequence[str]) -> str:
        """The text of the product, joined."""
        return " ".join(filter(None, fields[2:2 + len(self.product)]))

    def seats_of(self, fields: Sequence[str]) -> str:
        """The text of the seats, 1 where no column says it."""
        return fields[2 + len(self.product)] if self.seats else "1"


@dataclass(frozen=True)
class Request:
    """The day of departure, the days before it on which it was made, the text of the product, the seats, and the train
    if a column says it."""
    departs: datetime.date
    days: int
    product: str
    seats: int
    train: str = ""

    @classmethod
    def of(cls, dates: Dates, columns: Columns, fields: Sequence[str], is_cancelled: bool = False) -> Request:
        """The request of a row of the log; a ValueError says what is wrong with it. A row that cancels one may have its
        seats below 0, and may be made after the departure."""
        departs = day_of(dates, fields[0], "of departure")
        days = (departs - day_of(dates, fields[1], "on which it was made")).days
        product, seats = columns.asked_for(fields), columns.seats_of(fields)
        if days < 0 and not is_cancelled:
            raise ValueError(f"it was made on {fields[1]}, after its departure on {fields[0]}")
        if not product:
            raise ValueError("it names no product")
        if not (found := SEATS.fullmatch(seats.removeprefix("-") if is_cancelled else seats)):
            raise ValueError(f"{cut_short(seats)!r} isn't a number of seats")
        return cls(departs, days, product, int(found[1]), columns.train_of(fields))


def day_of(dates: Dates, text: str, which: str) -> datetime.date:
    """The day that a field says; a ValueError says what is wrong with it."""
    if not text:
        raise ValueError(f"it has no day {which}")
    try:
        return dates.day(text)
    except ValueError:
        why = "has a year of two digits" if has_short_year(text) else "isn't a date"
        raise ValueError(f"{cut_short(text)!r} {why}; write it like 2025-03-07") from None


def rows_kept(rows: Sequence[LogRow], without: Sequence[Sequence[str]], tell: Callable[[str], None],
              only: Sequence[Sequence[str]] = ()) -> Sequence[LogRow]:
    """The rows of a log that have none of some texts in columns, and one of some in others; tells how many are left
    out. These are the last columns that are read."""
    kept = rows
    for at, (column, *texts) in enumerate([*without, *only]):
        place, is_wanted = at - len(without) - len(only), at >= len(without)
        named = {it.strip().lower() for it in texts}
        there = dict.fromkeys(it.fields[place] for it in kept)
        kept, before = [it for it in kept if (it.fields[place].lower() in named) == is_wanted], len(kept)
        found = bool(kept) if is_wanted else len(kept) < before
        told = "" if found else f"; the column has {', '.join(list(there)[:MOST_TOLD])}"
        which = f"with{'out' if is_wanted else ''} {' or '.join(texts)} in {column}"
        tell(f"rows left out {before - len(kept)}, {which}{told}")
    return kept


def lines_told(lines: Sequence[int]) -> str:
    """Some lines, and how many more there are."""
    return f"line{'s' if len(lines) > 1 else ''} {some_of(list(map(str, lines)), MOST_TOLD)}"


def requests_in(path: str, columns: Columns, order: str | None, is_multiline: bool,
                tell: Callable[[str], None]) -> list[Request]:
    """The requests of the log at a path. Tells what was read."""
    log = Log(path, columns.read(), is_multiline, gathers=True)
    rows, dates = rows_and_dates(log, columns, order, tell)
    requests = all_made(log, rows, lambda it: Request.of(dates, columns, it.fields), 0, tell)
    tell_departures(requests, tell)
    return requests


def rows_and_dates(log: Log, columns: Columns, order: str | None,
                   tell: Callable[[str], None]) -> tuple[Sequence[LogRow], Dates]:
    """The rows of a log that aren't left out, with one name for each train, and what reads their dates. Tells what was
    read."""
    tell(log.told())
    rows = rows_kept(log.rows, columns.without, tell, columns.only)
    dates = Dates((text for it in rows for text in it.fields[:2]), order)
    return with_last_names(rows, columns.train_at(), columns.same, dates), dates


def all_made(log: Log, rows: Sequence[LogRow], make: Callable[[LogRow], Made], most: int,
             tell: Callable[[str], None]) -> list[Made]:
    """What is made of each row. Rows that can't be read are told and left out, or, if they are more than so many, they
    are a Stop."""
    made, wrong = [], list(log.faults)
    for it in rows:
        try:
            made.append(make(it))
        except ValueError as why:
            wrong.append((it.line, f"line {it.line}: {why}"))
    told = [why for _, why in sorted(wrong)]
    if len(told) > most:
        more = [f"and {len(told) - MOST_TOLD} more"] if len(told) > MOST_TOLD else []
        unread = f"{said(log.path)} has rows that can't be read; fix or remove them"
        raise Stop("\n    ".join([unread, *told[:MOST_TOLD], *more]))
    if not made:
        raise Stop(f"{said(log.path)} has no request below its headings")
    for text in told:
        tell(f"left out: {text}")
    return made


def tell_departures(requests: Sequence[Request], tell: Callable[[str], None]) -> None:
    """Tells on which days there are departures."""
    tell(departures_told(sorted({it.departs for it in requests}), MOST_TOLD))
