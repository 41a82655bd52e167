"""The bookings of an export: what is there twice, cancellations in rows of their own or as a status, fares and stops.
"""
from __future__ import annotations

import dataclasses
import datetime
import re
from collections import Counter, defaultdict
from dataclasses import dataclass
from decimal import Decimal
from typing import Callable, Iterable, Iterator, Mapping, Sequence

from nrm import Stop, said
from nrm.records.amounts import Amounts
from nrm.records.dates import Dates
from nrm.records.log_requests import Columns, Request, all_made, lines_told, rows_and_dates, tell_departures
from nrm.records.log_rows import Log, LogRow, cut_short, some_of

CANCELLED = re.compile(r"-\d.*|x|xx|hx|cxl|yes|ja|oui|si|sì|sí|"
                       r"(cancel|storn|annul|anul|refund|erstatt|rembours|rimbors|reembols)\w*", re.IGNORECASE)
MOST_TEXTS = 9  # that are told of a column
MOST_ALONE = 100  # bookings for each cancellation that may be without one, where its kind isn't sure
JOINED_BY = (">", "→", "|", "/", " - ", " – ", "–", "-")  # the stops of a journey


@dataclass(frozen=True)
class ExportColumns:
    """The headings of the columns of an export beside those of a log: the train, the first and the last stop or one
    with all of them, the fare of a seat or the amount of a row, the booking's number, and the one of cancellations
    with the texts that say one."""
    log: Columns
    train: str | None = None
    stops: Sequence[str] = ()
    fare: str | None = None
    is_of_row: bool = False
    number: str | None = None
    cancels: Sequence[str] = ()

    @property
    def are_flights(self) -> bool:
        """Whether a journey says all of its stops, which are no line then."""
        return len(self.stops) == 1 and self.train is None

    def further(self) -> list[str]:
        """The headings, in the order in which a row is read."""
        return [*([self.train] if self.train else []), *self.stops, *([self.fare] if self.fare else []),
                *([self.number] if self.number else []), *self.cancels[:1]]

    def read(self) -> Columns:
        """All columns that are read of the log."""
        return dataclasses.replace(self.log, further=self.further(), train=self.train)


@dataclass(frozen=True)
class Cancellation:
    """A cancellation: its line, the seats, the days before departure, if they are known, whether its row shows by an
    amount or by seats below 0 that it is one of its own, and the text that says that it is one."""
    line: int
    seats: int
    days: int | None
    is_below_0: bool = False
    text: str = ""


@dataclass(frozen=True)
class Booking:
    """A booking: its line and request, the train, the stops from the first to the last, the fare class, the fare of a
    seat, its number, and its cancellations."""
    line: int
    request: Request
    train: str
    stops: tuple[str, ...]
    fare_class: str
    fare: Decimal | None
    number: str
    cancelled: tuple[Cancellation, ...] = ()

    @property
    def is_refund(self) -> bool:
        """Whether it is a cancellation of another row's booking, as seats or an amount below 0 show."""
        return any(it.is_below_0 for it in self.cancelled)

    @property
    def seats_cancelled(self) -> int:
        return sum(it.seats for it in self.cancelled)

    @property
    def seats_standing(self) -> int:
        return self.request.seats - self.seats_cancelled

    def requests(self, is_net: bool, until: datetime.date | None) -> Iterator[Request]:
        """What counts as demand: the request, or its seats that stand, if it departs no later than a day."""
        if until is None or self.request.departs <= until:
            if not is_net:
                yield self.request
            elif self.seats_standing:
                yield dataclasses.replace(self.request, seats=self.seats_standing)


class ExportReading:
    """Reads the rows of an export, one after the other."""

    def __init__(self, columns: ExportColumns, dates: Dates, rows: Sequence[LogRow]) -> None:
        self.columns, self.dates, self.read = columns, dates, columns.read()
        self.places = {name: at for at, name in enumerate(columns.further(), columns.log.further_from())}
        fare = columns.fare
        self.amounts = Amounts(fare, ((it.line, self.field(it, fare)) for it in rows)) if fare else None
        one = columns.stops[0] if len(columns.stops) == 1 else None
        self.separator = separator_of(self.field(it, one) for it in rows) if one else ""

    def texts_told(self, rows: Sequence[LogRow]) -> str:
        """Which texts of the column of cancellations say that a row is one, and which don't; a Stop where none does."""
        column = self.columns.cancels[0]
        texts: dict[bool, Counter[str]] = {True: Counter(), False: Counter()}
        for it in rows:
            texts[self.cancels(it)][self.field(it, column) or "nothing"] += 1
        yes, no = (counted(texts[it]) for it in (True, False))
        if not yes:
            raise Stop(f"no row is a cancellation by the column {column}, which has {no}; name the texts that mean "
                       f"one, --cancels {column} TEXT..")
        return f"rows that cancel by the column {column}: {yes}; that don't: {no or 'none'}"

    def field(self, row: LogRow, column: str | None) -> str:
        """What stands in a further column; nothing where none is read."""
        return row.fields[self.places[column]] if column else ""

    def cancels(self, row: LogRow) -> bool:
        """Whether a row says that a booking is cancelled."""
        if not self.columns.cancels:
            return False
        column, *texts = self.columns.cancels
        text = self.field(row, column)
        if texts:
            return text.lower() in (it.strip().lower() for it in texts)
        return CANCELLED.fullmatch(text) is not None or self.day_in(text) is not None

    def day_in(self, text: str) -> datetime.date | None:
        """The day that a text says, if it says one."""
        try:
            return self.dates.day(text)
        except ValueError:
            return None

    def booking(self, row: LogRow) -> Booking:
        """The booking of a row; a ValueError says what is wrong with it."""
        is_cancelled = self.cancels(row)
        request = Request.of(self.dates, self.read, row.fields, is_cancelled)
        stops, fare_class = self.stops(row), request.product
        train, number = self.field(row, self.columns.train), self.field(row, self.columns.number)
        for column, text in ((self.columns.train, train), (self.columns.number, number)):
            if column and not text:
                raise ValueError(f"it has nothing in {column}")
        ends = stops if self.columns.are_flights else (*stops[:1], *stops[-1:])
        request = dataclasses.replace(request, product=" ".join(filter(None, [train, " - ".join(ends), fare_class])))
        fare = self.fare(row, request.seats, is_cancelled)
        return Booking(row.line, request, train, stops, fare_class, fare, number,
                       (self.cancellation(row, request),) if is_cancelled else ())

    def cancellation(self, row: LogRow, request: Request) -> Cancellation:
        """The cancellation that the row of its booking says."""
        text = self.field(row, self.columns.cancels[0])
        day = self.day_in(text)
        amounts = self.read.seats_of(row.fields), self.field(row, self.columns.fare)
        is_below_0 = any(it.startswith("-") for it in amounts)
        if is_below_0 and not self.columns.number:
            raise ValueError("it cancels a booking of another row: use --id with the column of the booking's number")
        days = None if day is None else (request.departs - day).days
        return Cancellation(row.line, request.seats, days, is_below_0, text)

    def stops(self, row: LogRow) -> tuple[str, ...]:
        """The stops of the journey, from the first to the last."""
        texts = [self.field(row, it) for it in self.columns.stops]
        stops = tuple(it.strip() for it in (texts[0].split(self.separator) if self.separator else texts))
        if stops and (len(stops) < 2 or not all(stops)):
            raise ValueError(f"{cut_short(' '.join(texts))!r} isn't a journey from one stop to another")
        if len(set(stops)) < len(stops):
            raise ValueError(f"it has the stop {max(stops, key=stops.count)} twice")
        return stops

    def fare(self, row: LogRow, seats: int, is_cancelled: bool) -> Decimal | None:
        """The fare of a seat; what a cancellation says of money doesn't count."""
        if self.amounts is None:
            return None
        text = self.field(row, self.columns.fare)
        if is_cancelled and (not text or text.lstrip().startswith("-")):
            return None
        amount = self.amounts.amount(text)
        return amount / seats if self.columns.is_of_row and seats else amount


def separator_of(texts: Iterable[str]) -> str:
    """What stands between the stops of a journey: the one that most texts have, of several the first that is known."""
    every = list(texts)
    return max(JOINED_BY, key=lambda it: sum(it in text for text in every))


def counted(texts: Mapping[str, int]) -> str:
    """Some texts, each with how often it is there, and how many other texts there are."""
    return some_of([f"{cut_short(text)} {count}" for text, count in texts.items()], MOST_TEXTS, "other texts")


def bookings_in(path: str, columns: ExportColumns, order: str | None, is_multiline: bool, most: int,
                tell: Callable[[str], None]) -> list[Booking]:
    """The bookings of the export at a path, of which so many rows may be left out. Tells what was read and paired."""
    log = Log(path, columns.read().read(), is_multiline, gathers=True)
    rows, dates = rows_and_dates(log, columns.read(), order, tell)
    if columns.number:
        rows = each_once(rows, tell)
    reading = ExportReading(columns, dates, rows)
    if columns.cancels:
        tell(reading.texts_told(rows))
    pairing = Pairing(all_made(log, rows, reading.booking, most, tell), bool(columns.number), most)
    for text in pairing.told():
        tell(text)
    if not pairing.bookings:
        raise Stop(f"{said(path)} has no booking: each row cancels one")
    tell_departures([it.request for it in pairing.bookings], tell)
    return pairing.bookings


def each_once(rows: Sequence[LogRow], tell: Callable[[str], None]) -> list[LogRow]:
    """The rows without those that say the same as one above. Tells which these are."""
    seen, once, twice = set[tuple[str, ...]](), list[LogRow](), list[int]()
    for it in rows:
        said = tuple(it.fields)
        if said in seen:
            twice.append(it.line)
        else:
            once.append(it)
        seen.add(said)
    if twice:
        tell(f"rows that occur twice, which count once: {len(twice)}, {lines_told(twice)}")
    return once


class Pairing:
    """The bookings of rows, with their cancellations: by their own row, by another one of their number, or by both."""

    def __init__(self, rows: Sequence[Booking], has_numbers: bool, most: int = 0) -> None:
        self.alone: list[int] = []
        self.paired = self.refunds = 0
        numbers: dict[str, list[Booking]] = defaultdict(list)
        for it in rows if has_numbers else ():
            numbers[it.number].append(it)
        standing = [[it.line for it in some if not it.cancelled] for some in numbers.values()]
        self.differing = sorted(line for lines in standing for line in lines[1:])
        have_booking = {some[0].number for some, lines in zip(numbers.values(), standing) if lines}
        self.are_rows = any(it.cancelled and (it.number in have_booking or it.is_refund) for it in rows)
        in_rows = sum(map(is_cancelled_by_another_row, numbers.values()))
        self.are_told_twice = sum(map(is_told_twice, numbers.values())) > in_rows
        self.bookings = self.paired_rows(rows, numbers) if self.are_rows else list(rows)
        if not (in_rows or self.are_told_twice):
            alone = {*self.alone}
            see_what_is_alone([it for it in rows if it.line in alone], rows,
                              max(most, 1, len(self.bookings) // MOST_ALONE))
        late = [it.line for it in self.bookings if it.request.days < 0]
        if late:
            raise Stop(f"bookings that are cancelled were made after their departure, in {lines_told(late)}: fix "
                       "or remove them")

    def paired_rows(self, rows: Sequence[Booking], numbers: Mapping[str, Sequence[Booking]]) -> list[Booking]:
        """The bookings, with the cancellations in other rows of their number."""
        own = {it.line: it for it in rows if self.are_told_twice and it.cancelled and not it.is_refund}
        bookings = {it.line: dataclasses.replace(it, cancelled=()) for it in rows
                    if not it.cancelled or it.line in own}
        for it in rows:
            if it.line not in bookings:
                lines = sorted((row.line for row in numbers[it.number] if row.line in bookings),
                               key=lambda line: line not in own)
                found = next((bookings[line] for line in lines if is_of(it, bookings[line])), None)
                if found is None:
                    self.alone.append(it.line)
                    continue
                self.refunds += found.line in own
                self.paired += found.line not in own
                cancelled = (*found.cancelled, Cancellation(it.line, it.request.seats, it.request.days))
                bookings[found.line] = dataclasses.replace(found, cancelled=cancelled)
        return [by_own_row(own[line], it) if line in own else it for line, it in bookings.items()]

    def told(self) -> Iterator[str]:
        """What was paired and what counts once, in sentences."""
        if self.differing:
            yield (f"rows with the number of another booking, which differ from it and count: {len(self.differing)}, "
                   f"{lines_told(self.differing)}")
        if self.alone:
            yield ("cancellations without a booking of their number, departure, product and as many seats, which "
                   f"don't count: {len(self.alone)}, {lines_told(self.alone)}")
        cancelled = sum(bool(it.cancelled) for it in self.bookings)
        if cancelled:
            how = f"in rows of their own, of which {self.paired} were paired" if self.are_rows else "by their own row"
            if self.are_told_twice:
                more = f", and {self.paired} more cancel others" if self.paired else ""
                how = f"by their own row (refunds that say so again {self.refunds}, which don't count{more})"
            whole = sum(it.cancelled != () and not it.seats_standing for it in self.bookings)
            part = f", {cancelled - whole} more in part" if cancelled > whole else ""
            yield (f"bookings {len(self.bookings)}, of them cancelled {whole}{part}, {how}; without --net "
                   f"`nrm-tools simulate --cancel {whole / len(self.bookings):.4f}` plays such seasons")


def is_like(cancellation: Booking, booking: Booking) -> bool:
    """Whether a row is of the same departure and product as a booking, with no more seats than that had."""
    wanted, there = cancellation.request, booking.request
    return (wanted.departs, wanted.product) == (there.departs, there.product) and wanted.seats <= there.seats


def is_cancelled_by_another_row(rows: Sequence[Booking]) -> bool:
    """Whether, of the rows of a number, one that isn't below 0 cancels the booking of another."""
    standing = [it for it in rows if not it.cancelled]
    return any(is_like(it, booking) for it in rows if it.cancelled and not it.is_refund for booking in standing)


def is_told_twice(rows: Sequence[Booking]) -> bool:
    """Whether, of the rows of a number, one is a booking that is cancelled by its own row, and another its refund."""
    own = [it for it in rows if it.cancelled and not it.is_refund]
    return not is_cancelled_by_another_row(rows) and any(is_like(it, booking) for it in rows if it.is_refund
                                                         for booking in own)


def by_own_row(own: Booking, refunded: Booking) -> Booking:
    """A booking that is cancelled by its own row: on the day that this says, or on the days of its refunds."""
    if own.cancelled[0].days is not None:
        return own
    left = refunded.seats_standing
    rest = (dataclasses.replace(own.cancelled[0], seats=left),) if left or not refunded.cancelled else ()
    return dataclasses.replace(own, cancelled=(*refunded.cancelled, *rest))


def see_what_is_alone(alone: Sequence[Booking], rows: Sequence[Booking], most: int) -> None:
    """A Stop for more than so many rows that may be bookings, cancelled by their own row, or cancellations of bookings
    that the export hasn't: none of them has a booking or a refund of its number."""
    above = [it for it in alone if not it.is_refund]
    if len(above) <= most:
        return
    texts = {it.cancelled[0].text for it in rows if it.is_refund}
    others = {it.cancelled[0].text for it in above}
    which = " or ".join(sorted(texts)) if not texts & others else "a text that they alone have in some column"
    raise Stop(f"{len(above)} rows cancel something, and have neither an amount below 0 nor a booking or refund of "
               f"their number: {lines_told([it.line for it in above])}. Others have seats or amounts below 0. If the "
               f"{len(above)} are bookings that are cancelled by their own row, leave out the refunds with --without "
               f"COLUMN TEXT, by {which}; if they cancel bookings that the export doesn't have, leave them out with "
               f"--leave-out {len(above)}")


def is_of(cancellation: Booking, booking: Booking) -> bool:
    """Whether a row can cancel a booking: of the same departure and product, with as many seats as still stand."""
    wanted, there = cancellation.request, booking.request
    return (wanted.departs, wanted.product) == (there.departs, there.product) and wanted.seats <= booking.seats_standing
