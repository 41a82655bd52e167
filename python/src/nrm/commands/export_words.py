"""The words with which an export is read: beside those of a log, its stops, fares, numbers and cancellations."""
from __future__ import annotations

import argparse
import datetime
from typing import Callable, Sequence

from nrm import Stop
from nrm.commands.running import whole_number
from nrm.records.dates import WEEKDAYS, Dates
from nrm.records.export_bookings import Booking, ExportColumns, bookings_in
from nrm.records.log_requests import Columns, Request


def add_export(words: argparse.ArgumentParser) -> None:
    """The words for what an export has beside a log."""
    words.add_argument("--train", metavar="COLUMN")
    words.add_argument("--from", metavar="COLUMN", dest="first_stop")
    words.add_argument("--to", metavar="COLUMN", dest="last_stop")
    words.add_argument("--stops", metavar="COLUMN")
    words.add_argument("--line", metavar="STOP", nargs="+", action="append", default=[])
    words.add_argument("--join", metavar="STOP", nargs="+", default=[])
    words.add_argument("--seats-of", metavar="FILE")
    words.add_argument("--fare", metavar="COLUMN")
    words.add_argument("--amount", metavar="COLUMN")
    words.add_argument("--cents", action="store_true")
    words.add_argument("--id", metavar="COLUMN")
    words.add_argument("--cancels", metavar=("COLUMN", "TEXT"), nargs="+", default=[])
    words.add_argument("--net", action="store_true")
    words.add_argument("--only", metavar=("COLUMN", "TEXT"), nargs="+", action="append", default=[])
    words.add_argument("--leave-out", metavar="N", type=whole_number, default=0)
    words.add_argument("--until", metavar="DATE", type=day_of_word)
    words.add_argument("--stream", metavar=("DATE", "FILE"), nargs="+", default=[])


def day_of_word(text: str) -> datetime.date:
    """The day that a word says."""
    try:
        return Dates([]).day(text)
    except ValueError:
        raise Stop(f"{text} isn't a date: write it like 2025-03-07")


def see_export_limits(asked: argparse.Namespace) -> None:
    """A Stop for words that don't go together."""
    stops = bool(asked.stops or asked.first_stop)
    of_network = stops and len(asked.stream) != 1
    for is_wrong, why in (
            (bool(asked.first_stop) != bool(asked.last_stop), "--from and --to must be given together"),
            (bool(asked.stops and asked.first_stop), "--stops can't be used with --from and --to"),
            (bool(asked.fare and asked.amount), "--fare can't be used with --amount: one is of a seat, the other of a "
                                                "row"),
            (stops and asked.network is not None, "--network can't be used with stops, which make the network"),
            (of_network and not (asked.fare or asked.amount), "a log with stops needs --fare or --amount"),
            (of_network and asked.seats_of is None, "a log with stops needs --seats-of FILE"),
            (not stops and asked.seats_of is not None, "--seats-of needs --from and --to, or --stops"),
            (bool(asked.line) and not stops, "--line needs --from and --to, or --stops"),
            (bool(asked.join) and not stops, "--join needs --from and --to, or --stops"),
            (bool(asked.line or asked.join) and bool(asked.stops) and asked.train is None,
             "--line and --join are for trains: with --stops they need --train"),
            (asked.cents and not (asked.fare or asked.amount), "--cents needs --fare or --amount"),
            (asked.net and not asked.cancels, "--net needs --cancels"),
            (any(len(it) < 2 for it in asked.only), "--only needs a column and at least one text, such as --only "
                                                    "train 7501"),
            (len(asked.stream) > 2, "--stream takes a date and at most one file"),
            (asked.leave_out < 0, f"--leave-out {asked.leave_out}: the number of rows can't be below 0")):
        if is_wrong:
            raise Stop(why)


def of_weekday(bookings: Sequence[Booking], weekday: str | None) -> list[Booking]:
    """The bookings that depart on a day of the week, or all."""
    found = [it for it in bookings if weekday in (None, WEEKDAYS[it.request.departs.weekday()])]
    if not found:
        raise Stop(f"the log has no departure on a {weekday}")
    return found


def requests_until(bookings: Sequence[Booking], is_net: bool, until: datetime.date | None) -> list[Request]:
    """What counts of bookings that depart no later than a day."""
    found = [it for booking in bookings for it in booking.requests(is_net, until)]
    if not found:
        raise Stop(f"no request that counts departs up to {until}" if until else "no booking of the log stands")
    return found


def bookings_of(asked: argparse.Namespace, tell: Callable[[str], None]) -> list[Booking]:
    """The bookings of the export that the words name. Tells what was read and paired."""
    log = Columns(asked.departs, asked.booked, asked.product, asked.seats, asked.without, asked.only, same=asked.same)
    stops = [it for it in (asked.stops, asked.first_stop, asked.last_stop) if it]
    columns = ExportColumns(log, asked.train, stops, asked.fare or asked.amount, asked.amount is not None, asked.id,
                            asked.cancels)
    return bookings_in(asked.log, columns, asked.dates, asked.multiline, asked.leave_out, tell)
