"""Estimates the demand rows of a network file from bookings and the times at which products were closed.

    nrm-tools demand LOG --departs COLUMN --booked COLUMN --product COLUMN.. [--seats COLUMN] --cuts DAYS,DAYS..
                     (--closures FILE [--closed FROM TO] | --readings FILE [--read COLUMN] [--available COLUMN])
                     [--opens DAYS] [--cancelled COLUMN] [--copies N | --mean] [--seed S] [--before NETWORK]
                     [--like-class] [--report FILE] [--same TRAIN TRAIN..] [--without COLUMN TEXT..] [--network FILE]
                     [--names FILE] [--weekday DAY] [--last N] [--dates dmy|mdy] [--multiline] > NEW

LOG has a row for each booking, as `nrm-tools log` reads it. What `nrm-tools log --help` says about columns, quotes,
dates, trains, seasons, periods and names holds here too, and --same applies to the file of times as well. --cancelled
COLUMN ignores each booking that has something in that column, such as the day on which it was cancelled.

CLOSURES. FILE has a row for each time during which a product of a departure couldn't be booked. The columns of the
departure and of the product are those of LOG, and --closed names the two others; by default they are `closed from` and
`closed to`. A moment is a date and a time, such as 2025-02-20 14:30; a date alone means noon. If the second moment is
missing, the product was closed until its departure. Closures may overlap. --opens says how many days before departure
the sale begins; by default it begins with the earliest booking.

READINGS. If you have no closures, --readings FILE has a row for each time at which availability was read. The columns
of the departure and of the product are those of LOG. --read names the column of the moment, by default `read on`, and
--available that of the availability, by default `available`: a number of seats or `open`, and 0 or `closed`. Between
two readings, of which one is open and the other closed, it changed in the middle. Before the first reading it was as at
the first, and after the last as at the last.

WHAT IS ESTIMATED. Each product and period has a rate: the seats that a whole period would sell if the product were open
throughout. Each departure has a strength, because it was a busy or a quiet one, and so has each product of a departure.
Bookings while a product is open come at random; their mean is the rate times both strengths times the share of the
period in which it was open. Days weigh as much as the bookings that they have while products are open. The strengths
vary about 1 as much as these departures show. The estimate of what wasn't seen is the rate times both strengths times
the share in which the product was closed. With --network, parts of the network that no product connects have strengths
of their own, since each is busy by itself.

WHOLE NUMBERS. A network file takes whole numbers. So what wasn't seen is drawn, from a Poisson distribution about its
mean, as often as fits into 32 histories, three times at most, or --copies N times. Histories 1 to D are those of the D
departures; then they come again with the same bookings and other draws. The same --seed gives the same rows. With
--mean nothing is drawn: each departure has its bookings and the mean of what wasn't seen, in whole numbers; what is
left over is carried on to the next departure.

A PRODUCT THAT WAS HARDLY EVER OPEN in a period shows little of its demand there, or nothing, which is reported.
Therefore each product counts one departure more, with the demand that was expected. --before NETWORK, the network file
that was used so far, gives this demand: the mean that was asked for in it. If it doesn't name the product, or isn't
given, the demand is the level of the product times the course of sales over the periods; the dear products share one
course and the cheap ones another, or all share one without --network. A product is dear if its fare is at or above the
middle of the fares of its journey, or of all fares if its journey has one fare. A product that was never open in any
period has no level. Without --before it gets no row, as if nobody had asked for it, or with --like-class the mean level
of the products of its class.

--report FILE gets a row for each product: the seats booked in a departure, how much of its demand came while it was
open, the estimate, and its standard error. If LOG or the file of times has rows that can't be read, it is refused, and
the first 20 of these rows are printed.
"""
from __future__ import annotations

import argparse
from typing import Callable, Sequence

from nrm.commands import running
from nrm.commands.log_words import add_log, demand_of, names_told, requests_of, see_limits
from nrm.commands.running import at_least, parser
from nrm.limits import MOST_HISTORIES
from nrm.network import text_of
from nrm.records.closures import Closure, ClosureTimes
from nrm.records.estimate_days import estimated
from nrm.records.estimate_products import known_of
from nrm.records.estimate_results import DemandEstimate, carried, copies_of, drawn
from nrm.records.fitting_names import named
from nrm.records.log_demand import completed
from nrm.records.log_rows import Log
from nrm.records.log_trains import last_names, trains_of
from nrm.records.name_lists import list_of, names_in
from nrm.records.sale import Calendar, Sale, opening_of
from nrm.writing_files import Output

MOST_DAYS = 100_000  # before a departure


def run(given: Sequence[str]) -> int:
    """Writes the demand behind a sale, or the whole network file, and tells what was read and what was estimated."""
    asked = words_of(given)
    known_names = names_in(asked.names)
    requests = requests_of(without_cancelled(asked), briefly(asked.cancelled))
    demand = demand_of(asked, requests)
    for text in trains_of([(it.train, it.departs, it.product.removeprefix(it.train)) for it in requests],
                          demand.departures, "products").told():
        tell(text)
    calendar = Calendar(asked.cuts, opening_of(requests, asked.cuts, asked.opens))
    sale = Sale(requests, demand, closures_of(asked))
    copies = 1 if asked.mean else copies_of(len(sale.departures), asked.copies)
    demand.products = sale.products  # those that have closures alone too
    names = named(sale.products, known_names)
    above: list[Sequence[object]] = [["periods", len(sale.departures), demand.periods]]
    if asked.network is not None:
        above = completed(asked.network, demand, names, tell)
    rates = estimated(sale, calendar, known_of(sale, names, asked.network, asked.before, asked.like_class))
    made = carried(rates) if asked.mean else drawn(rates, copies, asked.seed)
    estimate = DemandEstimate(rates, names, made, copies, asked.before)
    rows = [["periods", estimate.histories(), *above[0][2:]], *above[1:], *estimate.rows()]
    for line in [*names_told(names, [], sale.products, asked.names), *estimate.told()]:
        tell(line)
    with Output() as output:
        if asked.names is not None:
            output.add(asked.names, list_of(names))
        if asked.report is not None:
            output.add(asked.report, estimate.report())
        print(text_of(rows), end="")
    return 0


def words_of(given: Sequence[str]) -> argparse.Namespace:
    """The words, in their limits."""
    words = parser("demand", __doc__)
    add_log(words)
    words.add_argument("--cancelled", metavar="COLUMN")
    words.add_argument("--opens", metavar="DAYS", type=at_least(0, MOST_DAYS))
    times = words.add_mutually_exclusive_group(required=True)
    times.add_argument("--closures", metavar="FILE")
    times.add_argument("--readings", metavar="FILE")
    words.add_argument("--closed", metavar=("FROM", "TO"), nargs=2, default=["closed from", "closed to"])
    words.add_argument("--read", metavar="COLUMN", default="read on")
    words.add_argument("--available", metavar="COLUMN", default="available")
    how = words.add_mutually_exclusive_group()
    how.add_argument("--copies", type=at_least(0, MOST_HISTORIES), metavar="N")
    how.add_argument("--mean", action="store_true")
    words.add_argument("--seed", type=at_least(0, 2 ** 63), default=1)
    words.add_argument("--before", metavar="NETWORK")
    words.add_argument("--like-class", action="store_true")
    words.add_argument("--report", metavar="FILE")
    asked = words.parse_args(given)
    see_limits(asked)
    return asked


def closures_of(asked: argparse.Namespace) -> list[Closure]:
    """The closures that a file says, or that readings tell of."""
    path, others = (asked.closures, asked.closed) if asked.closures else (asked.readings, [asked.read, asked.available])
    times = ClosureTimes(path, asked.departs, asked.product, others, asked.dates, asked.multiline,
                         last_names(asked.same))
    return times.closures(tell) if asked.closures else times.readings(tell)


def without_cancelled(asked: argparse.Namespace) -> argparse.Namespace:
    """The words, with all texts of the column of cancellations among those whose rows are left out."""
    if asked.cancelled is None:
        return asked
    texts = {it.fields[0] for it in Log(asked.log, [asked.cancelled], asked.multiline).rows if it.fields[0]}
    more = [[asked.cancelled, *sorted(texts)]] if texts else []
    return argparse.Namespace(**{**vars(asked), "without": [*asked.without, *more]})


def briefly(column: str | None) -> Callable[[str], None]:
    """How is told what was read: of a column of which any text is left out, without these."""
    def told(text: str) -> None:
        how_many, _, texts = text.partition(", with ")
        tell(f"{how_many}, with something in {column}" if column and texts.endswith(f" in {column}") else text)
    return told


def tell(text: str) -> None:
    """Tells something on standard error."""
    running.tell("demand", text)
