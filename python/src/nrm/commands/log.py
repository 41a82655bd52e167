"""Makes a network file from an export of bookings or a log of requests: its demand, and its legs, products and fares.

    nrm-tools log LOG --departs COLUMN --booked COLUMN --product COLUMN.. [--seats COLUMN] --cuts DAYS,DAYS..
                  [--train COLUMN] [--same TRAIN TRAIN..] [--from COLUMN --to COLUMN | --stops COLUMN]
                  [--line STOP STOP..] [--join STOP..]
                  [--seats-of FILE] [--fare COLUMN | --amount COLUMN] [--cents] [--id COLUMN]
                  [--cancels COLUMN [TEXT..]] [--net] [--without COLUMN TEXT..] [--only COLUMN TEXT..] [--leave-out N]
                  [--network FILE] [--names FILE] [--weekday DAY] [--last N] [--until DATE] [--stream DATE [FILE]]
                  [--dates dmy|mdy] [--multiline] > NEW

LOG has a row of headings and below it a row for each request: the day of departure, the day on which it was made, what
was asked for, and how many seats; without a column for them it is 1. COLUMN is a heading, in any case of letters. What
was asked for may be in several columns, such as the flight and the class, which are then joined. Rows above the
headings, other columns and empty rows are ignored. Fields are separated by commas, semicolons, tabs or bars, and may be
in quotes. The file may be in UTF-8, in UTF-16 with its byte order mark, or else in Windows-1252. --without status
cancelled ignores the rows that have this text, or one of several, in that column, in any case; --only train 7501
ignores those that don't. Both may be used for several columns.

STOPS. With --from and --to, the columns of the stops at which a journey begins and ends, the command makes the legs and
products too, and so the whole network file. The stops of a train, whose column is --train, or of all rows without
--train, are put in the order that the journeys show, and each two neighbouring stops make a leg. A product is a train,
a first and a last stop, and the fare class in --product; its legs are those between. If the journeys don't show the
order, --line STOP STOP.. gives it for one line, and may be used again for others. --join STOP.. makes one leg of the
two on each side of a stop: a journey from or to it then takes a seat on all of that leg. If the bookings that stand
take more seats of a leg than it has, the command says so, with what was earned and, if it is less, a bound on what such
a network can earn. --stops is for one column with all stops of the journey, such as ZRH-VIE-BUD or Lyon > Dijon >
Paris; without --train each two neighbours of a journey make a leg, as for flights over a hub. The file of --seats-of
has the seats, in rows of a train or a leg and a number. A train's number is for each of its legs. A leg is written by
its stops, as ZRH-VIE, with the train's name and a blank before it as `7501 Paris - Lyon`, or by its name in the
network. More than 64 legs, 256 products, or four legs of a product are refused, with the numbers.

TRAINS that depart on only some of the seasons' days are reported with the days, since they have no demand in the other
seasons; the train is in the column --train, or in the first of several of --product. If a train seems to have been
renamed in between, the command proposes to treat both as one: --same 'ICE 571' 'ICE 1571' gives it the last of its
names in all rows. Two that depart on one day are two trains, and are refused.

FARES. The fare of a product is the mean of the column --fare, the fare of one seat, over the seats that stand, or of
--amount, what all seats of the row cost, divided by the seats. It is rounded to the nearest whole number, or counted in
cents with --cents. 1.234,50 and EUR 35.00 are read; two currencies or two decimal marks are refused. With --network
these fares replace those of the file.

CANCELLATIONS. --cancels COLUMN says which rows are cancelled: by one of the texts, or without texts by a word for it
such as cancelled, storno, annulé or refund, by seats below 0, or by the day of the cancellation. With --id, the column
of the booking's number, a cancellation may be a row of its own. It is paired with the booking of its number, departure
and product that has as many seats, or more; if there is none, it is reported and doesn't count. If no such row has a
booking, the row is the booking itself; and so it is if refunds, with seats or amounts below 0, have the numbers of such
rows: these give the day, and don't count again. If the log shows neither, it is refused. The command reports how many
were paired, and which share that is for `simulate --cancel`. A booking that was cancelled was asked for, so it counts
in the demand. With --net it doesn't count, and one that was cancelled in part counts with the seats that stand. With
--id, rows that say the same in all columns that are read count once, which is reported.

FAULTS. If a row can't be read the log is refused, and the first 20 such rows are printed with their lines, and how many
more there are. With --leave-out N up to N of them are ignored, and each is reported with its line.

QUOTES. A quote that isn't closed takes all that follows into its field, up to the next quote. Therefore each row must
end in its line: if a quote is opened in it and not closed, or closed and followed by more text, it can't be read.
--multiline is for logs whose fields have line feeds on purpose, within quotes; a quote that is closed nowhere is
refused then too, and --leave-out doesn't ignore a row with a broken one.

WHAT IS READ. Each time standard error says how many rows were read of how many lines, from which day to which there are
departures, and how many, and which days between them have none: days of the week that never have one, and single days.

SEASONS. Each day of departure is a season, and so a history; they are numbered from the earliest. --weekday fri takes
only Fridays, --until DATE only days up to that one, and --last N the N latest; a file takes 32.

PERIODS. --cuts 60,30,7 makes four: more than 60 days before departure, up to 60, up to 30, and up to 7, with the day
itself. A file takes 16.

STREAM. --stream DATE writes, instead of the network, the lines of the season that departs on that day, as `nrm run`
reads them: `book` and `cancel` in the order of their days, and within a day in the order of the rows, and `reoptimise`
where a period begins. With a FILE it writes them there, and the network too. The names are the same if --names is the
same. A booking has the number that it would have if each request were sold. With --net neither cancelled bookings nor
their cancellations are in the stream.

DATES. 2025-03-07, 2025/03/07, 2025.03.07 and 20250307; 7.3.2025 and 07.03.2025, the day first; with the month in
English, German, French, Spanish or Italian 7MAR2025, 07-Mar-2025, 7. März 2025, 1er mars 2025, 7 de marzo de 2025, 7
marzo 2025, March 7, 2025, and 07MAR25. A weekday before or after it and a time after it are ignored. 07/03/2025 and
07-03-2025 are read in one way throughout a log: as another of its dates shows, since no month is above 12, or as
--dates says, dmy for the day first or mdy for the month first. If neither says it, the log is refused; so is a year of
two digits after a month in digits, as in 07.03.25.

NAMES. A product whose text isn't a name of a network file gets one: in capitals, with `-` for everything but letters
and digits, shortened if it is too long, and different from all others. With stops it is made of the train, the two
stops and the class, each whole if there is room, and otherwise the same few letters wherever it occurs: 6607-PALY-FL.
--names FILE writes the list, `name,stands for`. If FILE is there already, its names stay, and new ones are added, so
you can write better ones into it. Before a text that a spreadsheet takes for a formula, such as =A1, the list has a ',
which isn't part of the text. `season`, `thresholds`, `simulate`, `optimum` and `explain` take the list too, and show
the texts beside the names.

WHAT IS WRITTEN comes at the end of a good run. If a run is refused, no file is made or changed; nor is a file that a
link leads to.

Without stops the output is the demand, as rows `demand`, with the row of periods above them. With --network FILE, which
has rows of legs and products, it is the whole network file: the demand and the periods of FILE are replaced, and its
version, authorised seats and refunds stay. If that is more than a network file takes, `nrm-tools split` splits it.
Standard error says what is still to be done, such as products for which FILE has no row.
"""
from __future__ import annotations

import argparse
import sys
from typing import Mapping, Sequence

from nrm.commands import running
from nrm.commands.export_words import (add_export, bookings_of, day_of_word, of_weekday, requests_until,
                                       see_export_limits)
from nrm.commands.log_words import add_log, demand_of, names_told, see_limits
from nrm.commands.running import parser
from nrm.network import text_of
from nrm.records.export_bookings import Booking
from nrm.records.export_offer import Offer, fares_of, seats_of, with_fares
from nrm.records.export_streams import DepartureStream
from nrm.records.export_trains import TrainLines
from nrm.records.fitting_names import named
from nrm.records.log_demand import Demand, completed
from nrm.records.log_rows import some_of
from nrm.records.log_trains import trains_of
from nrm.records.name_lists import list_of, names_in
from nrm.records.sale_joined import Stood
from nrm.writing_files import Output

Rows = Sequence[Sequence[object]]


def run(given: Sequence[str]) -> int:
    """Writes the demand of a log, the whole network file or a stream, and tells what was read and what is to do."""
    asked = words_of(given)
    known, read = names_in(asked.names), bookings_of(asked, tell)
    bookings = of_weekday(read, asked.weekday)
    offer, day = offer_of(asked, bookings), day_of_word(asked.stream[0]) if asked.stream else None
    of_day = sorted({it.request.product for it in bookings if it.request.departs == day})
    if len(asked.stream) == 1:
        print(stream_of(asked, bookings, offer.named(known) if offer else named(of_day, known)), end="")
        return 0
    demand = demand_of(asked, requests_until(read, asked.net, asked.until))
    names = offer.named(known) if offer else named([*demand.products, *of_day], known)
    stream = stream_of(asked, bookings, names) if asked.stream else ""
    fares = fares_of(bookings, asked.cents, tell) if asked.fare or asked.amount else {}
    seats = seats_of(asked.seats_of, offer, names, tell) if offer else {}
    rows = [*rows_above(asked, offer, demand, names, fares, seats), *demand.rows(names)]
    tell(demand.told({it.request.departs for it in read}))
    for text in trains_of([(it.request.train, it.request.departs, stop) for it in bookings for stop in
                           it.stops or [it.request.product.removeprefix(it.request.train)]],
                          demand.departures, "stops" if offer else "products").told():
        tell(text)
    for text in Stood(bookings, offer, seats, fares, demand).told() if offer else ():
        tell(text)
    for text in names_told(names, offer.legs if offer else [], demand.products, asked.names):
        tell(text)
    if asked.network is None and offer is None:
        tell_what_is_to_do(demand, names, fares)
    elif offer and (idle := sorted(names[it] for it in offer.products.keys() - set(demand.products))):
        tell(f"nobody asked for {len(idle)} of the products in these seasons: {some_of(idle)}")
    with Output() as output:
        if asked.names is not None:
            output.add(asked.names, list_of(offer.listed(names) if offer else names))
        if asked.stream:
            output.add(asked.stream[1], stream, "ascii")
        print(text_of(rows), end="")
    return 0


def words_of(given: Sequence[str]) -> argparse.Namespace:
    """The words, in their limits."""
    words = parser("log", __doc__)
    add_log(words)
    add_export(words)
    asked = words.parse_args(given)
    see_limits(asked)
    see_export_limits(asked)
    return asked


def tell(text: str) -> None:
    """Tells something on standard error."""
    running.tell("log", text)


def offer_of(asked: argparse.Namespace, bookings: Sequence[Booking]) -> Offer | None:
    """The legs and products that the stops of the bookings show, if a column has these."""
    if not (asked.stops or asked.first_stop):
        return None
    lines = TrainLines(bookings, asked.line, asked.join, asked.stops is not None and asked.train is None)
    for text in lines.ends_joined(asked.join):
        tell(text)
    return Offer(bookings, lines)


def stream_of(asked: argparse.Namespace, bookings: Sequence[Booking], names: Mapping[str, str]) -> str:
    """The stream of the day that is asked for. Tells what it has."""
    stream = DepartureStream(bookings, day_of_word(asked.stream[0]), names, asked.net)
    for text in stream.told():
        tell(text)
    return "".join(f"{it}\n" for it in stream.lines(asked.cuts))


def rows_above(asked: argparse.Namespace, offer: Offer | None, demand: Demand, names: Mapping[str, str],
               fares: Mapping[str, int], seats: Mapping[str, int]) -> Rows:
    """The rows above the demand: those of the offer, or of the network file that is completed."""
    if offer is not None:
        return [["periods", len(demand.departures), demand.periods], *offer.rows(names, seats, fares)]
    if asked.network is not None:
        by_name = {names[it]: fare for it, fare in fares.items() if it in names}
        return with_fares(completed(asked.network, demand, names, tell), by_name)
    return [["periods", len(demand.departures), demand.periods]]


def tell_what_is_to_do(demand: Demand, names: Mapping[str, str], fares: Mapping[str, int]) -> None:
    """Tells which rows are still to be added, with the beginnings of those of products."""
    fare = "" if fares else "with its fare and "
    tell("below the row of periods, add the legs, one row leg,NAME,SEATS for each, and then for each product "
         f"product,NAME,FARE,LEG.. {fare}its one to four legs:")
    for name, text in sorted((names[it], it) for it in demand.products):
        print(f"product,{name},{f'{fares[text]},' if fares else ''}", file=sys.stderr)
