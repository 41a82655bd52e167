#!/usr/bin/env python3
"""An export of bookings as a railway's system may write it, made of a seed, with what such exports have wrong in them.

    bench/export.py EXPORT SEATS [--days N] [--fridays] [--a-day N] [--trains N] [--of-a-train N] [--seed S]

EXPORT gets the bookings of three trains with five stops each and three fares, 90 products: of 96 days, or their
Fridays, 620 a day, in the order in which they were made. It begins with the mark of UTF-8 and goes on in Windows-1252,
with semicolons, CRLF, a title above the headings, amounts as 1.234,50 € and dates as Fr, 28. März 2025. Eight of a
hundred bookings are cancelled, in a row of their own. A remark has a quote that isn't closed, twelve rows are there
twice, two cancellations have no booking, Good Friday has no departure, and the last row is a total. SEATS gets the
seats of the trains, 120 each. What was put in is told. examples/export was made with --fridays --a-day 110 --trains 2
--of-a-train 30.
"""
import datetime
import random
import sys

from nrm.commands.running import parser
from running import NAME, end

FIRST_DAY = datetime.date(2025, 3, 17)
GOOD_FRIDAY = datetime.date(2025, 4, 18)
SOUTH = ["Köln Hbf", "Bonn Hbf", "Koblenz Hbf", "Mainz Hbf", "Mannheim Hbf"]
LINES = {"IC 2301": SOUTH, "IC 2304": SOUTH[::-1], "IC 2305": SOUTH}
FARES = {"Flexpreis": (31.90, 0.25, 6), "Sparpreis": (21.90, 0.45, 25), "Super Sparpreis": (13.90, 0.30, 45)}
PARTIES = [0.70, 0.22, 0.05, 0.03]  # the shares of one to four persons
HEADINGS = ["Buchungsnr.", "Vorgang", "Gebucht am", "Reisetag", "Zug", "Von", "Nach", "Tarif", "Personen", "Preis",
            "Bemerkung"]
MONTHS = ["Januar", "Februar", "März", "April", "Mai", "Juni", "Juli", "August", "September", "Oktober", "November",
          "Dezember"]
WEEKDAYS = ["Mo", "Di", "Mi", "Do", "Fr", "Sa", "So"]
CANCELLED = 0.08
LONGEST = 90  # days before departure
TWICE, ALONE = 12, 2
FRIDAY = 4


def amount(cents):
    """An amount as it is written there."""
    text = f"{abs(cents) // 100:,}".replace(",", ".")
    return f"{'-' if cents < 0 else ''}{text},{abs(cents) % 100:02} €"


def long_date(day):
    """A date with its weekday and its month in letters."""
    return f"{WEEKDAYS[day.weekday()]}, {day.day}. {MONTHS[day.month - 1]} {day.year}"


def made(draw, departures, a_day, trains):
    """The moments of the rows, and the rows: bookings, and cancellations of some of them."""
    rows, number = [], 0
    for departs in departures:
        for _ in range(a_day):
            number += 1
            rows += booked(draw, f"{number:06}", departs, draw.choice(trains))
    return sorted(rows, key=lambda row: row[0])


def booked(draw, number, departs, train):
    """The rows of a booking, each with its moment."""
    first, last = sorted(draw.sample(range(5), 2))
    fare = draw.choices(list(FARES), [share for _, share, _ in FARES.values()])[0]
    of_leg, _, days = FARES[fare]
    party = draw.choices([1, 2, 3, 4], PARTIES)[0]
    price = party * round(100 * of_leg * (last - first) ** 0.8 * draw.uniform(0.9, 1.1))
    leaves = datetime.datetime.combine(departs, datetime.time())
    when = leaves - datetime.timedelta(draw.expovariate(1 / days) % LONGEST)
    journey = [long_date(departs), train, LINES[train][first], LINES[train][last], fare, party]
    yield when, [number, "Buchung", f"{when:%d.%m.%Y %H:%M}", *journey, amount(price), ""]
    if draw.random() < CANCELLED:
        then = when + (leaves - when) * draw.random()
        yield then, [number, "Storno", f"{then:%d.%m.%Y %H:%M}", *journey, amount(-price), ""]


def faulty(draw, rows):
    """Puts the faults in, and tells the lines of those that have one; the first row is in line 4."""
    for _ in range(TWICE):
        at = draw.randrange(len(rows) - 1)
        rows.insert(at + 1, rows[at])
    for _ in range(ALONE):
        at = draw.randrange(len(rows))
        moment, [_, _, *rest] = rows[at]
        rows.insert(at, (moment, [f"9{at:05}", "Storno", *rest]))
    quoted = draw.randrange(len(rows))
    rows[quoted] = rows[quoted][0], [*rows[quoted][1][:-1], '"Fensterplatz']
    print(f"rows {len(rows)}, there twice {TWICE}, cancellations alone {ALONE}, open quote in line {quoted + 4}, "
          f"total in line {len(rows) + 4}, no departure on {GOOD_FRIDAY}")


def main():
    words = parser(NAME, __doc__)
    words.add_argument("export")
    words.add_argument("seats")
    words.add_argument("--days", type=int, default=96)
    words.add_argument("--fridays", action="store_true")
    words.add_argument("--a-day", type=int, default=620)
    words.add_argument("--trains", type=int, choices=[1, 2, 3], default=3)
    words.add_argument("--of-a-train", type=int, default=120)
    words.add_argument("--seed", type=int, default=1)
    asked = words.parse_args()
    draw, trains = random.Random(asked.seed), list(LINES)[:asked.trains]
    days = [FIRST_DAY + datetime.timedelta(it) for it in range(asked.days)]
    departures = [it for it in days if it != GOOD_FRIDAY and (it.weekday() == FRIDAY or not asked.fridays)]
    rows = made(draw, departures, asked.a_day, trains)
    faulty(draw, rows)
    lines = ["Buchungen", "", ";".join(HEADINGS), *(";".join(map(str, row)) for _, row in rows),
             f"Summe;;;;;;;;{sum(row[8] for _, row in rows)};;"]
    with open(asked.export, "wb") as file:
        file.write(b"\xef\xbb\xbf" + "".join(f"{it}\r\n" for it in lines).encode("cp1252"))
    with open(asked.seats, "w", encoding="ascii") as file:
        print("train,seats", *(f"{it},{asked.of_a_train}" for it in trains), sep="\n", file=file)


if __name__ == "__main__":
    end(main)
