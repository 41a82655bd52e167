"""Closures and readings: the same rows in every form, by noon and by the minute, and each row that can't be read is
told with its line."""
from __future__ import annotations

import datetime
import unittest

from nrm.records.closures import (END_OF_DEPARTURE, AvailabilityReading, closures_between, joined, passed_of_day,
                                  reading_of)
from nrm.records.dates import Dates
from records.made_sales import CLOSURES, HALF, HALF_ROWS, READINGS, TWO, SalePlace

DAY = datetime.date(2025, 3, 14)
MEAN = ["--mean", "--opens", "10"]
REFUSED = [  # a row of closures, and what is told of it
    ("2025-03-14,A,soon,", "line 2: 'soon' isn't a date"),
    ("2025-03-14,A,2025-03-11 24:30,", "line 2: '2025-03-11 24:30' has no time of day"),
    ("2025-03-14,A,2025-03-11 12:60,", "line 2: '2025-03-11 12:60' has no time of day"),
    ("2025-03-14,A,2025-03-11 13:00 PM,", "line 2: '2025-03-11 13:00 PM' has no time of day"),
    ("2025-03-14,A,2025-03-11,2025-03-10", "line 2: it was closed from 2025-03-11 to 2025-03-10, which is earlier"),
    ("2025-03-14,A,2025-03-16,", "line 2: it was closed after its departure on 2025-03-14"),
    ("2025-03-14,A,2025-03-10,2025-03-16", "line 2: it was closed after its departure on 2025-03-14"),
    ("2025-03-14,,2025-03-11,", "line 2: it names no product"),
    (",A,2025-03-11,", "line 2: it has no day of departure"),
    ("2025-03-14,A,,2025-03-11", "line 2: it has no day from which it was closed")]


class Forms(SalePlace):
    def test_closures_in_every_form_give_the_same_rows(self) -> None:
        for rows, words in (
                ("2025-03-14,A,2025-03-11,\n2025-03-14,A,2025-03-12 08:00,2025-03-13\n", []),  # one within another
                ("2025-03-14,A,2025-03-11,2025-03-12\n2025-03-14,A,2025-03-12,2025-03-13\n"
                 "2025-03-14,A,2025-03-12 23:00,\n", []),
                ("2025-03-14,A,2025-03-11 12:00,2025-03-14 23:59\n", []),
                ("14/03/2025,A,11/03/2025,\n", ["--dates", "dmy"]), ("14.03.2025,A,11.03.2025 12.00,\n", []),
                ("2025-03-14,A,20250311120000,\n", []), ("2025-03-14,A,2025-03-11T12:00:00Z,\n", []),
                ("\"March 14, 2025\",A,\"March 11, 2025 12:00 PM\",\n", [])):
            self.assertEqual(self.demand([*MEAN, *words], TWO, CLOSURES + rows).out, HALF_ROWS, rows)

    def test_readings_give_the_same_rows(self) -> None:
        """Open on day 4 at noon and closed on day 2 at noon, so closed from day 3 at noon."""
        rows = READINGS + "2025-03-14,A,2025-03-10,3\n2025-03-14,A,2025-03-12,0\n"
        for text in (rows, rows.replace(",3\n", ",Open\n").replace(",0\n", ",closed\n"),
                     rows.replace("Read on,Available", "At,Seats left")):
            words = ["--read", "at", "--available", "seats left"] if "Seats left" in text else []
            self.assertEqual(self.demand([*MEAN, *words], TWO, None, text).out, HALF_ROWS, text)

    def test_columns_may_have_other_headings(self) -> None:
        rows = HALF.replace("Closed from,Closed to", "Shut,Again")
        self.assertEqual(self.demand([*MEAN, "--closed", "shut", "again"], TWO, rows).out, HALF_ROWS)

    def test_how_much_was_read_is_told(self) -> None:
        err = self.demand(MEAN, TWO, HALF + ",,,\n").err
        self.want_in(err, "closures.csv: rows read 1 of 3 lines; down to the headings 1, empty 1\n")

    def test_each_row_that_cant_be_read_is_told(self) -> None:
        for row, wanted in REFUSED:
            self.want_in(self.refused(MEAN, TWO, f"{CLOSURES}{row}\n"), wanted)
        text = CLOSURES + "2025-03-14,A,2025-03-11,\n" + "".join(f"{row}\n" for row, _ in REFUSED) * 3
        err = self.refused(MEAN, TWO, text)
        self.assertEqual((err.count("    line "), "line 2:" in err), (20, False), err)
        self.want_in(err, "    line 3: 'soon' isn't a date")
        self.want_in(err, "    and 10 more\n")
        self.want_in(self.refused(MEAN, TWO, "Departure,Product,From\n"), "has no column closed from, closed to")

    def test_each_reading_that_cant_be_read_is_told(self) -> None:
        for row, wanted in (
                ("2025-03-14,A,2025-03-12,some", "line 2: 'some' is neither a number of seats nor open or closed"),
                ("2025-03-14,A,2025-03-12,-1", "line 2: '-1' is neither a number of seats nor open or closed"),
                ("2025-03-14,A,2025-03-16,1", "line 2: it was read on 2025-03-16, after its departure on 2025-03-14"),
                ("2025-03-14,,2025-03-12,1", "line 2: it names no product"),
                ("2025-03-14,A,,1", "line 2: it has no day on which it was read")):
            self.want_in(self.refused(MEAN, TWO, None, f"{READINGS}{row}\n"), wanted)


class Moments(unittest.TestCase):
    def test_the_time_of_a_day(self) -> None:
        for text, hours in (
                ("2025-03-11", 12), ("2025-03-11 00:00", 0), ("2025-03-11 06:30", 6.5), ("20250311", 12),
                ("2025-03-11T18:45:59.123+01:00", 18.75), ("11.03.2025 18.45.30", 18.75), ("11/03/2025 6h30", 6.5),
                ("202503110630", 6.5), ("March 11, 2025 12:30 AM", 0.5), ("March 11, 2025 1:15 pm", 13.25),
                ("2025-03-11-06.30.00.123", 6.5)):
            self.assertAlmostEqual(24 * passed_of_day(text), hours, 9, text)
        for text in ("2025-03-11 24:00", "2025-03-11 10:75", "2025-03-11 0:30 PM", "2025-03-11 10:30:00 noon",
                     "202503112400"):
            self.assertRaises(ValueError, passed_of_day, text)

    def test_readings_become_closures(self) -> None:
        """Before the first as at the first, in the middle between two, and behind the last as at the last."""
        for readings, wanted in (
                ([(-4, True), (-2, False)], [(-3, END_OF_DEPARTURE)]),
                ([(-4, False), (-2, True), (-1, True)], [(-float("inf"), -3)]),
                ([(-8, True), (-6, False), (-4, False), (-2, True)], [(-7, -3)]),
                ([(-2, True), (-4, False), (-6, True)], [(-5, -3)]),  # in no order
                ([(-4, True), (-4, False), (-2, True)], [(-float("inf"), -3)]),  # of two at once the closed one counts
                ([(-4, True)], []), ([(-4, False)], [(-float("inf"), END_OF_DEPARTURE)])):
            found = closures_between(AvailabilityReading(DAY, "A", at, is_open) for at, is_open in readings)
            self.assertEqual([(it.first, it.last) for it in found], wanted, readings)

    def test_readings_of_two_departures_and_products_stay_apart(self) -> None:
        later = DAY + datetime.timedelta(7)
        readings = [AvailabilityReading(day, name, at, is_open) for day, name in ((DAY, "A"), (DAY, "B"), (later, "A"))
                    for at, is_open in ((-4, True), (-2, name == "B"))]
        self.assertEqual([(it.departs, it.product) for it in closures_between(readings)], [(DAY, "A"), (later, "A")])

    def test_spans_are_joined(self) -> None:
        self.assertEqual(joined([(5, 6), (1, 3), (2, 4), (4, 4.5), (1, 2)]), [(1, 4.5), (5, 6)])

    def test_a_reading_of_a_row(self) -> None:
        reading = reading_of(Dates([]), "2025-03-14", "A", "2025-03-12 18:00", "yes")
        self.assertEqual((reading.at, reading.is_open), (-1.25, True))
