"""No row of a log is lost in silence: what can't be read is refused with its line, and what was read is told."""
from __future__ import annotations

import datetime

from harness import PlaceTest
from records.made_log import COLUMNS, CUT_ONCE, HEADS, log_with_remarks
from test_numbers import LONG

GOOD = "2025-03-01,2025-03-07,P,1\n"
REFUSED_ROWS = [  # what stands below the headings, and a part of the sentence
    ("2025-03-08,2025-03-07,P,1", "line 2: it was made on 2025-03-08, after its departure on 2025-03-07"),
    ("2025-03-01,07.03.25,P,1", "'07.03.25' has a year of two digits; write it like 2025-03-07"),
    ("2025-03-01,7 Nivose 2025,P,1", "'7 Nivose 2025' isn't a date; write it like 2025-03-07"),
    ("Total,,,4", "line 2: it has no day of departure"),
    (",2025-03-07,P,4", "line 2: it has no day on which it was made"),
    ("2025-02-29,2025-03-07,P,1", "'2025-02-29' isn't a date"), ("45717,45723,P,1", "'45723' isn't a date"),
    ("03/04/2025,05/04/2025,P,1", "05/04/2025 can be read with the day or the month first; use --dates dmy"),
    ("13/04/2025,04/14/2025,P,1", "13/04/2025 has the day first, and 04/14/2025 the month"),
    ("2025-03-01,2025-03-07,P,two", "line 2: 'two' isn't a number of seats"),
    ("2025-03-01,2025-03-07,,1", "line 2: it names no product"), ("", "has no request below its headings"),
    ("2025-03-01,2025-03-07,P,1000", "P was asked for 1000 seats for 2025-03-07, and a row of demand takes 999")]
REFUSED_WORDS = {  # a part of the sentence, of a log that is good
    "needs a column and at least one text": "--cuts 7 --without seats",
    "has no column state; its headings are": "--cuts 7 --without state x",
    "has no request below its headings": "--cuts 7 --without seats 2 1",
    "each must be fewer days": "--cuts 7,30",
    "these must be days before departure": "--cuts week",
    "21 periods, and a network file takes 16": f"--cuts {','.join(map(str, range(40, 20, -1)))}",
    "takes 1 to 32 histories": "--cuts 7 --last 33",
    "has no column Pax; its headings are Booked on, Departure, Fare product, Seats": "--cuts 7 --seats Pax"}
OPEN_QUOTES = [  # remarks by their lines, more words, and a part of the sentence
    ({31: '"see mail'}, [],
     "line 31 can't be read: a quote is opened in it and isn't closed in it, which would take the lines below"),
    ({31: '"see mail', 550: 'said "yes"'}, [], "line 31 can't be read: a quote is opened in it and isn't closed in it"),
    ({31: '"see mail', 550: '"yes"'}, [], "line 31 can't be read: a quote is opened in it and isn't closed in it"),
    ({31: '"two\nlines"'}, [], "line 31 can't be read: a quote is opened in it and isn't closed in it"),
    ({31: '"two\rlines"'}, [], "--multiline allows fields with line feeds"),
    ({601: '"see mail'}, [], "line 601 can't be read: a quote is opened in it and isn't closed in it"),
    ({31: '"see" mail'}, [],
     "line 31 can't be read: a quote is opened and closed in it and more text follows it"),
    ({31: '"see mail'}, ["--multiline"],
     "line 31 can't be read: a quote is opened and closed in it, in line 32, and more text follows"),
    ({601: '"see mail'}, ["--multiline"], "line 601 can't be read: a quote is opened in it that is closed nowhere")]


class Refusals(PlaceTest):
    def test_refuses_with_a_sentence(self) -> None:
        for rows, sentence in REFUSED_ROWS:
            self.stopped("log", self.file("log.csv", f"{HEADS}{rows}\n"), *CUT_ONCE, says=sentence)
        log = self.file("log.csv", HEADS + GOOD)
        for sentence, words in REFUSED_WORDS.items():
            self.stopped("log", log, *COLUMNS, *words.split(), says=sentence)
        path = self.file("rows.csv", "periods,1,1\nleg,A,1\nproduct,P,5,A\n")
        log = self.file("log.csv", HEADS + "2025-03-01,2025-03-07,new_one,1\n")
        self.stopped("log", log, *CUT_ONCE, "--network", path, says="NEW-ONE, which stands for 'new_one'")
        for wrong in ("", "leg,A,1\n", b"\xff\xff"):
            rows = self.file("rows.csv", wrong)
            self.stopped("log", log, *CUT_ONCE, "--network", rows, says="has no row of a product")
        self.stopped("log", log, *CUT_ONCE, "--network", "", says="No such file")
        book = self.file("log.xlsx", b"PK\x03\x04\x14\0")
        self.stopped("log", book, *CUT_ONCE, says="log.xlsx is a spreadsheet's own file: save it as CSV")

    def test_numbers_that_are_too_long_are_refused(self) -> None:
        good = self.file("good.csv", HEADS + GOOD)
        for it in LONG:
            log = self.file("log.csv", f"{HEADS}{GOOD}2025-03-01,2025-03-07,P,{it}\n")
            self.stopped("log", log, *CUT_ONCE, says="' isn't a number of seats\n")
            self.stopped("log", good, *COLUMNS, "--cuts", f"{it},7", says="these must be days before departure")
            self.stopped("log", good, *CUT_ONCE, "--last", it, status=2)


class Reading(PlaceTest):
    def test_loses_no_row_by_a_quote(self) -> None:
        """One that isn't closed, in a column that nobody asked for, would take the rows below it into its field."""
        for remarks, words, sentence in OPEN_QUOTES:
            path = self.file("log.csv", log_with_remarks(600, remarks))
            self.want_in(self.stopped("log", path, *CUT_ONCE, *words, says=sentence), "\n    2025-02-01;2025-03-0")
        for words in ([], ["--multiline"]):
            path = self.file("log.csv", log_with_remarks(600, {}).replace(";Remark", ';"Remark', 1))
            self.stopped("log", path, *CUT_ONCE, *words, says="line 1 can't be read: a quote is opened")
        plain = self.told("log", self.file("log.csv", log_with_remarks(600, {})), *CUT_ONCE)
        log = log_with_remarks(600, {31: '"two\r\nlines\n"', 90: '"a ""quote"""', 99: "in\" a field"})
        out, err, status = self.ran("log", self.file("log.csv", log), *CUT_ONCE, "--multiline")
        self.assertEqual((out, status), (plain, 0), err)
        self.want_in(err, "nrm-tools log: rows read 600 of 603 lines; "
                          "down to the headings 1, empty 0, lines within fields 2\n")
        names = self.file("names.csv", 'name,stands for\nA,"open\nB,other\n')
        self.stopped("log", "log.csv", *CUT_ONCE, "--multiline", "--names", names, says="has a quote that isn't closed")

    def test_tells_what_it_has_read(self) -> None:
        """How many rows of how many lines, which departures, and on which days between them there is none."""
        heads = f"Export\n\n{HEADS}"
        for days, wanted in (
                ([1, 2, 3], "3 days, from 2025-03-01 to 2025-03-03; days between without one: none"),
                ([9], "1 days, from 2025-03-09 to 2025-03-09; days between without one: none"),
                ([1, 2, 3, 4, 5, 6, 7, 8, 12, 13, 15], "11 days, from 2025-03-01 to 2025-03-15; "
                 "days between without one: 2025-03-09 to 2025-03-11, 2025-03-14"),
                ([7, 14, 28], "3 days, from 2025-03-07 to 2025-03-28; "
                 "days between without one: 2025-03-21; each mon, tue, wed, thu, sat, sun"),
                ([7, 10], "2 days, from 2025-03-07 to 2025-03-10; days between without one: each sat, sun")):
            rows = [f"2025-02-01,2025-03-{day:02},P,1\n" for day in reversed(days)] + [",,,\n"]
            err = self.ran("log", self.file("log.csv", heads + "".join(rows)), *CUT_ONCE)[1]
            self.want_in(err, f"nrm-tools log: rows read {len(days)} of {len(days) + 4} lines; "
                              "down to the headings 3, empty 1\n")
            self.want_in(err, f"nrm-tools log: departures on {wanted}\n")
        days = [datetime.date(2025, 3, 1) + datetime.timedelta(2 * it) for it in range(30)]
        text = heads + "".join(f"2025-02-01,{day},P,1\n" for day in days)
        err = self.ran("log", self.file("log.csv", text), *CUT_ONCE)[1]
        self.want_in(err, "2025-03-02, 2025-03-04, ")
        self.want_in(err, ", 2025-04-09, and 9 more times\n")
        wrong = self.file("log.csv", heads + "x,2025-03-01,P,1\n")
        self.stopped("log", wrong, *CUT_ONCE, says="rows read 1 of 4 lines")
