"""The times of a network: how they are written, which are refused, what is told of them, and journals without."""
from __future__ import annotations

import contextlib
import sqlite3

from nrm import Stop
from nrm.journal.network_times import Times, moment_of, text_of, times_in
from server.serves import ServeTest, rows_in

FOUR = "periods,1,4\nleg,AB,300\nproduct,LOC,200,AB\ndemand,LOC,1,50,50,50,50\n"
TIMES = ("--departure", "2026-12-31T10:00+01:00", "--begins", "2=2026-12-01T00:00Z", "--begins",
         "4=2026-12-24T23:59:59-05:00")
TOLD = "period 2 begins 2026-12-01T00:00:00Z\nperiod 4 begins 2026-12-25T04:59:59Z\ndeparture 2026-12-31T09:00:00Z\n"


class NetworkTimes(ServeTest):
    def setUp(self) -> None:
        super().setUp()
        self.with_it = ["--program", *self.desks_program.words]
        self.network = self.file("network.csv", FOUR)
        self.told("journal", "begin", "journal")

    def open(self, name: str, *times: str) -> None:
        self.told("journal", "open", "journal", name, "bid", self.network, *times, *self.with_it)

    def test_they_are_said_told_and_set_anew(self) -> None:
        self.open("one", *TIMES)
        self.open("two")
        self.assertEqual(self.told("journal", "times", "journal", "one"), TOLD)
        self.assertEqual(self.told("journal", "times", "journal", "two"), "there are no times\n")
        self.assertEqual(self.told("journal", "times", "journal", "two", *TIMES), "")
        self.assertEqual(self.told("journal", "times", "journal", "two"), TOLD)
        self.told("journal", "times", "journal", "one", "--departure", "2026-12-31T10:00+01:00", "--begins",
                  "3=2026-12-02T00:00Z")
        self.same(rows_in(self.folder / "journal", "SELECT * FROM period ORDER BY network, period"),
                  (1, 3, 1_796_169_600_000), (2, 2, 1_796_083_200_000), (2, 4, 1_798_174_799_000))
        self.same(rows_in(self.folder / "journal", "SELECT * FROM departure"), (1, 1_798_707_600_000),
                  (2, 1_798_707_600_000))
        self.told("journal", "backup", "journal", "copy")
        self.assertEqual(self.told("journal", "times", "copy", "two"), TOLD)

    def test_words_that_are_refused(self) -> None:
        """And nothing is changed by them."""
        self.open("one", *TIMES)
        late, second = "2026-12-31T10:00Z", "2=2026-12-01T00:00Z"
        for says, status, *words in (
                ("can be used with --departure only", 2, "--begins", second),
                ("has no offset from UTC", 2, "--departure", "2026-12-31T10:00"),
                ("has no offset from UTC", 2, "--departure", late, "--begins", "2=2026-12-01T00:00:00"),
                ("isn't a time such as", 2, "--departure", ""),
                ("isn't a time such as", 2, "--departure", "2026-12-31T10:00:00.5Z"),
                ("isn't a time: ", 2, "--departure", "2026-02-30T10:00Z"),
                ("of the years 1970 to 9999", 2, "--departure", "1969-12-31T23:59:59Z"),
                ("period 3 begins at 2026-12-01T00:00:00Z, and period 2 before it at 2026-12-01T00:00:00Z", 2,
                 "--departure", late, "--begins", "3=2026-12-01T00:00Z", "--begins", "2=2026-12-01T01:00+01:00"),
                ("period 2 begins at 2026-12-31T10:00:00Z, and the departure is at 2026-12-31T10:00:00Z", 2,
                 "--departure", late, "--begins", f"2={late}"),
                ("is given twice", 2, "--departure", late, "--begins", second, "--begins", second),
                ("period 1 begins when", 2, "--departure", late, "--begins", "1=2026-12-01T00:00Z"),
                ("isn't a period and its time", 2, "--departure", late, "--begins", "0=2026-12-01T00:00Z"),
                ("isn't a period and its time", 2, "--departure", late, "--begins", "2026-12-01T00:00Z"),
                ("has 4 periods, and no period 5", 1, "--departure", late, "--begins", "5=2026-12-01T00:00Z")):
            with self.subTest(words):
                self.stopped("journal", "times", "journal", "one", *words, status=status, says=says)
                self.stopped("journal", "open", "journal", "two", "bid", self.network, *words, *self.with_it,
                             status=status, says=says)
        self.stopped("journal", "times", "journal", "none", *TIMES, says="has no network none")
        self.stopped("journal", "end", "journal", "one", *TIMES, status=2, says="with `open` and `times` only")
        self.assertEqual(self.told("journal", "times", "journal", "one"), TOLD)
        self.same(rows_in(self.folder / "journal", "SELECT name, ended FROM network"), ("one", None))

    def test_a_journal_of_an_earlier_release_gets_the_tables(self) -> None:
        """As it is next opened to be written; who reads it before that sees that there are no times."""
        self.open("one")
        with contextlib.closing(sqlite3.connect(self.folder / "journal")) as connection:
            connection.executescript("DROP TABLE period; DROP TABLE departure; DROP INDEX plan_by_number; "
                                     "DROP INDEX plan_by_period")
        self.assertEqual(self.told("journal", "times", "journal", "one"), "there are no times\n")
        with self.served(self.folder / "journal"):
            pass
        names = ("SELECT name FROM sqlite_master WHERE name IN ('period', 'departure', 'plan_by_number', "
                 "'plan_by_period')")
        self.assertEqual(len(rows_in(self.folder / "journal", names)), 4)
        self.told("journal", "times", "journal", "one", *TIMES)
        self.assertEqual(self.told("journal", "times", "journal", "one"), TOLD)

    def test_times_are_read_to_the_second(self) -> None:
        for text, wanted in (("1970-01-01T00:00Z", 0), ("1970-01-01T01:00:01+01:00", 1000),
                             ("2026-03-29T02:30:00+02:00", 1_774_744_200_000), ("1969-12-31T23:59-00:01", 0),
                             ("9999-12-31T23:59:59Z", 253_402_300_799_000)):
            self.assertEqual(moment_of(text), wanted, text)
        for moment in (0, 1_774_744_200_000, 253_402_300_799_000):
            self.assertEqual(moment_of(text_of(moment)), moment)
        for text in ("9999-12-31T23:59:59-01:00", "1970-01-01T00:00+00:01", "2026-1-1T00:00Z", "2026-01-01 00:00Z",
                     "2026-01-01T24:00Z", "2026-01-01T00:00:60Z", "2026-01-01T00:00z", "٢026-01-01T00:00Z"):
            self.assertEqual(self.expect(Stop, lambda: moment_of(text)).status, 2, text)
        self.assertEqual(times_in("1970-01-01T00:01Z", ["3=1970-01-01T00:00:02Z", "2=1970-01-01T00:00:01Z"]),
                         Times(60_000, ((2, 1000), (3, 2000))))
