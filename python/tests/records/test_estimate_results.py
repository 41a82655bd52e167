"""What an estimate makes: by hand, the rows of `log` where nothing was closed, the same bytes by one seed, the report
and what is told."""
from __future__ import annotations

import csv
import os
import unittest

from harness import EXAMPLES
from nrm.records.estimate_results import spans_of
from records.made_sales import BOOKINGS, CLOSURES, COLUMNS, HALF, HALF_ROWS, TWO, SalePlace

UNSEEN = 56 / 17  # seats, of the second departure, by hand: see test_by_hand


class Rows(SalePlace):
    def test_with_no_closures_they_are_those_of_log(self) -> None:
        logged = self.told("log", *self.words(TWO))
        for words in (["--mean"], ["--copies", "1"]):
            self.assertEqual(self.demand(words, TWO).out, logged, words)
        copied = self.demand([], TWO).out.splitlines()
        self.assertEqual((copied[0], copied[1::2]), ("periods,6,2", [f"demand,A,{it},1,6" for it in (1, 3, 5)]))

    def test_by_hand(self) -> None:
        """Period 2 has the days 5 to 0, six. The second departure was closed from noon of day 3, so 1 + 2.5 of them,
        7/12. In it 8 seats were booked in 1 + 5/12 departures, a rate of 96/17, of which 7/12 weren't seen: 56/17,
        about 3.29, and so 3 in whole seats. With the prior, which has the same course, the rate stays."""
        found = self.demand(["--mean", "--opens", "10"], TWO, HALF)
        self.assertEqual(found.out, HALF_ROWS)
        mean = 5 + UNSEEN / 2
        row = next(csv.reader(found.report.splitlines()[1:]))
        self.assertEqual(row[:5], ["A", "A", "5.00", f"{100 * 5 / mean:.1f}", f"{mean:.2f}"])
        self.want_in(found.err, "departures 2, products 1; seats booked in a departure 5.0, estimated 6.6; rounds ")

    def test_a_seed_gives_the_same_bytes(self) -> None:
        """Whatever the order of Python's sets; another gives others."""
        closures = HALF + "2025-03-07,A,2025-02-27,2025-03-02 12:00\n"
        words = [*self.words(TWO, closures), "--opens", "10"]
        first = self.told("demand", *words)
        for seed in ("0", "1", "7"):
            self.assertEqual(self.told("demand", *words, env={**os.environ, "PYTHONHASHSEED": seed}), first, seed)
        others = {self.told("demand", *words, "--seed", str(it)) for it in range(2, 6)}
        self.assertGreaterEqual(len(others - {first}), 3)

    def test_copies(self) -> None:
        """Each has the same bookings and other draws; three if they fit, and as many as are asked for."""
        made = self.demand(["--opens", "10", "--copies", "16"], TWO, HALF).out.splitlines()
        rows = [list(map(int, it.split(",")[2:])) for it in made[1:]]
        self.assertEqual((made[0], len(rows)), ("periods,32,2", 32))
        self.assertEqual({tuple(seats) for _, *seats in rows[::2]}, {(1, 6)})
        drawn = [second - 2 for _, _, second in rows[1::2]]
        self.assertGreaterEqual(len(set(drawn)), 4)
        self.assertTrue(UNSEEN - 2 < sum(drawn) / 16 < UNSEEN + 2, drawn)
        self.want_in(self.refused(["--copies", "17"], TWO, HALF),
                     "--copies 17 of 2 departures: a network file takes 1 to 32 histories")
        self.want_in(self.refused(["--copies", "0"], TWO, HALF), "--copies 0 of 2 departures")
        one = BOOKINGS + "".join(f"2025-03-01,2025-03-{it + 1:02},A,1\n" for it in range(12))
        self.assertEqual(self.demand([], one).out.splitlines()[0], "periods,24,2")

    def test_the_mean_carries_on_what_is_left(self) -> None:
        """Four departures of which each leaves the same unseen: in sum it is rounded once."""
        days = ["2025-03-07", "2025-03-14", "2025-03-21", "2025-03-28"]
        booked = BOOKINGS + "".join(f"{day},{day},A,1\n" for day in days)
        shut = [(f"{day[:8]}{int(day[8:]) - 2:02}", f"{day[:8]}{int(day[8:]) - 1:02}") for day in days]
        closures = CLOSURES + "".join(f"{day},A,{a} 00:00,{b} 06:00\n" for day, (a, b) in zip(days, shut))
        rows = self.demand(["--mean", "--opens", "10"], booked, closures).out.splitlines()[1:]
        unseen = [int(it.split(",")[4]) - 1 for it in rows]
        mean = (1.25 / 6) / (1 - 1.25 / 6)  # of each: 1.25 of six days, at a rate of 1 seat in the rest of the period
        self.assertEqual(sum(unseen), round(4 * mean))
        self.assertLessEqual(max(unseen), 1)

    def test_too_much_demand_is_refused(self) -> None:
        text = TWO.replace(",A,6\n", ",A,980\n")
        self.want_in(self.refused(["--opens", "10"], text, CLOSURES + "2025-03-07,A,2025-03-05,\n"),
                     "A has a demand of ")

    def test_the_example(self) -> None:
        """Ten departures of two flights, sold first come, first served, with their network."""
        sales = EXAMPLES / "sales"
        words = [sales / "bookings.csv", *COLUMNS[:-1], "30,7", "--opens", "90", "--closures", sales / "closures.csv",
                 "--network", EXAMPLES / "log" / "rows.csv"]
        made = self.told("demand", *words)
        plan = self.nrm("plan", "bid", self.file("made.csv", made))
        legs = [it for it in plan.splitlines() if it.startswith("leg")]
        self.assertEqual(legs, ["leg ZRH-VIE 110/1", "leg VIE-BUD 80/1"])
        self.assertEqual(made.splitlines()[0], "periods,30,3")


class Report(SalePlace):
    def test_one_departure(self) -> None:
        """And a product that has closures alone, and was never open."""
        one = BOOKINGS + "2025-03-04,2025-03-07,A,6\n2025-02-26,2025-03-07,A,1\n"
        closures = CLOSURES + "2025-03-07,A,2025-03-05,\n2025-03-07,C,2025-02-25 00:00,\n"
        found = self.demand(["--mean", "--opens", "10"], one, closures)
        self.assertEqual(found.out.splitlines()[0], "periods,1,2")
        self.want_in(found.err, "C was never open in period 1 to 2: its demand there isn't known, and it has no row")
        self.want_in(found.report, "\nC,C,0.00,,0.00,,1 to 2\n")

    def test_names_that_were_made_are_told(self) -> None:
        self.want_in(self.demand([], TWO.replace(",A,", ",a b,")).err, "nrm-tools demand: A-B stands for 'a b'\n")
        names = self.file("names.csv", "name,stands for\nOLD,a b\n")
        found = self.demand(["--names", names], TWO.replace(",A,", ",a b,"))
        self.want_in(found.err, f"nrm-tools demand: 1 name was made; {names} lists what they stand for\n")
        self.want_in(found.out, "\ndemand,OLD,1,1,6\n")

    def test_many_that_were_never_open(self) -> None:
        closures = CLOSURES + "".join(f"2025-03-14,C{it},2025-02-25 00:00,\n2025-03-07,C{it},2025-02-20,\n"
                                      for it in range(30))
        err = self.demand(["--mean", "--opens", "10"], TWO, closures).err
        self.assertEqual(err.count(" was never open in period "), 20)
        self.want_in(err, "and 10 more products were never open in some period\n")


class Spans(unittest.TestCase):
    def test_periods_as_they_are_told(self) -> None:
        for periods, wanted in (([], ""), ([0], "1"), ([0, 1, 2, 6], "1 to 3, 7"), ([1, 3], "2, 4")):
            self.assertEqual(spans_of(periods), wanted)
