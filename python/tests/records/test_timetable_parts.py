"""Timetables are cut where no product joins their legs, and what is too large is told."""
from __future__ import annotations

import csv
import random
import re
from fractions import Fraction

from harness import PlaceTest
from made import SECOND, made_timetable
from nrm.network import Network, text_of


def value_of(test, path):
    return Fraction(test.nrm("plan", "bid", path).split()[1])


class Parts(PlaceTest):
    def test_cuts_where_no_product_joins(self) -> None:
        rows, legs = made_timetable(random.Random(2), [30, 64, 1, 25])
        out = self.told("split", self.file("timetable.csv", text_of([*rows, ["leg", "IDLE", 7]])), "parts")
        self.want_in(out, "the leg IDLE has no product, and is in no file")
        self.assertEqual(out.splitlines()[0], f"4 files have all 120 products of {self.folder}/timetable.csv.")
        files = sorted((self.folder / "parts").glob("part-*.csv"))
        parts = [Network.read(it) for it in files]
        self.assertEqual(sorted(sorted(it.legs) for it in parts), sorted(map(sorted, legs)))
        self.assertEqual(sorted(text for it in files for text in it.read_text().splitlines()
                                if not text.startswith("periods")),
                         sorted(text for text in text_of(rows).splitlines() if not text.startswith("periods")))
        with open(self.folder / "parts" / "parts.csv", encoding="ascii") as file:
            self.assertEqual(sorted(tuple(row) for row in csv.reader(file)),
                             sorted([("product", "file"),
                                     *[(product, path.name) for path, it in zip(files, parts)
                                       for product in it.products]]))
        for it in files:
            self.nrm("print", it)

    def test_parts_are_worth_the_whole(self) -> None:
        rows, _ = made_timetable(random.Random(4), [5, 9, 1, 7])
        path = self.file("timetable.csv", text_of(rows))
        self.told("split", path, "parts")
        self.assertEqual(sum(value_of(self, it) for it in (self.folder / "parts").glob("part-*.csv")),
                         value_of(self, path))

    def test_names_what_is_of_an_earlier_run(self) -> None:
        for sizes, wanted in (([2, 3, 4], []), ([2, 3], ["part-3.csv"]), ([2, 3, 1], [])):
            rows, _ = made_timetable(random.Random(5), sizes)
            out = self.told("split", self.file("timetable.csv", text_of(rows)), "parts")
            self.assertEqual(re.findall("^parts/(.*) isn't of this timetable", out, re.M), wanted)

    def test_names_what_is_too_large(self) -> None:
        rows, legs = made_timetable(random.Random(6), [65, 3])
        out, _, status = self.ran("split", self.file("timetable.csv", text_of(rows)), "parts")
        self.assertEqual((status, len(list((self.folder / "parts").glob("part-*.csv")))), (1, 1))
        self.want_in(out, "too large: 65 legs and 65 products")
        self.assertRegex(out, "^1 file has 3 of 68 products of .*; 1 part is too large, and would fit into files ")
        self.assertEqual(sorted(re.search("its legs: (.*)", out)[1].split()), sorted(legs[0]))
        self.want_in(out, "it would fall apart without any one of these products, the cheapest first: P0-")

    def test_keeps_the_version_authorised_seats_and_refunds(self) -> None:
        self.told("split", self.file("second.csv", SECOND), "parts")
        self.assertEqual(sorted(it.name for it in (self.folder / "parts").glob("part-*.csv")),
                         ["part-1.csv", "part-2.csv"])
        rows = {it: (self.folder / "parts" / it).read_text().splitlines() for it in ("part-1.csv", "part-2.csv")}
        self.assertEqual(rows["part-1.csv"],
                         ["periods,2,2,2", "leg,AB,3,5,300,90", "leg,BC,9,2", "product,AC,500,AB,BC",
                          "product,AB,200,AB", "product,BC,120,BC", "refund,AC,0", "refund,AB,33", "demand,AC,1,1,2",
                          "demand,AB,1,5,0", "demand,AB,2,4,3", "demand,BC,1,6,1"])
        self.assertEqual(rows["part-2.csv"], ["periods,2,2,2", "leg,CD,4,4,80", "product,CD,90,CD", "demand,CD,2,0,3"])
        parts = [self.folder / "parts" / it for it in rows]
        self.assertEqual(sum(value_of(self, it) for it in parts), value_of(self, "second.csv"))
        self.assertEqual("".join(self.nrm("print", it) for it in parts),
                         "".join("\n".join(it) + "\n" for it in rows.values()))
