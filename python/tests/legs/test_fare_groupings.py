"""Thresholds from the fares are told, drawn and written."""
from __future__ import annotations

import os

from harness import EXAMPLES, PlaceTest, needs

FARES_OF_LEGS = """periods,2,2,2
leg,AB,9,8,700,1
leg,IDLE,5,5,300,100
leg,BC,7,9
product,P,500,AB
refund,P,50
product,Q,150,AB
product,R,400,AB,BC
demand,P,2,1,3
demand,Q,1,5,5
product,S,400,AB
demand,R,1,2,0
demand,S,1,0,4
"""

ONE_LEG = "periods,1,1\nleg,AB,3\nproduct,A,50,AB\ndemand,A,1,2\n"


class Groupings(PlaceTest):
    def test_are_told_and_written(self) -> None:
        network, program = EXAMPLES / "certificate" / "network.csv", self.with_program
        out = self.told("thresholds", network, 2, "--out", "made.csv", *program)
        head, _, table = out.partition("\nThe fares on each leg in 2 groups at most\n")
        said, nothing, *made = head.splitlines()
        self.assertEqual((said, nothing), (
            f"On 2 legs of {network} the thresholds of least cost by the fares make 4 buckets, 2 on each; what they "
            "earn isn't measured here.", ""))
        self.assertEqual([it.split(":")[0] for it in made], ["network", "date", "versions"])
        self.assertEqual(table.splitlines(), ["", "  leg  cuts  centres   cost  for a seat",
                                              "  AB    400  500 150  1,200        21.4",
                                              "  BC    500   500 80      0         0.0",
                                              "  all                 1,200        11.5", "", "made.csv"])
        wanted = network.read_text().replace("AB,10,300,100", "AB,10,400").replace("BC,10,300,100", "BC,10,500")
        self.assertEqual((self.folder / "made.csv").read_text(), wanted)
        self.want_in(self.nrm("plan", "davn", "made.csv"), "nest AB ABL 150/1 2\n")

    def test_leave_all_else_as_it_stands(self) -> None:
        """In version 2 too, and a leg that no product uses keeps its own; and the file may be written over."""
        path, program = self.file("network.csv", FARES_OF_LEGS), self.with_program
        for groups, cuts in ((1, ""), (2, ",400"), (3, ",500,400"), (10, ",500,400")):
            out = self.told("thresholds", path, groups, "--out", path, *program)
            self.assertEqual((self.folder / "network.csv").read_text(),
                             FARES_OF_LEGS.replace("AB,9,8,700,1", f"AB,9,8{cuts}"))
            self.want_in(out, "\nno product uses IDLE\n")
        self.want_in(self.nrm("print", path), "leg,AB,9,8,500,400\n")

    def test_are_counted_first(self) -> None:
        """On legs with as many buckets as each other, with more on one than on another, and on one leg alone."""
        path, one = self.file("network.csv", FARES_OF_LEGS), self.file("one.csv", ONE_LEG)
        fares, adjusted = "of least cost by the fares", "adjusted fares of the opening plan"
        for words, wanted in (
                ([path, 1], f"On 2 legs of {path} the thresholds {fares} make 2 buckets, 1 on each;"),
                ([path, 2], f"On 2 legs of {path} the thresholds {fares} make 3 buckets, 1 to 2 on each;"),
                ([path, 3, "--adjusted", "gaps"],
                 f"On 2 legs of {path} the thresholds at the largest gaps of {adjusted} make 4 buckets, 1 to 3 on "
                 "each;"),
                ([one, 2, "--adjusted", "cost"],
                 f"On 1 leg of {one} the thresholds of least cost by {adjusted} make 1 bucket;")):
            said = self.told("thresholds", *words, *self.with_program).splitlines()[0]
            self.assertEqual(said, f"{wanted} what they earn isn't measured here.")

    def test_are_told_in_a_table_where_nothing_is_drawn(self) -> None:
        words = [self.file("network.csv", FARES_OF_LEGS), 2, "--pictures", "pictures", *self.with_program]
        out, err, status = self.ran("thresholds", *words)
        self.assertEqual((err.startswith("nrm-tools thresholds: there are no pictures, since "), status), (True, 0), err)
        self.assertEqual(out.partition("The fares on AB\n")[2].splitlines()[1:6],
                         ["  group  fare  seats  centre", "  1       500      4     400",
                          "  1       400      6     400", "  2       150     10     150", ""])

    @needs("matplotlib")
    def test_are_drawn(self) -> None:
        words = [self.file("network.csv", FARES_OF_LEGS), 2, "--pictures", "pictures", *self.with_program]
        self.want_in(self.told("thresholds", *words, env=os.environ),
                     "\npictures/thresholds.png\npictures/thresholds.svg\n")
        self.assertEqual(sorted(it.name for it in (self.folder / "pictures").iterdir()),
                         ["thresholds.png", "thresholds.svg"])
