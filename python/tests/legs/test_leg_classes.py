"""EMSR-b beside the optimum of a leg, on what is worked out by hand and on the textbook's example."""
from __future__ import annotations

import os
import sys

from harness import EXAMPLES, PlaceTest
from nrm.network import text_of

THREE_CLASSES = """periods,4,1
leg,X,3
leg,Y,2
product,LO,200,X
product,HI,600,X
product,MID,300,X
product,OVER,900,X,Y
demand,HI,1,1
demand,HI,2,1
demand,HI,3,2
demand,HI,4,2
demand,MID,2,2
demand,MID,4,2
demand,LO,2,1
demand,LO,3,1
demand,OVER,1,9
"""


class Classes(PlaceTest):
    def test_tells_what_is_worked_out_by_hand(self) -> None:
        """The third class is sold one seat where 2 are protected for the first two, and none where 3 are."""
        out = self.told("optimum", self.file("network.csv", THREE_CLASSES), "X", *self.with_program)
        self.assertEqual(out.splitlines()[0], "On X by itself EMSR-b earns 97.674 % of the optimum, 1,050.00 of "
                         "1,075.00 a history, if classes come one after the other, the lowest fare first.")
        self.assertEqual(out.splitlines()[4:],
                         ["  class  fare  mean demand  optimum  EMSR-b", "  HI      600         1.50        0       0",
                          "  MID     300         1.00        1       1",
                          "  LO      200         0.50        2       3", "",
                          "Mean revenue of a history, in currency units", "", "            revenue     share",
                          "  optimum  1,075.00", "  EMSR-b   1,050.00  97.674 %", "",
                          "products that use X and other legs, which aren't counted here: 1"])
        second = THREE_CLASSES
        for old, new in (("periods,4,1", "periods,4,1,2"), ("leg,X,3", "leg,X,9,3"), ("leg,Y,2", "leg,Y,2,2")):
            second = second.replace(old, new)
        self.assertEqual(self.told("optimum", self.file("second.csv", second), "X", *self.with_program), out)

    def test_keeps_nothing_from_a_class_at_the_same_fare(self) -> None:
        """Classes of one fare share a bucket, which has a mean of their demand."""
        network = ("periods,1,1\nleg,X,5\nproduct,A,100,X\nproduct,B,300,X\nproduct,C,100,X\n"
                   "demand,A,1,9\ndemand,B,1,2\n")
        out = self.told("optimum", self.file("network.csv", network), "X", *self.with_program)
        self.assertEqual(out.splitlines()[5:8],
                         ["  B       300         2.00        0       0", "  A       100         9.00        2       2",
                          "  C       100         0.00        2       2"])
        self.assertEqual("nobody asked" in out, False)
        out = self.told("optimum", self.file("network.csv", network.replace("A,1,9", "A,1,0")), "X", *self.with_program)
        self.want_in(out, "\nnobody asked at 100, the lowest fare: so ")

    def test_tells_of_a_leg_that_has_no_such_classes(self) -> None:
        many = [["periods", 1, 1], ["leg", "X", 5], ["leg", "Y", 5], ["product", "OVER", 5, "X", "Y"],
                *[["product", f"P{it}", 5, "X"] for it in range(11)]]
        path, program = self.file("many.csv", text_of(many)), self.with_program
        for leg, wanted in (("X", "the products whose only leg is X are 11, and this takes 1 to 10"),
                            ("Y", "only leg is Y are 0, and"), ("Z", "there is no leg Z")):
            self.stopped("optimum", path, leg, *program, says=wanted)
        few = self.file("few.csv", text_of([it for it in many if it[1] not in ("P0", "OVER")]))
        out = self.told("optimum", few, "X", *program)  # ten, at one fare, for which nobody asked
        self.assertEqual(out.splitlines()[-2:], ["  optimum     0.00", "  EMSR-b      0.00"])

    def test_tells_the_textbook_example(self) -> None:
        for name, optimum, emsr in (("first", "0 17 43 73", "0 17 50 83"), ("second", "0 10 54 98", "0 10 53 95")):
            path = EXAMPLES / "textbook" / f"{name}.csv"
            made = self.finished(sys.executable, "-B", EXAMPLES / "textbook" / "make.py", name).out
            self.assertEqual(made, path.read_text())
            out = self.told("optimum", path, "AB", "--out", "pictures", *self.with_program, env=os.environ)
            rows = [it.split() for it in out.splitlines()[5:9]]
            self.assertEqual([" ".join(it) for it in zip(*rows)][3:], [optimum, emsr])
            self.assertEqual((self.folder / "pictures").exists(), "pictures/optimum.svg\n" in out)
