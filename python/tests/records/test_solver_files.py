"""Programs for other solvers, and certificates of what they find."""
from __future__ import annotations

import random
import shutil
from fractions import Fraction

from harness import EXAMPLES, PlaceTest
from made import made_timetable
from nrm.network import rows_of, text_of
from nrm.records.solver_files import simplest

WITH_THIRDS = """periods,2,1
leg,A,1
leg,B,1
leg,C,1
leg,D,1
leg,IDLE,5
product,ABC,100,A,B,C
product,ABD,101,A,B,D
product,ACD,100,A,C,D
product,BCD,102,B,C,D
demand,ABC,1,2
demand,ABD,1,2
demand,ACD,1,2
demand,BCD,1,2
"""

WRITTEN_BY_GLPSOL = """c Problem:    
c Status:     OPTIMAL
c Objective:  fares = 268.6666667 (MAXimum)
c
s bas 4 4 f f 268.666666666667
i 1 u 2 32.3333333333333
i 2 u 2 34.3333333333333
i 3 u 2 33.3333333333333
i 4 u 2 34.3333333333333
j 1 b 0.666666666666667 0
j 2 b 0.666666666666667 0
j 3 b 0.666666666666667 0
j 4 b 0.666666666666667 0
e o f
"""

WRITTEN_BY_ESOLVER = """status = OPTIMAL
status OPTIMAL
\tValue = 806/3
VARS:
p1 = 2/3
p2 = 2/3
p3 = 2/3
p4 = 2/3
REDUCED COST:
PI:
l1 = 97/3
l2 = 103/3
l3 = 100/3
l4 = 103/3
SLACK:
"""


class Solvers(PlaceTest):
    def test_makes_a_certificate_of_a_solution(self) -> None:
        network, solution = self.file("thirds.csv", WITH_THIRDS), self.file("solution", WRITTEN_BY_GLPSOL)
        made = self.told("lp", network, "--solution", solution)
        self.assertEqual(made.splitlines(),
                         ["value 403/3", *[f"product {it} 1/3" for it in ("ABC", "ABD", "ACD", "BCD")], "leg A 97/3",
                          "leg B 103/3", "leg C 100/3", "leg D 103/3", "leg IDLE 0/1"])
        path = self.file("certificate", made)
        self.assertEqual(self.nrm("check", network, path), "optimal\n")
        self.assertEqual(self.told("audit", network, path).splitlines()[-1], "optimal")
        other = self.file("other.csv", WITH_THIRDS.replace("product,BCD,102", "product,BCD,103"))
        self.stopped("lp", other, "--solution", solution, says="the solution of another network")
        for wrong in (WRITTEN_BY_GLPSOL.replace("f f", "i i"), WRITTEN_BY_GLPSOL.replace("bas 4", "bas 5"), "", "s\n"):
            self.stopped("lp", network, "--solution", self.file("wrong", wrong), says="isn't an optimal one")
        self.stopped("lp", network, "--solution", self.file("wrong", WRITTEN_BY_GLPSOL.replace("0.6", "many")),
                     says="has a line that")
        self.stopped("lp", network, "--solution", "", says="No such file")

    def test_has_the_authorised_seats_as_caps(self) -> None:
        """The program is that of a file of version 1 with as many seats, and the certificate one for these alone."""
        rows = [row.fields for row in rows_of(WITH_THIRDS.encode())]
        rows = [[*row, 2] if row[0] == "periods" else [*row[:2], 7, *row[2:]] if row[0] == "leg" else row
                for row in rows]
        first = self.file("first.csv", WITH_THIRDS)
        second = self.file("second.csv", text_of([*rows, ["refund", "ABC", 5]]))
        self.assertEqual(self.told("lp", second), self.told("lp", first))
        solution = self.file("solution", WRITTEN_BY_GLPSOL)
        path = self.file("certificate", self.told("lp", second, "--solution", solution))
        self.assertEqual(self.nrm("check", second, path), "optimal\n")
        self.assertEqual(self.told("audit", second, path).splitlines()[-1], "optimal")
        seven = self.file("seven.csv", text_of(row[:3] if row[0] in ("periods", "leg") else row for row in rows))
        self.assertEqual(self.nrm("check", seven, path, status=1), "wrong leg A\n")
        self.assertEqual(self.ran("audit", seven, path)[0].splitlines()[-1], "wrong leg A")

    def test_makes_a_certificate_of_fractions(self) -> None:
        network, solution = self.file("thirds.csv", WITH_THIRDS), self.file("solution", WRITTEN_BY_ESOLVER)
        made = self.told("lp", network, "--solution", solution)
        self.assertEqual(made, self.told("lp", network, "--solution", self.file("other", WRITTEN_BY_GLPSOL)))
        few = self.file("few.csv", "periods,1,1\nleg,A,2\nleg,B,5\nproduct,P,7,A,B\nproduct,Q,5,A\ndemand,P,1,1\n")
        zeros = ("status OPTIMAL\n\tValue = 7\nVARS:\np1 = 1\nREDUCED COST:\np1 = 7\np2 = 5\nPI:\nSLACK:\n"
                 "l1 = 1\nl2 = 4\n")
        self.assertEqual(self.told("lp", few, "--solution", self.file("solution", zeros)),
                         "value 7/1\nproduct P 1/1\nproduct Q 0/1\nleg A 0/1\nleg B 0/1\n")
        for old, new, sentence in (("p4", "p5", "isn't an optimal one"), ("l4", "l6", "isn't an optimal one"),
                                   ("status OPTIMAL", "status UNSOLVED", "isn't an optimal one"),
                                   ("806", "807", "another network"),
                                   ("97/3", "97/0", "has a line that"), ("97/3", "many", "has a line that")):
            wrong = self.file("wrong", WRITTEN_BY_ESOLVER.replace(old, new))
            self.stopped("lp", network, "--solution", wrong, says=sentence)

    def test_takes_decimals_for_the_fractions_that_they_stand_for(self) -> None:
        for numerator, denominator in [(2, 3), (1, 7), (299_998, 3), (99_999_998, 7), (31_968, 1), (5, 4096), (0, 1),
                                       (1234, 997)]:
            self.assertEqual(simplest(f"{numerator / denominator:.15g}"), Fraction(numerator, denominator))
        self.assertEqual(simplest("-1e-17"), 0)

    def test_makes_certificates_of_what_solvers_find(self) -> None:
        paths = [*sorted(EXAMPLES.glob("*/network.csv")), self.file("thirds.csv", WITH_THIRDS),
                 *[self.file(f"made-{it}.csv", text_of(made_timetable(random.Random(it), [6, 9])[0]))
                   for it in range(4)]]
        for words, package in ((["glpsol", "--exact", "--lp", "program.lp", "-w", "solution"], "glpk-utils"),
                               (["esolver", "-O", "solution", "program.lp"], "qsopt-ex")):
            with self.subTest(words[0]):
                if not shutil.which(words[0]):
                    self.skipTest(f"no certificate made of what {words[0]} finds: Debian's {package} has it")
                for path in paths:
                    self.file("program.lp", self.told("lp", path))
                    self.assertEqual(self.finished(*words).status, 0, words[0])
                    certificate = self.file("certificate", self.told("lp", path, "--solution", "solution"))
                    self.assertEqual(self.nrm("check", path, certificate), "optimal\n", f"nrm check {path}")
                    self.assertEqual(self.told("audit", path, certificate).splitlines()[-1], "optimal", path)
