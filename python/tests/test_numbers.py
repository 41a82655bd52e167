"""A number that is longer than any may be is refused, wherever it stands, with a sentence and no traceback."""
from __future__ import annotations

import unittest
from fractions import Fraction
from typing import Callable

from harness import PlaceTest, WithinTest
from made import FEW
from nrm.network import MOST_DIGITS, fraction, is_whole, number, whole
from records.test_solver_files import WITH_THIRDS, WRITTEN_BY_ESOLVER, WRITTEN_BY_GLPSOL

LONG = ["9" * 4300, "9" * 4301, "1" + "0" * 20_000]  # Python makes no number of more than 4,300 digits
OF_EACH_ROW = "periods,1,1,2\nleg,A,1,1,7\nproduct,P,5,A\nrefund,P,50\ndemand,P,1,1\n"
PLACES = [("periods,1", "periods,{}"), ("1,2\n", "{},2\n"), ("A,1,", "A,{},"), ("1,7", "{},7"), (",7", ",{}"),
          ("P,5", "P,{}"), ("P,50", "P,{}"),
          ("P,1,1", "P,{},1"), ("P,1,1", "P,1,{}")]  # of OF_EACH_ROW, in each of which stands a number


class Reading(unittest.TestCase):
    def test_a_number_is_read_up_to_its_longest(self) -> None:
        longest = "9" * MOST_DIGITS
        self.assertEqual((whole("0"), whole(longest), number(" -07"), fraction("6/4")),
                         (0, int(longest), -7, Fraction(3, 2)))
        readers: list[tuple[Callable[[str], object], list[str]]] = [
            (whole, ["", "-1", "01", "1.0", " 1", "٣"]), (number, ["", "x", "1.5"]),
            (fraction, ["", "1", "1/0", "1/", "/1", "1/2/3", "-1/2", "1/02"])]
        for reader, wrong in readers:
            for text in [*wrong, longest + "9", *LONG, *[f"1/{it}" for it in LONG], *[f"{it}/1" for it in LONG]]:
                with self.assertRaises(ValueError, msg=text[:50]) as why:
                    reader(text)
                self.assertLess(len(str(why.exception)), 200)
        self.assertEqual([is_whole(it) for it in ("7", longest, longest + "9", "x")], [True, True, False, False])


class Refusing(WithinTest):
    def network(self, old: str, new: str) -> str:
        self.assertIn(old, OF_EACH_ROW)
        return self.file("long.csv", OF_EACH_ROW.replace(old, new))

    def test_in_each_place_of_a_network(self) -> None:
        certificate = self.file("certificate", "value 5/1\nproduct P 1/1\nleg A 5/1\n")
        for it in LONG:
            for old, new in PLACES:
                path = self.network(old, new.format(it))
                done = self.ran("explain", path)
                self.assertEqual((done.status, done.err, len(done.out) < 1000), (3, "", True), done.out[:200])
                self.want_in(done.out, ": 9999" if it[0] == "9" else ": 1000")
                self.assertEqual(tuple(self.ran("audit", path, certificate)),
                                 ("refused: `nrm print` says why\n", "", 3))
                self.stopped("lp", path, says="is refused: `nrm-tools explain")

    def test_what_is_to_be_written_instead_is_told_short(self) -> None:
        for it in LONG:
            for old, new in (("P,5", f"P,0{it}"), ("P,1,1", f"P,1,0{it}")):
                self.want_in(self.ran("explain", self.network(old, new)).out, "without blanks and without a 0 in front")
            self.want_in(self.ran("explain", self.network("P,5", f"P,{it} EUR")).out, "write digits alone: ")

    def test_in_a_certificate(self) -> None:
        network = self.file("few.csv", OF_EACH_ROW)
        for it in LONG:
            for line in (f"value {it}/1", f"value 1/{it}"):
                path = self.file("certificate", line + "\nproduct P 1/1\nleg A 5/1\n")
                for name in ("audit", "explain"):
                    done = self.ran(name, network, path)
                    self.assertEqual((done.status, done.err, done.out.partition("\n")[0]),
                                     (3, "", "refused certificate line 1 large"))

    def test_in_a_solution(self) -> None:
        network = self.file("thirds.csv", WITH_THIRDS)
        for it in LONG:
            for number in (it, f"1e{it}", f"1e-{it}", f"0.{it}"):
                solution = self.file("solution", WRITTEN_BY_GLPSOL.replace("0.666666666666667", number))
                self.stopped("lp", network, "--solution", solution, says="has a line that")
            solution = self.file("solution", WRITTEN_BY_ESOLVER.replace("2/3", f"2/{it}"))
            self.stopped("lp", network, "--solution", solution, says="has a line that")

    def test_in_words(self) -> None:
        network = self.file("few.csv", OF_EACH_ROW)
        for it in LONG:
            for name, words in (("replay", [network, "--seed", it]), ("thresholds", [network, it])):
                done = PlaceTest.ran(self, name, *words)
                self.assertEqual((done.status, "Traceback" in done.err), (2, False), done.err)
                self.want_in(done.err, f"usage: nrm-tools {name} ")

    def test_in_replies(self) -> None:
        network = self.file("few.csv", FEW + "demand,P,1,1\ndemand,P,2,1\n")
        stream = self.file("stream", "book P 1\n")
        leg = "s/^leg A/leg A seats 1 authorised 1 sold 0 left 1/"
        for it in LONG:
            for line in (f"hindsight {it}/1 revenue 0 withheld 0", f"hindsight 1/1 revenue {it} withheld 0"):
                self.answered("replay", [network], f"sed 's|^hindsight$|{line}|; s/^book.*/ok 1/'", "has no bound")
                self.answered("season", [network, stream],
                              f"sed 's/^plan/value 1\\/1/; {leg}; s|^hindsight$|{line}|; s/^book.*/ok 1/'",
                              "replies don't fit")
            for line in (f"value A {it}/1", f"protect A {it}", f"value A 1/{it}"):
                self.answered("optimum", [network, "A"], f"echo class P 5; echo '{line}'", "isn't an answer to it")
            for line in (f"cuts A {it}", f"centres A {it}", f"cost A {it}"):
                lines = [line if line.startswith(one.split()[0]) else one
                         for one in ("cuts A", "centres A 5", "cost A 0")]
                self.answered("thresholds", [network, "2"], "".join(f"echo '{one}'\n" for one in lines),
                              "isn't an answer to it")
        zero = f"sed 's/^plan/value 1\\/0/; {leg}; s|^hindsight$|hindsight 1/0 revenue 0 withheld 0|'"
        self.answered("season", [network, stream], zero, "replies don't fit")

    def answered(self, name: str, words: list[str], script: str, sentence: str) -> None:
        """Sees that a command refuses what a program answers, with a sentence."""
        self.stopped(name, *words, "--program", "sh", self.file("script", script), says=sentence)
