"""Replies are dealt one to a line, and read into what they say."""
from __future__ import annotations

import io
import unittest
from fractions import Fraction

from harness import EXAMPLES, PlaceTest
from nrm.replies import (Cancelled, Cuts, Hindsight, Leg, LegValue, Memory, Nest, NoAnswer, NoFare, NoLeg, Optimised,
                         Overflow, Plan, Sold, StoreReply, Unknown, answer_of, cuts_of, leg_value_of, plan_of,
                         replies_of)

ANSWERS = {
    "ok 7": Sold(7), "no AB-1": NoLeg("AB-1"), "no fare": NoFare(), "unknown": Unknown(),
    "cancelled 3 120": Cancelled(3, 120),
    "optimised 7/2": Optimised(Fraction(7, 2)), "optimised none": Optimised(None), "overflow": Overflow(),
    "memory": Memory(),
    "store": StoreReply(), "first": Plan(), "hindsight 7/3 revenue 2 withheld 1": Hindsight(Fraction(7, 3), 2, 1),
    "leg AB seats 9 authorised 8 sold 3 left 5\non AB P 3": Leg("AB", 9, 8, 3, 5, {"P": 3}),
    "value 5/2\nproduct P 1/2\nleg AB 3/1": Plan(Fraction(5, 2), {"P": Fraction(1, 2)}, {"AB": Fraction(3)}),
    "value 5/2\nproduct P 1/2\nleg AB 3/1\nnest AB P 4/1 2\nprotect AB 6": Plan(
        Fraction(5, 2), {"P": Fraction(1, 2)}, {"AB": Fraction(3)}, {("AB", "P"): Nest(Fraction(4), 2)}, {"AB": (6,)}),
    "value 5/2\nleg AB 3/1\nnest AB P -4/3 2\nprotect AB 6": Plan(
        Fraction(5, 2), {}, {"AB": Fraction(3)}, {("AB", "P"): Nest(Fraction(-4, 3), 2)}, {"AB": (6,)}),
    "value 0/1\nnest AB P -430/3 2": Plan(Fraction(0), nests={("AB", "P"): Nest(Fraction(-430, 3), 2)})}
NO_ANSWERS = ["", "bad", "ok", "ok one", "ok 1 2", "no", "optimised 1/0", "hindsight 1/0 revenue 1 withheld 0",
              "hindsight 1 revenue 1 withheld 0", "leg AB", "leg AB seats x authorised 8 sold 3 left 5", "value",
              "value one", "value 1/0", "value 1/1\nproduct P", "closed idle", "value -1/1", "value 1/1\nleg AB -1/1",
              "value 1/1\nnest AB P --4/1 2", "value 1/1\nnest AB P -/1 2", "value 1/1\nnest AB P 4/1 -2"]
CUTS = ["cuts AB 400", "centres AB 500 150", "cost AB 1200"]
VALUE = ["class ABH 400", "class ABL 150", "value AB 4175/2", "protect AB 3"]


class Answers(unittest.TestCase):
    def test_each_reply_is_read(self) -> None:
        for text, answer in ANSWERS.items():
            self.assertEqual(answer_of(text.encode() + b"\n"), answer)

    def test_what_is_no_reply_is_told(self) -> None:
        for text in NO_ANSWERS:
            with self.assertRaises(NoAnswer, msg=text):
                answer_of(text.encode() + b"\n")

    def test_a_plan_says_what_is_protected_from_a_product(self) -> None:
        plan = plan_of("value 1/1\nnest AB P 4/1 2\nnest AB Q 9/1 1\nprotect AB 6".split("\n"))
        self.assertEqual((plan.mode, plan.protected_from("AB", "P"), plan.protected_from("AB", "Q")), ("davn", 6, 0))
        self.assertEqual((Plan().mode, Plan().protected_from("AB", "P"), plan_of(["value 1/1"]).mode), ("first", 0, "bid"))

    def test_cuts_are_read(self) -> None:
        self.assertEqual(cuts_of("AB", CUTS), Cuts((400,), (500, 150), 1200))
        self.assertEqual(cuts_of("AB", ["cuts AB", "centres AB 500", "cost AB 0"]), Cuts((), (500,), 0))
        for wrong in ([], CUTS[:2], ["cuts BC 400", *CUTS[1:]], ["cuts AB 400 300", *CUTS[1:]], [*CUTS[:2], "cost AB"],
                      [*CUTS[:2], "cost AB 1 2"], ["cuts AB -4", *CUTS[1:]]):
            with self.assertRaises(ValueError, msg=wrong):
                cuts_of("AB", wrong)

    def test_the_value_of_a_leg_is_read(self) -> None:
        self.assertEqual(leg_value_of("AB", VALUE), LegValue((("ABH", 400), ("ABL", 150)), Fraction(4175, 2), (3,)))
        for wrong in ([], VALUE[1:], VALUE[:-1], [*VALUE[:2], "value AB 1/0", VALUE[3]],
                      [*VALUE[:2], "value BC 1/2", VALUE[3]], [*VALUE[:3], "protect AB 3 4"], ["class ABH", *VALUE[1:]],
                      ["class ABH x", *VALUE[1:]], ["nest ABH 4", *VALUE[1:]]):
            with self.assertRaises(ValueError, msg=wrong):
                leg_value_of("AB", wrong)


class Dealing(PlaceTest):
    LINES = [b"plan", b"leg VIE-BUD", b"book VB-Q 2", b"leg VIE-BUD", b"plan", b"plan", b"hindsight", b"bad"]

    def answered(self, mode: str) -> bytes:
        """What the program writes."""
        given = b"".join(it + b"\n" for it in self.LINES)
        return self.nrm("run", mode, EXAMPLES / "log" / "network.csv", given=given).encode()

    def test_replies_are_dealt_one_to_a_line(self) -> None:
        for mode, lines_of_a_plan in (("first", 1), ("bid", 9), ("davn", 19)):
            out = self.answered(mode)
            dealt = [it.count(b"\n") for it in replies_of(io.BytesIO(out))]
            booked = 2 if b"ok 1\n" in out else 1
            self.assertEqual(dealt, [lines_of_a_plan, 1, 1, booked, lines_of_a_plan, lines_of_a_plan, 1, 1], mode)

    def test_the_program_writes_what_is_read(self) -> None:
        kinds = [type(answer_of(it)) for it in list(replies_of(io.BytesIO(self.answered("davn"))))[:-1]]
        self.assertEqual([kinds[0], kinds[1], kinds[3], kinds[6]], [Plan, Leg, Leg, Hindsight])
        lines = self.program.lines("dp", str(EXAMPLES / "certificate" / "network.csv"), "AB")
        self.assertEqual(leg_value_of("AB", lines), leg_value_of("AB", VALUE))
