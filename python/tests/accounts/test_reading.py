"""Accounts as text, read: each kind of line, and what isn't an account."""
from __future__ import annotations

import unittest
from fractions import Fraction

from nrm.accounts.reading import (Account, CancellationAccount, Enough, Fares, LegAccount, NestAccount, Optimisation,
                                  RequestAccount, account_of)
from nrm.replies import NoAnswer

SHORT = """line 417 book HJ-Q 2
plan bid line 355 period 2
product HJ-Q fare 540 refund 25
leg HAM-FRA authorised 60 sold 41 left 19 protected 0 needs 2 covers
leg FRA-NRT authorised 40 sold 39 left 1 protected 0 needs 2 short 1
largest 1 then no FRA-NRT
answer no FRA-NRT
"""
BELOW = """line 2 book P 1
plan bid opening period 1
product P fare 540 refund 100
leg A authorised 3 sold 0 left 3 protected 0 needs 1 covers
price A 1121/2
sum 1121/2 fare 540 below 41/2
largest 0 then no fare
answer no fare
"""
PROTECTED = """line 1 book P 4
plan davn opening period 1
product P fare 150 refund 100
nest A fare -191/1 bucket 2 of 3 from 100 below 300
enough A seats 7 buckets 1 mean 2880/7 next 150/1 histories 4 over 1
demand A 6 6 9 7
leg A authorised 10 sold 0 left 10 protected 7 needs 4 short 1
nest B fare 80/1 bucket 3 of 3 below 100
leg B authorised 10 sold 0 left 10 protected 0 needs 4 covers
largest 3 then no A
answer no A
"""
CANCELLED = """line 3 cancel 17
booking 17 product P party 2 fare 540 worth 1080 refund 25
back 270 withheld 810
answer cancelled 17 270
"""


class Accounts(unittest.TestCase):
    def test_a_leg_that_is_short(self) -> None:
        account = account_of(SHORT)
        legs = (LegAccount("HAM-FRA", 60, 41, 19, 0, 2, None, None), LegAccount("FRA-NRT", 40, 39, 1, 0, 2, 1, None))
        self.assertEqual(account, Account(417, "book HJ-Q 2", RequestAccount(
            "bid", 355, 2, "HJ-Q", 540, 25, legs, None, 1, "no FRA-NRT"), "no FRA-NRT", SHORT))

    def test_a_fare_below_the_prices(self) -> None:
        reasons = account_of(BELOW).reasons
        assert isinstance(reasons, RequestAccount)
        self.assertEqual((reasons.planned, reasons.largest, reasons.beyond), (0, 0, "no fare"))
        self.assertEqual(reasons.fares,
                         Fares((("A", Fraction(1121, 2)),), Fraction(1121, 2), 540, Fraction(41, 2)))
        reaches = account_of(BELOW.replace("below 41/2", "reaches")).reasons
        assert isinstance(reaches, RequestAccount) and reaches.fares
        self.assertIsNone(reaches.fares.below)

    def test_seats_that_are_protected(self) -> None:
        reasons = account_of(PROTECTED).reasons
        assert isinstance(reasons, RequestAccount)
        enough = Enough(7, 1, Fraction(2880, 7), Fraction(150), 4, 1, (6, 6, 9, 7))
        self.assertEqual([it.nest for it in reasons.legs], [
            NestAccount(Fraction(-191), 2, 3, 100, 300, enough), NestAccount(Fraction(80), 3, 3, None, 100, None)])

    def test_other_lines(self) -> None:
        self.assertEqual(account_of(CANCELLED).reasons, CancellationAccount(17, "P", 2, 540, 1080, 25, 270, 810))
        self.assertEqual(account_of("line 4 reoptimise 2\nleft A 2\nleft B 0\nanswer optimised none\n").reasons,
                         Optimisation((("A", 2), ("B", 0))))
        for text, asked, answer in (("line 5 leg A\n", "leg A", None), ("line 6 plan\n", "plan", None),
                                    ("line 7 bad\nanswer bad\n", "bad", "bad"),
                                    ("line 9 leg X\nanswer unknown\n", "leg X", "unknown"),
                                    ("line 8 book X 1\nanswer unknown\n", "book X 1", "unknown")):
            self.assertEqual(account_of(text), Account(int(text.split()[1]), asked, None, answer, text))

    def test_what_is_no_account(self) -> None:
        for text in ("", "line 1 plan", "ok 1\n", SHORT[:-1], SHORT + "more\n", SHORT.replace("answer", "reply"),
                     SHORT.replace("short 1", "short"), SHORT.replace("left 19", "left 019"),
                     SHORT.replace("plan bid", "plan other"), SHORT.replace("leg HAM", "leg ham"),
                     BELOW.replace("sum 1121/2", "sum 1121"), BELOW.replace("sum ", "summe "),
                     BELOW.replace("1121/2\nsum", "1121/0\nsum"), CANCELLED.replace("back", "gone"),
                     PROTECTED.replace("demand A", "demand B"), PROTECTED.replace("nest A", "nest B"),
                     PROTECTED.replace("demand A 6 6 9 7\n", ""), "line 5 leg A\nanswer x\n", "line 6 plan\nanswer unknown\n",
                     "line 7 bad\n",
                     SHORT.replace("sold 41", "sold " + "4" * 41), "line 1 leg A\nleft A 1\n\n"):
            with self.assertRaises(NoAnswer, msg=text):
                account_of(text)


if __name__ == "__main__":
    unittest.main()
