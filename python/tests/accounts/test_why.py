"""`nrm-tools why` beside the program, with the second account in the place of `nrm_why`.

The sessions are those of the pages of bid prices and of nests, whose numbers were worked out by hand. Some accounts
have a wrong number.
"""
from __future__ import annotations

import os
import re
import stat
import sys
import unittest

from harness import EXAMPLES, TOP, Done, WithinTest, needs

REFERENCE = [sys.executable, str(TOP / "tests" / "reference.py"), "why"]
BID, NESTS = EXAMPLES / "bid-prices" / "network.csv", EXAMPLES / "certificate" / "network.csv"
BID_LINES = "book THRU 1\nbook LOW 1\nbook LOC 1\nreoptimise 2\nbook THRU 1\nreoptimise 2\nbook LOW 3\ncancel 1\n"
NEST_LINES = ("book ABL 4\nbook ABL 3\nbook BCL 4\nbook ACL 1\nbook ABH 5\nbook ACH 3\ncancel 1\nbook ABL 1\n"
              "book ACH 3\nbook BCL 1\nreoptimise 1\nbook BCL 3\nbook NONE 1\ncancel 99\nreoptimise 9\nleg AB\nhey\n"
              "hindsight\nplan\n")
REFUNDS = "periods,1,1,2\nleg,AB,9,5\nproduct,LOC,540,AB\nrefund,LOC,25\n"


class WhyTest(WithinTest):
    def why(self, network: object, mode: str, stream: str, number: object, *words: str,
            account: list[str] | None = None) -> Done:
        """What the command tells of a line."""
        return self.ran("why", network, mode, self.file("stream", stream), number, *words, *self.with_program, "--why",
                        *(account or REFERENCE))

    def page(self, network: object, mode: str, stream: str, number: int) -> str:
        """The page of a line, all of whose steps must hold."""
        done = self.why(network, mode, stream, number)
        self.assertEqual((done.status, done.err), (0, ""), done.out)
        self.assertRegex(done.out, r"\nAll [0-9]+ steps hold\.\n$")
        return done.out

    def sentence(self, network: object, mode: str, stream: str, number: int) -> str:
        done = self.why(network, mode, stream, number, "--customer")
        self.assertEqual((done.status, done.err), (0, ""), done.out)
        return done.out.rstrip("\n")

    def changed(self, old: str, new: str) -> list[str]:
        """A program that writes the accounts of the second account with something changed in them."""
        path = self.file("changed", f"#!/bin/sh\n{' '.join(REFERENCE)} \"$@\" | sed 's|{old}|{new}|'\n")
        os.chmod(path, stat.S_IRWXU)
        return [path]


class Sentences(WhyTest):
    def test_first_come_first_served(self) -> None:
        two = EXAMPLES / "two-legs" / "network.csv"
        lines = "book THRU 2\nbook THRU 1\nbook THRU 999\n"
        self.assertEqual(self.sentence(two, "first", lines, 1), "Sold: 2 seats of THRU at 500 each, as booking 1. "
                         "The largest party that would have been sold then is 2.")
        self.assertEqual(self.sentence(two, "first", lines, 2), "Refused: BC had 0 seats left of 2, and 1 was asked "
                         "for. No party, however small, would have been sold then.")
        self.assertEqual(self.sentence(two, "first", lines, 3), "Refused: AB had 1 seat left of 3, and 999 were asked "
                         "for. No party, however small, would have been sold then.")

    def test_bid_prices_and_nests(self) -> None:
        for network, mode, lines, number, wanted in (
                (BID, "bid", BID_LINES, 1, "Refused: the fare of 210 is 10 below 220, the sum of the bid prices of its "
                 "legs, which is what the seats are worth to others. No party, however small, would have been sold "
                 "then."),
                (BID, "bid", BID_LINES, 6,
                 "A plan was made at the seats left; its value in a history, on average, is 455."),
                (NESTS, "davn", NEST_LINES, 1, "Refused: AB had 10 seats left of 10, 7 were protected for dearer "
                 "bookings, and 4 were asked for. The largest party that would have been sold then is 3.")):
            self.assertEqual(self.sentence(network, mode, lines, number), wanted)

    def test_cancellations(self) -> None:
        network = self.file("refunds.csv", REFUNDS)
        self.assertEqual(self.sentence(network, "bid", "plan\nbook LOC 2\ncancel 1\n", 3), "Cancelled: booking 1 of 2 "
                         "seats of LOC, sold by line 2 for 1080. 270 were given back, 25 in 100, and 810 were "
                         "withheld.")

    def test_other_lines(self) -> None:
        for number, wanted in ((13, "Refused: no product has the name NONE."),
                               (14, "Nothing was cancelled: no booking 99 stood."),
                               (15, "No plan was made: the network has no period 9."),
                               (16, "The line asked for a text, and changed nothing: leg AB."),
                               (17, "The line isn't one that is known, and changed nothing."),
                               (19, "The line asked for a text, and changed nothing: plan.")):
            self.assertEqual(self.sentence(NESTS, "davn", NEST_LINES, number), wanted)
        self.assertTrue(self.sentence(NESTS, "davn", NEST_LINES, 18).startswith("The line hindsight was answered: "))


class Pages(WhyTest):
    def test_every_line_holds_in_each_mode(self) -> None:
        for network, lines in ((BID, BID_LINES), (NESTS, NEST_LINES)):
            for mode in ("first", "bid", "davn"):
                for number in range(1, lines.count("\n") + 1):
                    self.page(network, mode, lines, number)

    def test_a_page_has_the_account_and_the_certificate(self) -> None:
        told = self.page(NESTS, "davn", NEST_LINES, 12)
        self.want_in(told, "\n    plan davn line 11 period 1\n")
        for who in ("`nrm check`", "the auditor's script"):
            self.want_in(told, "the certificate of the plan is optimal for the seats left at line 11 and the demand "
                               f"from period 1 on, by {who}")

    def test_a_name_stays_text(self) -> None:
        os.mkdir("<b>")
        path = self.file("<b>/page.html", "")
        stream = self.file("<i>&stream", BID_LINES)
        done = self.ran("why", BID, "bid", stream, 1, "--html", path, *self.with_program, "--why", *REFERENCE)
        self.assertEqual(done.status, 0, done.err)
        with open(path, encoding="utf-8") as file:
            html = file.read()
        self.want_in(html, "&lt;i&gt;&amp;stream")
        self.assertNotIn("<i>", html)
        self.assertEqual(len(re.findall("<h1>Refused: the fare of 210 is 10 below 220", html)), 1)

    test_a_name_stays_text = needs("jinja2")(test_a_name_stays_text)


class Faults(WhyTest):
    def test_a_wrong_number_fails_a_step(self) -> None:
        for network, mode, lines, number, old, new in (
                (NESTS, "davn", NEST_LINES, 1, "sold 0 left 10", "sold 1 left 9"),
                (NESTS, "davn", NEST_LINES, 1, "protected 7 needs 4 short 1", "protected 8 needs 4 short 2"),
                (NESTS, "davn", NEST_LINES, 1, "short 1", "covers"),
                (NESTS, "davn", NEST_LINES, 1, "over 1", "over 2"),
                (NESTS, "davn", NEST_LINES, 1, "demand AB 6 6", "demand AB 7 6"),
                (NESTS, "davn", NEST_LINES, 1, "mean 2880/7", "mean 2881/7"),
                (NESTS, "davn", NEST_LINES, 1, "next 150/1", "next 151/1"),
                (NESTS, "davn", NEST_LINES, 1, "fare 150/1 bucket", "fare 151/1 bucket"),
                (NESTS, "davn", NEST_LINES, 1, "bucket 2 of 3", "bucket 3 of 3"),
                (NESTS, "davn", NEST_LINES, 1, "below 300", "below 301"),
                (NESTS, "davn", NEST_LINES, 1, "largest 3", "largest 4"),
                (NESTS, "davn", NEST_LINES, 1, "then no AB", "then no BC"),
                (NESTS, "davn", NEST_LINES, 4, "answer no AB", "answer no BC"),
                (NESTS, "davn", NEST_LINES, 12, "line 11", "line 10"),
                (BID, "bid", BID_LINES, 1, "price AB 120/1", "price AB 121/1"),
                (BID, "bid", BID_LINES, 1, "sum 220/1", "sum 221/1"),
                (BID, "bid", BID_LINES, 1, "below 10/1", "reaches"),
                (BID, "bid", BID_LINES, 5, "period 2", "period 1"),
                (BID, "bid", BID_LINES, 6, "left AB 2", "left AB 3"),
                (BID, "bid", BID_LINES, 8, "back 120", "back 119"),
                (BID, "bid", BID_LINES, 8, "withheld 0", "withheld 1"),
                (BID, "bid", BID_LINES, 8, "worth 120", "worth 121")):
            done = self.why(network, mode, lines, number, account=self.changed(old, new))
            self.assertEqual(done.status, 1, f"{old} as {new}: {done.out}")
            self.want_in(done.out, "Don't rely on this account")
            customer = self.why(network, mode, lines, number, "--customer", account=self.changed(old, new))
            self.assertEqual((customer.status, customer.out), (1, ""), "no sentence of an account that fails")

    def test_mistakes_are_sentences(self) -> None:
        for words, says in (((BID, "bid", BID_LINES, 9), "has no line 9"),
                            (("none.csv", "bid", BID_LINES, 1), "ended with status 3: refused no file")):
            done = self.why(*words)
            self.assertEqual((done.status, done.out), (1, ""))
            self.want_in(done.err, says)
        for number in ("0", "01", "x", "4294967297"):
            with self.assertRaises(SystemExit):
                self.why(BID, "bid", BID_LINES, number)

    def test_another_program(self) -> None:
        for words, says in ((["/bin/echo"], "isn't an account"), (["/bin/false"], "ended with status 1"),
                            (["none-there"], "there is no program none-there")):
            done = self.why(BID, "bid", BID_LINES, 1, account=words)
            self.assertEqual((done.status, done.out), (1, ""))
            self.want_in(done.err, says)

    def test_another_nrm(self) -> None:
        for script in ("", "echo ok 1", "yes bad | head -6"):
            done = self.ran("why", BID, "bid", self.file("stream", BID_LINES), 1, "--why", *REFERENCE, "--program",
                            "sh", self.file("script", script))
            self.assertEqual((done.status, done.out), (1, ""), script)
            self.want_in(done.err, "nrm-tools why: ")

    def test_an_account_of_another_line(self) -> None:
        done = self.why(BID, "bid", BID_LINES, 1, account=self.changed("THRU", "THRUU"))
        self.assertEqual(done.status, 1)
        told = self.why(BID, "bid", BID_LINES, 8, account=[self.file("other", "")])
        self.assertEqual(told.status, 1)
        self.assertNotIn("Traceback", done.err + told.err)


if __name__ == "__main__":
    unittest.main()
