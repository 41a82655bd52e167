"""`nrm-tools why` of a line of a journal, with the second account in the place of `nrm_why`, and once with the program.

Journals are written as a server writes them, with the replies of `nrm run`. The sessions are those of the pages of bid
prices and of nests, whose numbers were worked out by hand.
"""
from __future__ import annotations

import contextlib
import os
import re
import shutil
import sqlite3
import subprocess
import sys
import unittest
from pathlib import Path
from typing import Sequence

from accounts.test_why import BID, NESTS, NEST_LINES, REFERENCE
from harness import SOURCES, Done, WithinTest, needs
from nrm.journal.networks import end_network, open_network
from nrm.journal.sqlite_tables import begin, using
from nrm.journal.sqlite_writing import Given, SqliteWriter, halt
from nrm.program import Program

LINES = ["book THRU 1", "book LOW 1", "book LOC 1", "reoptimise 2", "book THRU 1", "cancel 1", "book LOW 999",
         "book NONE 1", "cancel 99", "reoptimise 9", "cancel 1"]
DESKS = ("COUNTER-7", "WEB", "APP")
TIME = r"[0-9]{4}-[0-9]{2}-[0-9]{2}T[0-9:.]{12}Z"
CHANGE = "UPDATE line SET {} WHERE number = {}"


class JournalTest(WithinTest):
    def setUp(self) -> None:
        """Lays an `nrm_why`, which is the second account, beside an `nrm_desks`, whose checksum journals have."""
        super().setUp()
        os.mkdir("programs")
        self.account = [self.script("programs/nrm_why", REFERENCE)]
        self.desks = Program((self.script("programs/nrm_desks", ["false"]),)).checksum()

    def script(self, name: str, words: Sequence[str], more: str = "") -> str:
        """A script that runs some words."""
        path = self.file(name, f"#!/bin/sh\n{' '.join(words)} \"$@\"{more}\n")
        os.chmod(path, 0o755)
        return path

    def journal(self, network: Path = BID, mode: str = "bid", lines: Sequence[str] = LINES, name: str = "hub") -> Path:
        """A journal with a network, and lines of three desks in turn with the replies of `nrm run`."""
        path = self.folder / "journal"
        begin(str(path))
        with using(str(path), is_to_write=True) as connection:
            open_network(connection, name, mode, network.read_bytes(), self.desks)
        stream = "".join(f"{it}\n" for it in lines).encode()
        replies = self.program.replies_of_a_line(mode, str(network), stream)
        rows = [f"{at}\t{DESKS[at % 3]}\t{(at + 2) // 3}\t{line}\t{reply.decode()}\n"
                for at, (line, reply) in enumerate(zip(lines, replies), 1)]
        writer = SqliteWriter(str(path), self.desks)
        self.assertEqual(writer.write([Given(1, 1, 0, "".join(rows).encode())]), {})
        writer.close()
        return path

    def change(self, *statements: str) -> None:
        """Changes a journal behind the server's back."""
        with contextlib.closing(sqlite3.connect(self.folder / "journal")) as connection:
            connection.executescript("DROP TRIGGER IF EXISTS line_stays; DROP TRIGGER IF EXISTS line_is_kept;"
                                     + ";".join(statements))

    def why(self, *words: object, account: Sequence[str] = ()) -> Done:
        """What the command tells of a line of the network `hub`."""
        return self.ran("why", "journal", "hub", *words, *self.with_program, "--why", *(account or self.account))

    def page(self, *words: object) -> str:
        """The page of a line, all of whose steps must hold."""
        done = self.why(*words)
        self.assertEqual((done.status, done.err), (0, ""), done.out)
        self.assertRegex(done.out, r"\nAll [0-9]+ steps hold\.\n$")
        return done.out

    def sentence(self, *words: object) -> str:
        """The sentence alone."""
        done = self.why(*words, "--customer")
        self.assertEqual((done.status, done.err), (0, ""), done.out)
        return done.out.rstrip("\n")

    def stops(self, says: str, *words: object) -> None:
        """That the command ends with status 1 and a sentence."""
        done = self.ran("why", *words, *self.with_program, "--why", *self.account)
        self.assertEqual((done.status, done.out), (1, ""))
        self.assertTrue(done.err.startswith("nrm-tools why: "), done.err)
        self.want_in(done.err, says)

    def faulty(self, number: int, says: str) -> str:
        """The page of a line of which something is wrong, as its first line says, and the sentence that isn't there."""
        done = self.why(number)
        self.assertEqual((done.status, done.err), (1, ""), done.out)
        self.want_in(done.out.split("\n")[0], says)
        customer = self.why(number, "--customer")
        self.assertEqual((customer.status, customer.out), (1, ""))
        self.want_in(customer.err, says)
        return done.out


class Sentences(JournalTest):
    def test_by_the_prices(self) -> None:
        self.journal()
        none = "No party, however small, would have been sold then."
        for number, wanted in (
                (1, "Refused: the fare of 210 is 10 below 220, the sum of the bid prices of its legs, which is what "
                    f"the seats are worth to others. {none}"),
                (2, "Sold: 1 seat of LOW at 120 each, as booking 1. The largest party that would have been sold then "
                    "is 4."),
                (7, "Refused: AB had 3 seats left of 4, and 999 were asked for. The largest party that would have been "
                    "sold then is 3."),
                (8, "Refused: no product has the name NONE."),
                (9, "Nothing was cancelled: no booking 99 stood."),
                (10, "No plan was made: the network has no period 9.")):
            self.assertEqual(self.sentence(number), wanted)
        self.want_in(self.sentence(4), "A plan was made at the seats left; its value in a history, on average, is ")

    def test_by_protected_seats(self) -> None:
        self.journal(NESTS, "davn", NEST_LINES.splitlines()[:12])
        self.assertEqual(self.sentence(1), "Refused: AB had 10 seats left of 10, 7 were protected for dearer bookings, "
                         "and 4 were asked for. The largest party that would have been sold then is 3.")

    def test_the_sale_of_what_was_cancelled(self) -> None:
        self.journal()
        self.assertRegex(self.sentence(6), r"^Cancelled: booking 1 of 1 seat of LOW, sold by line 2 \(desk APP, "
                         + TIME + r"\) for 120\. 120 were given back, 100 in 100, and 0 were withheld\.$")

    def test_by_the_number_of_a_booking(self) -> None:
        self.journal()
        self.assertEqual(self.sentence("--booking", 2), self.sentence(3))
        told = self.page("--booking", 1)
        self.want_in(told, "\nLine 2 of hub in journal, under bid.\n")
        self.assertRegex(told, rf"\nThe booking was cancelled by line 6 \(desk COUNTER-7, {TIME}\)\.\n")
        self.assertRegex(self.page(11), rf"\nThe booking was cancelled by line 6 \(desk COUNTER-7, {TIME}\)\.\n")
        self.stops("no line of hub sold a booking 4: the last that was sold has the number 3", "journal", "hub",
                   "--booking", 4)

    def test_a_cancellation_that_came_too_early(self) -> None:
        self.journal(lines=["cancel 1", "book LOW 1", "cancel 1", "cancel 1"])
        self.assertNotIn("was cancelled by", self.page(1))
        for number in (2, 4):
            self.want_in(self.page(number), "\nThe booking was cancelled by line 3 (desk COUNTER-7, ")


class Pages(JournalTest):
    def test_every_line_holds_in_each_mode(self) -> None:
        for network, mode, lines in ((BID, "first", LINES), (BID, "bid", LINES),
                                     (NESTS, "davn", NEST_LINES.splitlines()[:15])):
            self.journal(network, mode, lines)
            for number in range(1, len(lines) + 1):
                self.page(number)
            for it in self.folder.glob("journal*"):
                it.unlink()

    def test_it_says_who_asked_and_what_must_be_believed(self) -> None:
        self.journal()
        told = self.page(5)
        self.assertRegex(told, r"\nLine 5 of hub in journal, under bid\.\nDesk APP asked for it, as its line 2\. The "
                         rf"journal has the reply: ok 3, written at {TIME} by the machine's clock\.\n")
        self.want_in(told, "    2. holds: the journal has the reply of the account: ok 3\n    3. holds: the replies "
                           "that the journal has to the lines before it, 4 in number, are those of `nrm run`\n")
        self.want_in(told, "without the account, from the network file, the replies before and the plan, the answer "
                           "is: ok 3\n")
        self.want_in(told, "the certificate of the plan is optimal for the seats left at line 4 and the demand from "
                           "period 2 on, by `nrm check`\n")
        self.want_in(told, "\nWhat must be believed:\n\n    - That the network file in the journal is the true one.")
        self.want_in(told, self.program.checksum())

    def test_its_commands_do_it_again(self) -> None:
        if not shutil.which("sqlite3"):
            self.skipTest("there is no sqlite3 (Debian has sqlite3)")
        self.journal()
        for name, words in (("nrm", self.program.words), ("nrm-tools", [sys.executable, str(SOURCES)])):
            self.script(f"programs/{name}", words)
        for number, answer in ((3, "ok 2"), (5, "ok 3"), (4, "optimised ")):
            self.commands_do_it(self.page(number), answer)
        self.assertEqual((self.folder / "by-hand/network.csv").read_bytes(), BID.read_bytes())
        self.commands_do_it(self.told("why", BID, "bid", self.file("stream", "\n".join(LINES)), 5, *self.with_program,
                                      "--why", *self.account), "ok 3")

    def commands_do_it(self, told: str, answer: str) -> None:
        """Runs the commands of a page: the account has an answer, and the certificate is optimal twice."""
        [commands] = re.findall(r"\nThese commands do the same:\n\n(.*?)\n\n", told, re.DOTALL)
        done = subprocess.run(["bash", "-e", "-o", "pipefail", "-c", commands], capture_output=True, text=True,
                              env={**os.environ, "PATH": f"{self.folder / 'programs'}:{os.environ['PATH']}"})
        self.assertEqual((done.returncode, done.stderr), (0, ""), done.stdout)
        self.assertRegex(done.stdout, rf"\nanswer {answer}[^\n]*\noptimal\n")
        self.assertEqual(done.stdout.split("\n")[-2], "optimal")

    def test_it_is_read_while_somebody_writes(self) -> None:
        path = self.journal()
        before = path.read_bytes()
        with contextlib.closing(sqlite3.connect(path, isolation_level=None)) as connection:
            connection.execute("BEGIN IMMEDIATE")
            connection.execute("UPDATE network SET halted = 'soon'")
            self.page(5)
            connection.execute("ROLLBACK")
        self.assertEqual(path.read_bytes(), before)

    @needs("jinja2")
    def test_as_html(self) -> None:
        self.journal()
        done = self.why(7, "--html", "page.html")
        self.assertEqual(done.status, 0, done.err)
        html = (self.folder / "page.html").read_text(encoding="utf-8")
        self.want_in(html, "<h1>Refused: AB had 3 seats left of 4, and 999 were asked for.")
        self.want_in(html, "<h2>What must be believed</h2>")

    def test_a_line_far_down_a_long_journal(self) -> None:
        lines = ["book LOW 1", "book LOC 1", "cancel {}", "cancel {}"] * 1000
        sold = 0
        for at, line in enumerate(lines):
            lines[at] = line.format(sold - 1 if at % 4 == 2 else sold)
            sold += line.startswith("book")
        self.journal(BID, "first", [*lines, "book LOW 5", *lines])
        self.assertEqual(self.sentence(4001), "Refused: AB had 4 seats left of 4, and 5 were asked for. The largest "
                                              "party that would have been sold then is 4.")

    def test_beside_the_program(self) -> None:
        account = [self.script("programs/built", self.why_program.words)]
        self.journal(NESTS, "davn", NEST_LINES.splitlines()[:12])
        for number in range(1, 13):
            done = self.why(number, account=account)
            told = self.why(number).out
            self.assertEqual((done.status, done.out.partition("\nWhat must")[0]), (0, told.partition("\nWhat must")[0]))


class Changed(JournalTest):
    """Journals that were changed behind the server's back."""

    def test_the_reply_of_the_line(self) -> None:
        self.journal()
        replies = [it.rpartition("\t")[2] for it in self.told("journal", "look", "journal", "hub").splitlines()]
        for number, reply in ((1, "ok 1"), (2, "no AB"), (4, "optimised 1/1"), (6, "cancelled 1 119"), (7, "no BC"),
                              (8, "ok 9")):
            right = replies[number - 1]
            self.change(CHANGE.format(f"reply = '{reply}'", number))
            told = self.faulty(number, f"Something is wrong: the reply to line {number} is `{reply}` in the journal, "
                               f"and `{right}` in the account, by `nrm run` and by the rule as it is computed")
            self.want_in(told, f"FAILS: the journal has the reply of the account: {reply}\n")
            self.change(CHANGE.format(f"reply = '{right}'", number))
            self.page(number)

    def test_the_reply_of_a_line_before(self) -> None:
        self.journal()
        self.change(CHANGE.format("reply = 'no AB'", 2), CHANGE.format("reply = 'no BC'", 3))
        told = self.faulty(5, "Something is wrong: the reply to line 2 is `no AB` in the journal, and `ok 1` by `nrm "
                              "run`, so what stood before line 5 can't be relied on.")
        self.want_in(told, "FAILS: line 2 before it has the reply no AB in the journal, and `nrm run` answers it: ok 1")
        self.page(1)

    def test_a_line(self) -> None:
        self.journal()
        for line, reply in (("book LOC 9", "and `no BC`"), ("plan", "none in the account, and `value 1080/1 ..` by"),
                            ("", "and `bad`"), ("book", "and `bad`"), ("book LOC 1\r\r", "and `bad`"),
                            ("é", "and `bad`")):
            self.change(CHANGE.format(f"line = '{line}'", 3))
            self.faulty(3, f"Something is wrong: the reply to line 3 is `ok 2` in the journal, {reply}")
        self.change(CHANGE.format("line = 'book LOC 1' || char(10) || 'plan'", 3))
        self.stops("line 3 of hub has a line feed in it", "journal", "hub", 4)
        self.change(CHANGE.format("line = x'626f6f6b204c4f432031'", 3))
        self.page(4)

    def test_lines_that_were_taken_out(self) -> None:
        self.journal()
        self.change("DELETE FROM line WHERE number = 3")
        for number in (3, 4, 11):
            self.stops("hub has 11 lines, but line 3 isn't among them: somebody has removed it", "journal", "hub",
                       number)
        self.page(2)

    def test_the_file(self) -> None:
        self.journal()
        self.change("UPDATE network SET file = x'6c6567'")
        self.stops("hub of journal: `nrm_why bid network.csv 1` ended with status 3: refused row 1", "journal", "hub",
                   1)


class Networks(JournalTest):
    def test_what_isnt_there(self) -> None:
        self.journal()
        self.stops("hub has 11 lines, and no line 417", "journal", "hub", 417)
        self.stops("the journal has no network bub; it has hub\n", "journal", "bub", 1)
        with using("journal", is_to_write=True) as connection:
            for at in range(30):
                open_network(connection, f"new-{at:02}", "bid", b"", "p")
        self.stops("new-00 has no lines yet, and no line 1", "journal", "new-00", 1)
        self.stops("it has hub, new-00, new-01,", "journal", "bub", 1)
        self.stops("new-18 and 11 more, which `nrm-tools journal look` lists\n", "journal", "bub", 1)
        self.stops("no line of new-00 sold a booking 1: none was sold", "journal", "new-00", "--booking", 1)

    def test_what_is_no_journal(self) -> None:
        with contextlib.closing(sqlite3.connect("store")) as connection:
            connection.execute("CREATE TABLE other (it)")
        self.file("empty", "")
        for path in (BID, "store", "empty"):
            self.stops("isn't a journal", path, "hub", 1)
        self.stops("a line of a plain stream has four, NETWORK MODE STREAM NUMBER", BID, self.file("stream", "plan"), 1)
        self.stops("none: ", "none", "hub", 1)
        self.stops(f"{self.folder} isn't a plain file", self.folder, "hub", 1)
        self.journal()
        self.stops("journal is an SQLite file, not a network file", "journal", "bid", self.file("stream", "plan"), 1)

    def test_the_forms_of_words(self) -> None:
        self.journal()
        for words in ([], ["journal"], ["journal", "hub"], ["journal", "hub", "0"], ["journal", "hub", "x"],
                      ["journal", "hub", "1", "--booking", "1"], ["journal", "hub", "--booking", "0"],
                      [BID, "best", "stream", "1"], [BID, "bid", "stream", "1", "2"],
                      ["journal", "hub", "first", "1", "--booking", "1"]):
            with self.assertRaises(SystemExit) as raised:
                self.ran("why", *words)
            self.assertEqual(raised.exception.code, 2, words)
        self.assertEqual(self.ran("why", "journal", "--customer", "hub", "2", *self.with_program, "--why",
                                  *self.account).out, f"{self.sentence(2)}\n")

    def test_one_that_has_ended_or_is_halted(self) -> None:
        self.journal()
        with using("journal", is_to_write=True) as connection:
            end_network(connection, "hub")
        self.assertRegex(self.page(5), rf"\nhub has ended, at {TIME}\.\n")
        halt("journal", 1, 1, "row 3 is odd")
        self.want_in(self.page(5), "\nNobody answers for hub, which is halted: row 3 is odd.\n")
        done = self.why(2, "--customer")
        self.assertEqual((done.status, done.out[:13]), (0, "Sold: 1 seat "))
        self.want_in(done.err, "nrm-tools why: Nobody answers for hub, which is halted: row 3 is odd.\n")

    def test_which_program_answered(self) -> None:
        """The one beside `nrm_why` is that of the journal, and then another."""
        self.journal()
        self.want_in(self.page(5), f"the journal has, {self.desks}, and the one that is here is the same.\n")
        self.change("UPDATE network SET program = 'p'")
        other = "hub began with another `nrm_desks` than the one that is here, by their checksums"
        told = self.page(5)
        self.want_in(told, f"\n{other}: this is the account by the rules of the version that is here.\n")
        self.want_in(told, f"the one whose SHA-256 the journal has, p, and the one that is here has {self.desks}.\n")
        customer = self.why(5, "--customer")
        self.assertEqual((customer.status, customer.out[:5]), (0, "Sold:"))
        self.want_in(customer.err, other)

    def test_an_account_that_is_wrong(self) -> None:
        """What is said where `nrm_why` is the one that differs."""
        self.journal()
        wrong = self.script("programs/wrong", REFERENCE, " | sed 's/answer ok 3/answer ok 4/'")
        done = self.why(5, account=[wrong])
        self.assertEqual((done.status, done.out.split("\n")[0]), (
            1, "Something is wrong: the reply to line 5 is `ok 3` in the journal, by `nrm run` and by the rule as "
               "it is computed here, and `ok 4` in the account."))


if __name__ == "__main__":
    unittest.main()
