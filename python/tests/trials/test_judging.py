"""Each kind of fault is found by who judges a journal, and nothing is where there is none."""
from __future__ import annotations

from pathlib import Path
from typing import Sequence

from harness import PlaceTest
from trials.judging import ROWS, Case, Heard, Journal, Row, Told, faults_of

NETWORK = b"periods,1,1\nleg,AB,2\nproduct,LOC,200,AB\n"
RIGHT: tuple[Row, ...] = ((1, "D1", 1, "book LOC 1", "ok 1"), (2, "D2", 1, "book LOC 1", "ok 2"),
                          (3, "D1", 2, "cancel 1", "cancelled 1 200"))
TOLD = (Told(1, 2, 1, "book LOC 1", "ok 1"), Told(5, 6, 2, "cancel 1", "cancelled 1 200"))
LOOKS = (Told(2.1, 2.2, 2, "leg AB", "leg AB seats 2 authorised 2 sold 1 left 1"),
         Told(7, 8, 3, "ask LOC", "ask LOC 1 leg AB"))


def with_reply(number: int, reply: str) -> tuple[Row, ...]:
    """The right rows, with another reply in one of them."""
    return tuple((*row[:4], reply) if row[0] == number else row for row in RIGHT)


class Judging(PlaceTest):
    def faults(self, rows: Sequence[Row] = RIGHT, head: int | None = None, halted: str = "", file: bytes = NETWORK,
               told: Sequence[Told] = TOLD, looks: Sequence[Told] = LOOKS) -> list[str]:
        """What is found of a journal with these rows, of which two desks were told something."""
        answers: dict[str, list[tuple[object, ...]]] = {
            ROWS: [("net", *row) for row in rows],
            "lines FROM head": [("net", len(rows) if head is None else head)],
            "file FROM network": [("net", file)],
            "halted FROM network": [("net", halted)] if halted else []}
        journal: Journal = lambda query: next(rows for part, rows in answers.items() if part in query)
        case = Case("net", "first", Path(self.file("net.csv", NETWORK)))
        heard = [Heard("net", "D1", [*told], [*looks], {it.sequence: it.line for it in TOLD}),
                 Heard("net", "D2", [Told(3, 4, 1, "book LOC 1", "ok 2")], sent={1: "book LOC 1"})]
        return faults_of(journal, [case], heard, self.program)

    def test_a_right_journal_has_none(self) -> None:
        self.assertEqual(self.faults(), [])

    def test_each_kind_is_found(self) -> None:
        other = Told(1, 2, 1, "book LOC 1", "ok 9")
        for what, wanted, given in (
                ("a network that is halted", "halted: .*why", {"halted": "why"}),
                ("another file", "its file isn't the one", {"file": NETWORK + b"\n"}),
                ("a gap", "numbers have gaps", {"rows": (*RIGHT[:2], (4, *RIGHT[2][1:]))}),
                ("a line less than counted", "aren't the 4 of its head", {"head": 4}),
                ("a line that is there twice", "line 4: D1 2 after 2", {"rows": (*RIGHT, (4, *RIGHT[2][1:]))}),
                ("lines of a desk in another order", "line 3: D1 1 after 2", {"rows": (
                    (1, "D1", 2, "book LOC 1", "ok 1"), RIGHT[1], (3, "D1", 1, "cancel 1", "cancelled 1 200"))}),
                ("another reply than the program's", "line 2, .*`nrm run` answers b'ok 2'",
                 {"rows": with_reply(2, "ok 3")}),
                ("seats that aren't there", "line 3: AB is oversold", {"rows": (
                    *RIGHT[:2], (3, "D1", 2, "book LOC 1", "ok 3"))}),
                ("a reply that isn't in the journal", r"D1 2 was told 'cancelled 1 200' .* has None",
                 {"rows": RIGHT[:2]}),
                ("a line that its desk didn't send", "line 4: D2 2 didn't send 'book LOC 1'", {"rows": (
                    *RIGHT, (4, "D2", 2, "book LOC 1", "ok 3"))}),
                ("another line than its desk sent", "line 3: D1 2 didn't send 'cancel 2'", {"rows": (
                    *RIGHT[:2], (3, "D1", 2, "cancel 2", "cancelled 2 200"))}),
                ("another reply than was told", "D1 1 was told 'ok 9' .* has .*'ok 1'", {"told": [other]}),
                ("a look before what was answered", "sold 0 .*true of no moment from line 1 to 1", {"looks": [
                    Told(2.1, 2.2, 2, "leg AB", "leg AB seats 2 authorised 2 sold 0 left 2")]}),
                ("a look behind what was asked later", "sold 2 .*true of no moment from line 1 to 1", {"looks": [
                    Told(2.1, 2.2, 2, "leg AB", "leg AB seats 2 authorised 2 sold 2 left 0")]})):
            found = self.faults(**given)  # type: ignore[arg-type]
            self.assertRegex("\n".join(found) or "nothing", wanted, what)
