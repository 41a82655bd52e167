"""Moments of who has a network: an owner that sleeps while another goes on, a fence that can't be passed yet, a journal
that was changed, another program."""
from __future__ import annotations

import os
import signal
import time
from pathlib import Path

from fleet.standing import COUNT, HALTED, LEASE, FleetTest, asked, change, heard, holding, silent
from nrm.program import Program

CHANGED = ("ALTER TABLE line DISABLE TRIGGER USER", "UPDATE line SET reply = 'ok 9' WHERE number = 3",
           "ALTER TABLE line ENABLE TRIGGER USER")
OTHER = '#!/bin/sh\nexec {words} "$@"\n'  # the same program, by another file


class Owners(FleetTest):
    def test_who_was_stopped_for_longer_than_its_lease_writes_and_tells_nothing(self) -> None:
        """Others have answered meanwhile: neither a line nor a look is answered from what was."""
        fleet, [stopped] = self.begun()
        with stopped.connect() as buyer, stopped.connect() as looker:
            for made, lines, wanted in ((buyer, b"desk net D2 1\nbook LOC 1\n", b"at 1\nok 2\n"),
                                        (looker, b"desk net D3 1\nask LOC\n", b"at 1\nask LOC 298 leg AB\n")):
                made.sendall(lines)
                self.assertEqual(heard(made, 2), wanted)
            stopped.process.send_signal(signal.SIGSTOP)
            buyer.sendall(b"book LOC 5\n")
            looker.sendall(b"ask LOC\n")
            other = fleet.start(1)
            self.assertEqual(asked([other], b"book LOC 3\n", 1, sequence=2), [b"ok 3"])
            stopped.process.send_signal(signal.SIGCONT)
            for made in (buyer, looker):
                told = heard(made, 1)
                self.assertTrue(told.startswith(b"closed "), f"who was stopped tells {told!r}")
            self.assertEqual(asked([other], b"ask LOC\n", 1, sequence=3), [b"ask LOC 295 leg AB"])
        self.assertEqual([it[1] for it in fleet.rows()], ["D1", "D2", "D1"], "whose lines there are")

    def test_nothing_is_told_before_the_fence_is_passed(self) -> None:
        """While somebody else holds the row of the network nobody can know whose it is: neither a booking nor a look is
        answered."""
        fleet, [one] = self.begun()
        with holding(fleet.uri, "SELECT * FROM head FOR UPDATE"):
            for line in b"desk net D2 1\nask LOC\n", b"desk net D3 1\nleg AB\n", b"desk net D4 1\nbook LOC 1\n":
                told = silent(one, line, 2)
                self.assertIn(told, (b"", b"at 1\n"), f"{line!r} is answered before the fence is passed: {told!r}")
        self.assertEqual(asked([one], b"book LOC 1\nask LOC\n", 2, name="D4"), [b"ok 2", b"ask LOC 298 leg AB"])
        self.assertEqual(fleet.value(COUNT), 2)

    def test_a_journal_that_was_changed_halts_its_network(self) -> None:
        fleet = self.fleet()
        one = fleet.start(0)
        wanted = [b"ok %d" % it for it in range(1, 6)]
        self.assertEqual(asked([one], b"book LOC 1\n" * 5, 5), wanted)
        change(fleet.uri, *CHANGED)
        one.kill()
        again = fleet.start(0)
        self.assertEqual(asked([again], b"book LOC 1\n", 1, sequence=6), [b"closed halted"])
        self.until(fleet, HALTED)  # whose desks are told before it is written
        self.assertRegex(fleet.value("SELECT halted FROM network"), r"\b3\b", "it says which row")
        self.assertEqual(fleet.value(COUNT), 5)

    def test_another_program_takes_nothing(self) -> None:
        fleet = self.fleet()
        first = fleet.start(2)
        self.assertEqual(asked([first], b"book LOC 1\n", 1), [b"ok 1"])
        first.kill()
        path = Path(self.file("other", OTHER.format(words=" ".join(fleet.answering.words))))
        os.chmod(path, 0o755)
        other = fleet.start(0, answering=Program((str(path),)))
        deadline = time.monotonic() + 3 * LEASE
        while time.monotonic() < deadline:
            told = silent(other, b"desk net D1 2\nbook LOC 1\n", 1)
            self.assertTrue(told.startswith(b"closed "), f"another program answers: {told!r}")
        self.assertEqual((fleet.owner().name, fleet.value(COUNT)), (first.name, 1))
        right = fleet.start(1)
        self.assertEqual(asked([other, right], b"book LOC 1\n", 1, sequence=2), [b"ok 2"])
        self.assertEqual(fleet.owner().name, right.name)
