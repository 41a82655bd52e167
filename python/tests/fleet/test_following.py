"""A server that would have a network next follows it, so that it goes on within a second when the owner is lost."""
from __future__ import annotations

import re
import time
import unittest
from types import SimpleNamespace
from typing import Callable

from fleet.fleets import FleetTest, Server
from harness import wait_for
from nrm.server.journal_asking import Feed
from nrm.server.status_text import ask_status
from server.serves import PATIENT

MANY = 20_000  # lines: more than are read in one piece
ENOUGH = re.compile(r"event=begun network=net lines=(\d+) seconds=([0-9.]+)")


class Following(FleetTest):
    def two(self, lines: int, *options: str) -> tuple[Server, Server]:
        """Two servers and a network with lines, of which the first has it and the other follows it."""
        self.open("net")
        if lines:
            self.fill(lines)
        first, second = self.settled([self.serve(it, *options) for it in ("a", "b")])
        return first, second

    def state_of(self, server: Server) -> str:
        """What the program of the network does there."""
        return ask_status(server.place, PATIENT).networks[0].state

    def test_it_goes_on_with_the_last_rows_only(self) -> None:
        """What was told before is told again, and the program that followed is the one that answers."""
        owner, other = self.two(MANY)
        other.wait_for("event=followed network=net")
        self.assertEqual(owner.answer(b"desk net D1 1\nbook LOC 1\nbook LOC 2\n"), b"at 1\nok 1\nok 2\n")
        [program] = ask_status(other.place, PATIENT).networks
        self.assertEqual((program.state, ask_status(other.place, PATIENT).shares[0].followed), ("follows", True))
        begun = ask_status(other.place, PATIENT).programs.begun
        owner.kill()
        killed = time.monotonic()
        self.assertEqual(other.answer(b"desk net D1 1\nbook LOC 1\nbook LOC 2\nbook LOC 3\n"),
                         b"at 1\nok 1\nok 2\nok 3\n")
        self.assertLess(time.monotonic() - killed, PATIENT)
        self.assertEqual(ask_status(other.place, PATIENT).programs.begun, begun, "no other program was begun")
        [(lines, _)] = ENOUGH.findall(other.told())
        self.assertEqual(int(lines), MANY + 2)

    def test_nothing_is_followed_where_that_isnt_wanted(self) -> None:
        owner, other = self.two(10, "--followers", "0")
        self.assertEqual(owner.answer(b"desk net D1 1\nbook LOC 1\n"), b"at 1\nok 1\n")
        time.sleep(2)
        self.assertNotIn("event=followed", other.told())
        owner.kill()
        self.assertEqual(other.answer(b"desk net D1 1\nbook LOC 1\n"), b"at 1\nok 1\n")

    def test_what_was_read_before_the_database_began_anew_isnt_gone_on_with(self) -> None:
        """A line that a primary alone had can be seen and be lost, so a program that followed it is ended."""
        owner, other = self.two(100)
        other.wait_for("event=followed network=net")
        wait_for(lambda: self.state_of(other) == "follows", "a program that follows", PATIENT)
        self.assertEqual(owner.answer(b"desk net D1 1\nbook LOC 1\n"), b"at 1\nok 1\n")
        begun = ask_status(other.place, PATIENT).programs.begun
        self.database.kill()
        self.database.start()
        owner.kill()
        self.assertEqual(other.answer(b"desk net D1 1\nbook LOC 1\nbook LOC 2\n"), b"at 1\nok 1\nok 2\n")
        self.assertGreater(ask_status(other.place, PATIENT).programs.begun, begun, "another program was begun")

    def test_a_journal_that_was_changed_is_found_by_the_next_owner(self) -> None:
        """Who follows tells nothing of it, and halts nothing."""
        owner, other = self.two(100)
        other.wait_for("event=followed network=net")
        self.database.ask("ALTER TABLE line DISABLE TRIGGER ALL; INSERT INTO line SELECT 101, 101, 0, 1, 0, 'FILL', "
                          "'book LOC 1', 'ok 7'; UPDATE head SET lines = 101; ALTER TABLE line ENABLE TRIGGER ALL")
        other.wait_for('event=not-followed network=net why="row 101 differs"')
        self.assertEqual(self.database.ask("SELECT halted FROM network"), [(None,)])
        owner.kill()
        wait_for(lambda: other.answer(b"desk net D1\n") == b"closed halted\n", "a halted network", PATIENT)


class Feeds(unittest.TestCase):
    """Without a database."""

    def test_a_program_keeps_up_that_lacks_what_came_last(self) -> None:
        """Few rows, or those that have come since the time before; not one that is still given what was there then."""
        asked: list[Callable[[object], None]] = []
        asker = SimpleNamespace(ask=lambda work, then: asked.append(then))
        feed = Feed(asker, 1, None, lambda: None, None, lambda fault: None)
        for there, given, keeps_up in ((5000, 3000, False), (9000, 4000, False), (9000, 8500, True),
                                       (20_000, 9000, True), (20_000, 10_000, False), (20_000, 20_000, True)):
            feed.more(there)
            asked.pop()(("past", given, [b"row\n" * (given - feed.read)]))
            next(feed)
            self.assertEqual(feed.keeps_up(1000), keeps_up, (there, given))

    def test_rows_of_another_past_than_the_taking_are_never_given(self) -> None:
        """As from a primary that is cut off, and that the connection which reads has kept to."""
        asked: list[Callable[[object], None]] = []
        spoilt: list[str] = []
        asker = SimpleNamespace(ask=lambda work, then: asked.append(then))
        feed = Feed(asker, 1, None, lambda: None, None, lambda fault: spoilt.append(str(fault)))
        feed.more(20)
        asked.pop()(("past", 10, [b"rows\n"]))
        self.assertEqual((next(feed), feed.histories), (b"rows\n", {"past"}))
        feed.history = "past"
        asked.pop()(("other", 20, [b"more\n"]))
        self.assertEqual((len(spoilt), next(feed, None)), (1, None))
        self.assertIn("from a database that isn't the one any more", spoilt[0])
