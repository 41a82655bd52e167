"""What is written, alone: which rows go into one commit, what is called then, and what is waited for."""
from __future__ import annotations

import threading
import unittest
from typing import Sequence
from unittest import mock

from harness import SECONDS
from nrm.journal.commits import Written
from nrm.journal.stores import Given, Gone, UnknownOutcome
from nrm.server.counters import Counters
from nrm.server.group_commit import GATHER, GroupCommit, RowsToKeep
from nrm.server.loop import Loop


class Writer:
    """In the place of one: it remembers commits, and answers as a test says, or not before that says so."""
    is_quick, epoch = True, 1

    def __init__(self) -> None:
        self.commits: list[list[int]] = []
        self.refused: dict[int, str | None] = {}
        self.fault: Exception | None = None
        self.may_answer = threading.Event()
        self.may_answer.set()

    def write(self, given: Sequence[Given]) -> dict[int, str | None]:
        self.commits.append([it.network for it in given])
        self.may_answer.wait(SECONDS)
        if self.fault:
            raise self.fault
        return self.refused

    def look(self) -> None:
        if self.fault:
            raise self.fault


class GroupCommits(unittest.TestCase):
    def setUp(self) -> None:
        self.loop, self.counters, self.writer, self.fail_all = Loop(), Counters(), Writer(), mock.Mock()
        self.addCleanup(self.loop.poll.close)
        self.events = mock.Mock()
        self.commits = GroupCommit(self.loop, self.events, self.counters, self.writer, 1, self.fail_all)
        self.addCleanup(self.commits.end)
        self.counters.begun = 1  # a program runs alone, so that its rows are written at once
        self.kept: list[tuple[int, Written]] = []

    def keep(self, network: int, session: object = None) -> None:
        """Has a row of a network written."""
        self.commits.keep(RowsToKeep(session or network, Given(network, 1, 0, b"row\n"),
                                     lambda given, done: self.kept.append((given.network, done))))

    def told(self) -> list[int]:
        """Does what is due, and gives the networks whose commit was told since this was asked last."""
        self.loop.do_what_is_due()
        kept, self.kept = self.kept, []
        return [network for network, _ in kept]

    def wait_for_the_thread(self) -> None:
        """Has the loop hear that the thread has made a commit."""
        [(file, what)] = self.loop.poll.poll(SECONDS)
        self.loop.calls[file](what)

    def test_all_that_wait_go_into_one_commit(self) -> None:
        self.commits.done.append(lambda: self.assertEqual(len(self.kept), 2, "who gave the rows is called first"))
        self.keep(1)
        self.keep(2)
        self.assertEqual((self.told(), self.writer.commits), ([1, 2], [[1, 2]]))
        self.assertEqual((self.counters.commits, self.counters.rows), (1, 2))

    def test_what_comes_meanwhile_goes_into_the_next(self) -> None:
        """Which is made as soon as the first is done; and a session whose rows are being written is known."""
        self.writer.is_quick = False
        self.commits.expected.add("another")
        self.writer.may_answer.clear()
        self.keep(1, "one")
        self.assertEqual(self.told(), [])
        self.keep(2, "two")
        self.keep(3, "two")
        self.assertEqual([self.commits.is_writing(it) for it in ("one", "two")], [True, False])
        self.commits.write()
        self.assertEqual((self.told(), self.commits.count_of_rows()), ([], 3))
        self.commits.expected.clear()
        self.writer.may_answer.set()
        self.wait_for_the_thread()
        self.assertEqual((self.told(), self.writer.commits), ([1, 2, 3], [[1], [2, 3]]))

    def test_those_who_were_just_answered_are_waited_for(self) -> None:
        """For some milliseconds behind a commit that took long, if one of them has lines."""
        self.loop.look_at_the_clock = lambda: setattr(self.loop, "now", self.loop.now + 10 * GATHER)
        self.keep(1)
        self.assertEqual((self.told(), self.commits.gather), ([1], GATHER))
        self.commits.expected.add("one")
        self.keep(2)
        self.assertEqual(self.told(), [])
        [(when, _, _)] = self.loop.later
        self.assertAlmostEqual(when - self.loop.now, 2 * GATHER)
        self.commits.expected.clear()
        self.commits.write()
        self.assertEqual(self.told(), [2])

    def test_what_was_dropped_isnt_written(self) -> None:
        self.keep(1, "one")
        self.keep(2, "two")
        self.commits.drop("one")
        self.assertEqual((self.told(), self.writer.commits), ([2], [[2]]))

    def test_what_is_refused_is_told_with_its_commit(self) -> None:
        self.writer.refused = {2: "why"}
        self.keep(1)
        self.keep(2)
        self.loop.do_what_is_due()
        self.assertEqual([done.refused for _, done in self.kept], [{2: "why"}, {2: "why"}])
        self.assertEqual((self.counters.rows, self.counters.failed), (1, 1))

    def test_where_nobody_knows_that_is_told_and_the_next_is_written(self) -> None:
        self.writer.fault = UnknownOutcome("broken")
        self.keep(1)
        self.loop.do_what_is_due()
        self.assertEqual([done.fault for _, done in self.kept], [self.writer.fault])
        self.fail_all.assert_not_called()
        self.writer.fault, self.kept = None, []
        self.keep(2)
        self.assertEqual(self.told(), [2])

    def test_a_fault_ends_all_and_nothing_is_told(self) -> None:
        self.writer.fault = OSError("full")
        self.keep(1)
        self.assertEqual(self.told(), [])
        self.fail_all.assert_called_once_with(self.writer.fault)
        self.commits.is_over = True
        self.keep(2)
        self.assertEqual((self.told(), self.writer.commits), ([], [[1]]))

    def test_files_that_are_gone_end_all(self) -> None:
        """Once a second, while no commit sees it."""
        self.writer.fault = Gone("gone")
        self.commits.look()
        self.fail_all.assert_called_once_with(self.writer.fault)

    def test_a_journal_that_is_held_is_told_now_and_then(self) -> None:
        self.commits.expected.add("another")
        self.writer.is_quick = False
        self.writer.may_answer.clear()
        self.keep(1)
        self.told()
        for seconds, times in ((0.5, 0), (0.6, 1), (0.5, 1), (0.6, 2)):
            self.loop.now += seconds
            self.commits.look()
            self.assertEqual(self.events.tell.call_count, times)
        self.writer.may_answer.set()
        self.wait_for_the_thread()
