"""What is written: the rows of all programs that wait go into one commit, and those that come meanwhile into the next.
"""
from __future__ import annotations

from dataclasses import dataclass
from typing import Callable, Sequence

from nrm.journal.commits import Commits, Written, tried
from nrm.journal.stores import Given, Gone, UnknownOutcome, Writer
from nrm.server.counters import Counters
from nrm.server.event_log import Events
from nrm.server.loop import READ, Loop

FEW_BYTES = 2_000  # of rows in a commit
# the most seconds, up to half of what the last commit took, for which those who were just answered are waited for; and
# what that commit must have taken
GATHER, TO_GATHER = 0.003, 0.002


@dataclass(frozen=True)
class RowsToKeep:
    """Rows, the session that gave them out, and what is called with them and what became of their commit."""
    session: object
    given: Given
    then: Callable[[Given, Written], None]


class GroupCommit:
    """Has rows written by a thread, or at once where that keeps nobody waiting.

    slow  the seconds for which another process may hold the journal before that is told
    fail  ends all, since nothing more can be written
    done  what is called once a commit is done and the next has begun
    """

    def __init__(self, loop: Loop, events: Events, counters: Counters, writer: Writer, slow: float,
                 fail: Callable[[Exception], None]) -> None:
        self.loop, self.events, self.counters, self.writer, self.slow = loop, events, counters, writer, slow
        self.fail = fail
        self.done: list[Callable[[], None]] = []
        self.thread = Commits(writer)
        self.thread.start()
        loop.want(self.thread.told, READ, lambda _: self.carry_on(self.thread.next()))
        self.waiting: list[RowsToKeep] = []
        self.in_writing: list[RowsToKeep] = []
        self.writes_since = self.held_since = self.gathers_until = loop.now
        self.took = 0.0  # the seconds of the last commit
        self.gather = 0.0  # the seconds for which those who were just answered are waited for
        self.expected: set[object] = set()  # sessions that were given lines, and have given out no rows since
        self.is_over = False

    def keep(self, rows: RowsToKeep) -> None:
        """Has rows written with all others that wait."""
        self.waiting.append(rows)
        if not self.in_writing:
            self.loop.soon.append(self.write)

    def drop(self, session: object) -> None:
        """Forgets the rows of a session that wait."""
        self.waiting = [it for it in self.waiting if it.session is not session]

    def is_writing(self, session: object) -> bool:
        """Whether rows of a session are being written."""
        return any(it.session is session for it in self.in_writing)

    def count_of_rows(self) -> int:
        """The rows that wait or are being written."""
        return sum(it.given.count() for it in [*self.in_writing, *self.waiting])

    def write(self) -> None:
        """Writes the rows that wait, of all networks, in one commit."""
        if self.in_writing or not self.waiting or self.is_over:
            return
        if self.expected and self.loop.now < self.gathers_until:
            self.loop.call_at(self.gathers_until, self.write)
            return
        self.in_writing, self.waiting, self.writes_since = self.waiting, [], self.loop.now
        given = [it.given for it in self.in_writing]
        if self.is_soon_done(given) and (done := tried(self.writer, given)):
            self.loop.look_at_the_clock()
            self.carry_on(done)
        else:
            self.thread.asked.put(given)

    def is_soon_done(self, given: Sequence[Given]) -> bool:
        """Whether no other thread is asked to write rows, since that keeps nobody waiting for long: few rows, of one
        program alone, or while no other is at work and the disk was quick."""
        is_alone = self.writer.is_quick and self.counters.running() == 1 or not self.expected and self.took < TO_GATHER
        return is_alone and sum(len(it.rows) for it in given) < FEW_BYTES

    def carry_on(self, done: Written) -> None:
        """A commit is done: those who gave the rows are told, and the next is made."""
        written, self.in_writing = self.in_writing, []
        rows = 0 if done.fault else sum(it.count() for it in done.given if it.network not in done.refused)
        self.counters.commit(done.seconds, rows, not (done.fault or done.refused))
        if done.fault and not isinstance(done.fault, UnknownOutcome):
            self.fail(done.fault)
            return
        are_few = sum(len(it.rows) for it in done.given) < FEW_BYTES  # many are gathered as it is
        self.took = self.loop.now - self.writes_since
        self.gather = min(self.took / 2, GATHER) if are_few and self.took > TO_GATHER else 0
        self.gathers_until = self.loop.now + 2 * self.gather
        for it in written:
            it.then(it.given, done)
        self.write()
        for do in self.done:
            do()

    def look(self) -> None:
        """Ends all if the journal's files aren't those any more that were opened. Tells, now and then, that another
        process holds the journal: nothing is answered until it lets go."""
        try:
            if not self.in_writing:  # else the commit sees it
                self.writer.look()
        except Gone as fault:
            self.fail(fault)
        now = self.loop.now
        if self.in_writing and now - max(self.writes_since, self.held_since) > self.slow:
            self.events.tell("journal-held", seconds=now - self.writes_since)
            self.held_since = now

    def end(self) -> None:
        """Writes what was begun, and then no more."""
        self.thread.asked.put(None)
        self.thread.join(self.slow)

    def close(self) -> None:
        """Ends the writing, unless it still goes on."""
        if not self.thread.is_alive():
            self.writer.close()
