"""Which program runs: the session of each network, when its program begins, and what ends it."""
from __future__ import annotations

import contextlib
import errno
import math
import os
from dataclasses import dataclass, field, replace
from typing import Callable, Iterator

from nrm import Stop
from nrm.journal.networks import file_of, network_in
from nrm.journal.stores import Opened, Tables
from nrm.program import Program
from nrm.server.clients import Client, ClientLimits
from nrm.server.counters import Counters
from nrm.server.event_log import Events
from nrm.server.group_commit import GroupCommit
from nrm.server.journal_asking import Journal
from nrm.server.loop import Loop
from nrm.server.sessions import ANSWERS, BEGINS, FOLLOWS, RESTS, WAITS, Session

BEGIN_AT_ONCE = 2  # programs that are given their journals at a time, so that others are answered meanwhile


@dataclass(frozen=True)
class Answering:
    """The program that answers, its SHA-256, and whether it was named for networks that began with another."""
    program: Program
    checksum: str
    is_said: bool

    def checksum_now(self) -> str:
        """The SHA-256 of the file that would be run now, which may be another by now; an OSError if there is none."""
        try:
            return self.program.checksum()
        except Stop:
            raise FileNotFoundError(errno.ENOENT, os.strerror(errno.ENOENT))


@dataclass(frozen=True)
class Owned:
    """The networks that this server has: all by one epoch, or each by that of a taking that was acknowledged, if nobody
    else was seen to have it since; and the pasts of the database that these are in."""
    of_all: int | None
    epochs: dict[int, int] = field(default_factory=dict)
    histories: dict[int, str] = field(default_factory=dict)

    def epoch_of(self, network: int) -> int | None:
        """The epoch by which this server has a network, if it has it."""
        return self.epochs.get(network, self.of_all)


class Programs:
    """The sessions of networks, by name, and their programs. `at_halt` and `at_loss` are called as each session says,
    `at_end` once a program has ended, and `at_unfit` where the program isn't the one any more that the server began
    with, for why clients are turned away."""

    def __init__(self, loop: Loop, events: Events, counters: Counters, limits: ClientLimits, answering: Answering,
                 journal: Journal, owned: Owned, commits: GroupCommit, at_halt: Callable[[Session, int, str], None],
                 at_loss: Callable[[Session, Exception | None], None], at_unfit: Callable[[], str],
                 at_end: Callable[[], None]) -> None:
        self.loop, self.events, self.counters, self.limits = loop, events, counters, limits
        self.answering, self.journal, self.owned, self.commits = answering, journal, owned, commits
        self.at_halt, self.at_loss, self.at_unfit, self.at_end = at_halt, at_loss, at_unfit, at_end
        self.sessions: dict[str, Session] = {}
        self.to_begin: list[Session] = []
        self.reading: list[Session] = []  # whose network files are being read
        commits.done.append(self.begin_some)

    def session_for(self, network: Opened) -> Session:
        """The session of a network, which is made if nobody came to it before."""
        made = Session(self.loop, self.events, self.commits, network, self.at_halt, self.at_loss, self.over)
        return self.sessions.setdefault(network.name, made)

    def forget(self, session: Session) -> None:
        """The network isn't in the journal any more."""
        self.sessions.pop(session.network.name, None)

    def fits(self, network: Opened) -> bool:
        """Whether this program may answer for a network. Where servers share the journal that must have begun with it,
        since by that they decide whose a network is."""
        is_named = self.answering.is_said and not self.journal.store.is_shared
        is_free = is_named and (network.is_ended or not network.lines)
        return network.program == self.answering.checksum or is_free

    # How one begins

    def enter(self, session: Session, client: Client, data: bytes) -> None:
        """Takes a client to a session, whose program begins if it doesn't run."""
        if session.enter(client, data):
            self.to_begin.append(session)
            self.loop.soon.append(self.begin_some)

    def begin_some(self) -> None:
        """Begins programs, as many as may at a time; none whose rows are still being written."""
        if self.loop.is_ending:
            return
        at_work = sum(it.state == BEGINS for it in self.sessions.values()) + len(self.reading)
        for session in [*self.to_begin]:
            is_due = session.begins_at <= self.loop.now and not self.commits.is_writing(session)
            if at_work < BEGIN_AT_ONCE and is_due:
                self.to_begin.remove(session)
                self.start(session)
                at_work += 1

    def start(self, session: Session) -> None:
        """Reads what the journal has of a network whose program is to begin."""
        name = session.network.name

        def read(tables: Tables) -> tuple[Opened, bytes] | None:
            network = network_in(tables, name)
            return (network, file_of(tables, network.number)) if network else None

        def has_read(found: tuple[Opened, bytes] | None) -> None:
            self.reading.remove(session)
            if found:
                self.start_on(session, *found)
            elif session.state == WAITS:
                self.turn_away(session, "network")

        self.reading.append(session)
        self.journal.asker.ask(read, has_read)

    def start_on(self, session: Session, network: Opened, file: bytes) -> None:
        """Begins a program on what the journal has of its network, if that is still this server's."""
        if self.loop.is_ending or session.state != WAITS:
            return
        session.network = network
        if network.epoch != self.owned.epoch_of(network.number):
            self.at_loss(session, None)
            session.lose("wait")
            return
        try:
            is_fit = self.is_as_it_was(network)
        except OSError as fault:
            self.tell_of_none(session, fault)
            return
        if not is_fit:
            self.turn_away(session, self.at_unfit())
            return
        if not network.lines and network.program != self.answering.checksum:
            adopted = replace(network, program=self.answering.checksum)
            self.journal.changer.ask(lambda _: self.journal.store.answer_by(adopted.number, adopted.program),
                                     lambda _: self.start_on(session, adopted, file))
            return
        history = self.owned.histories.get(network.number)
        rows = self.journal.asker.rows(network.number, network.lines, session.flush, history,
                                       lambda fault: self.at_loss(session, fault))
        self.run_program(session, file, rows, BEGINS)

    def follow(self, session: Session, network: Opened, file: bytes, rows: Iterator[bytes]) -> bool:
        """Begins a program that follows what becomes part of a network's journal; gives whether it did."""
        session.network = network
        with contextlib.suppress(OSError):
            return self.is_as_it_was(network) and self.run_program(session, file, rows, FOLLOWS)
        return False

    def run_program(self, session: Session, file: bytes, rows: Iterator[bytes], state: int) -> bool:
        """Begins a program; gives whether it did."""
        try:
            session.start(self.answering.program.words, file, rows, state)
        except OSError as fault:
            self.tell_of_none(session, fault)
            return False
        self.counters.begun += 1
        return True

    def is_as_it_was(self, network: Opened) -> bool:
        """Whether the program is still the one that this server began with; another one in its place answers
        nothing."""
        now = self.answering.checksum_now()
        if now != self.answering.checksum:
            self.events.tell("version", network=network.name, began=network.program, answers=now)
        return now == self.answering.checksum

    def tell_of_none(self, session: Session, fault: OSError) -> None:
        """There is no program that could begin."""
        self.events.tell("program-ended", network=session.network.name, status=1,
                         told=f"{self.answering.program.words[0]}: {fault.strerror}")
        self.turn_away(session, "program 1")

    def turn_away(self, session: Session, why: str) -> None:
        """Has no program begin, and tells those who wait for it; they may come again in a second."""
        session.state, session.begins_at = RESTS, self.loop.now + 1
        session.tell_all(why, False)

    # How one ends

    def over(self, session: Session) -> None:
        """A program has ended: one that was to end begins anew if somebody waits, and others may begin."""
        self.counters.ended += 1
        self.commits.drop(session)
        if session.coming and not self.loop.is_ending:
            session.state = WAITS
            self.to_begin.append(session)
        self.begin_some()
        self.at_end()

    def look(self) -> None:
        """Ends programs that are silent for too long, or that have no clients, and begins others."""
        for session in self.sessions.values():
            session.silent += 1 if session.is_asked() else 0
            if session.silent == math.ceil(self.limits.answer) + 1:
                self.events.tell("silent", network=session.network.name, seconds=self.limits.answer)
                session.kill()
            is_left = session.state == ANSWERS and not session.places
            if is_left and self.loop.now - session.rests_since > self.limits.linger:
                session.end()
        self.begin_some()

    def have_ended(self) -> bool:
        """Ends those that nobody asks any more; gives whether none is left."""
        for session in self.sessions.values():
            if not session.places:
                session.end()
            if session.state == FOLLOWS:
                session.kill()
        return all(it.process is None for it in self.sessions.values())
