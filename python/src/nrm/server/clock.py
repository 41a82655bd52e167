"""The clock of a server: when a period of a network has begun, it has a plan made for it, as the desk CLOCK.

What was asked for is seen in the journal alone, so nothing is sent twice, and what another desk sent isn't sent again.
When each network is to be looked at next is kept here, so that a second costs next to nothing: all are looked at anew
if another process has written the journal, which may have set other times, and if the clock of the machine went back.
"""
from __future__ import annotations

import contextlib
import heapq
import time
from dataclasses import dataclass
from typing import Callable, Iterable, Iterator

from nrm.journal.networks import network_in
from nrm.journal.plans_due import Standing, missed, standings
from nrm.journal.stores import Tables
from nrm.server.access import CLOCK
from nrm.server.arrivals import Arrivals
from nrm.server.event_log import Events
from nrm.server.group_commit import GroupCommit
from nrm.server.loop import Loop
from nrm.server.own_client import Own
from nrm.server.plan_outcome import PlanOutcome, outcome_of

AT_ONCE = 4  # networks for which plans are made at a time
PAUSE = 60.0  # the seconds before it is tried again
MOST_SKIPPED = 5  # seconds in which rows were being written, before all are looked at all the same


@dataclass(frozen=True)
class AskedPlan:
    """What was sent for a network: where it stood, the periods that were left out, and when."""
    standing: Standing
    missed: list[int]
    since: float


class Clock:
    """Sends `reoptimise K` to each network whose period K has begun, once, and if it is so wanted every so often.

    tables  the journal, as it is read
    every   the seconds after which the plan is made anew, if lines were written since; 0 for never
    time    the seconds since 1970 began
    """

    def __init__(self, loop: Loop, events: Events, tables: Tables, commits: GroupCommit, arrivals: Arrivals,
                 every: int = 0, time: Callable[[], float] = time.time) -> None:
        self.loop, self.events, self.tables, self.commits, self.arrivals = loop, events, tables, commits, arrivals
        self.every, self.time = 1000 * every, time
        self.now = 0
        self.version = self.rows_version = -1  # of the journal, as others and as all have written it
        self.skipped = 0
        self.is_to_look = True  # at all
        self.when: dict[int, int] = {}  # each network is to be looked at
        self.next: list[tuple[int, int]] = []  # a heap of the same, in which there may be more
        self.due: set[int] = set()
        self.quiet: dict[int, int] = {}  # networks without lines since the last plan, and how many these are
        self.asked: dict[int, AskedPlan] = {}
        self.again: dict[int, float] = {}  # when it may be tried again, by the loop's clock
        self.given_up: dict[int, int] = {}  # the period that has no plan
        loop.looks.append(self.look)

    # Once a second

    def look(self) -> None:
        """Finds the networks that are due, and has plans made."""
        if self.loop.is_ending or not self.arrivals.owning.may_read():
            return
        before, self.now = self.now, int(1000 * self.time())
        with self.reading():
            if self.now < before or self.is_changed():
                self.look_at_all()
            else:
                self.look_at_some()
            self.ask_some()

    @contextlib.contextmanager
    def reading(self) -> Iterator[None]:
        """Where the journal can't be read that is told, and all is looked at in the next second."""
        try:
            yield
        except self.tables.faults as fault:
            self.is_to_look = True
            self.events.tell("clock-failed", why=str(fault))

    def is_changed(self) -> bool:
        """Whether another process has written the journal. The writer tells it, to which its own rows are no change; it
        isn't asked while it writes, but then all are looked at after some seconds."""
        self.skipped += 1
        is_changed = self.is_to_look or self.skipped > MOST_SKIPPED
        if not self.commits.in_writing:
            before, self.version, self.skipped = self.version, self.commits.writer.version(), 0
            is_changed = is_changed or self.version != before
        return is_changed

    def look_at_all(self) -> None:
        """Looks at each network that has times."""
        self.is_to_look, self.skipped = False, 0
        self.when, self.next, self.due, self.quiet = {}, [], set(), {}
        for it in standings(self.tables, self.now, self.every):
            self.place(it)

    def look_at_some(self) -> None:
        """Looks at the networks whose time has come, and at those that were quiet and have lines now."""
        while self.next and self.next[0][0] <= self.now:
            when, network = heapq.heappop(self.next)
            if self.when.get(network) == when:
                self.look_at(network)
        version = self.tables.version() if self.quiet else self.rows_version
        if version != self.rows_version:
            self.rows_version = version
            grown = [number for number, lines in self.tables.execute("SELECT network, lines FROM head")
                     if lines > self.quiet.get(number, lines)]
            for network in grown:
                self.look_at(network)

    def look_at(self, network: int) -> Standing | None:
        """Looks at a network, and gives where it stands if it is due."""
        self.due.discard(network)
        self.when.pop(network, None)
        self.quiet.pop(network, None)
        found = standings(self.tables, self.now, self.every, network)
        for it in found:
            self.place(it)
        return found[0] if network in self.due else None

    def place(self, standing: Standing) -> None:
        """Has a network be looked at when it is due, or asked if it is."""
        network = standing.network
        if self.every and standing.lines <= standing.last:
            self.quiet[network] = standing.lines
        when = self.due_at(standing)
        if when is None or network in self.asked:
            return
        if when <= self.now:
            self.due.add(network)
        else:
            self.when[network] = when
            heapq.heappush(self.next, (when, network))

    def due_at(self, standing: Standing) -> int | None:
        """When a plan is to be made for a network next, if that is known: not soon after it failed, nor for a period
        for which there is none."""
        when = standing.due_at(self.every)
        if when is not None and self.given_up.get(standing.network) == standing.period and when <= self.now:
            when = standing.next_at
        pause = self.again.get(standing.network, 0) - self.loop.now
        return max(when, self.now + int(1000 * pause)) if when is not None and pause > 0 else when

    # What is sent

    def ask_some(self) -> None:
        """Has plans made for networks that are due, a few at a time."""
        while self.due and self.has_room():
            standing = self.look_at(self.due.pop())
            if not standing:
                continue
            self.due.remove(standing.network)
            network = network_in(self.tables, standing.name)
            if network and not network.ended and not network.halted and self.arrivals.is_answered(network):
                self.ask(standing)

    def has_room(self) -> bool:
        """Whether few are being asked; those that take long don't count, so that others don't wait for them."""
        return sum(self.loop.now - it.since < PAUSE for it in self.asked.values()) < AT_ONCE

    def ask(self, standing: Standing) -> None:
        """Asks for a plan, with a look before and behind it."""
        own = Own(self.arrivals.reception, CLOCK, lambda own, why: self.over(standing.network, own, why))
        left_out = missed(self.tables, standing, self.now)
        self.asked[standing.network] = AskedPlan(standing, left_out, self.loop.now)
        self.arrivals.clients.add(own)
        own.enter(standing.name, f"desk {CLOCK.name}\nplan\nreoptimise {standing.period}\nplan\n".encode())

    def over(self, network: int, own: Own, why: str | None) -> None:
        """Tells what became of it, and goes on."""
        asked = self.asked.pop(network)
        if self.loop.is_ending:
            return
        self.settle(asked, outcome_of(own.told, why))
        with self.reading():
            self.look_at(network)
            self.ask_some()

    def settle(self, asked: AskedPlan, outcome: PlanOutcome) -> None:
        """Tells what became of a plan; one that failed is tried again, unless it would fail again."""
        network, name, period = asked.standing.network, asked.standing.name, asked.standing.period
        is_again = outcome.fault is not None and not outcome.fails_again
        if is_again:
            self.again[network] = self.loop.now + PAUSE
        else:
            self.again.pop(network, None)
        if outcome.fails_again:
            self.given_up[network] = period
        if outcome.fault:
            self.events.tell("clock-failed", network=name, period=period, why=outcome.fault,
                                  again=f"{PAUSE:g}" if is_again else "no")
            return
        if asked.missed:
            self.events.tell("clock-missed", network=name, periods=joined(asked.missed))
        self.events.tell("clock", network=name, period=period, seconds=outcome.seconds, value=outcome.value,
                              changed="unknown" if outcome.changed is None else joined(outcome.changed))


def joined(words: Iterable[object]) -> str:
    """Words as one, with a comma between each two."""
    return ",".join(map(str, words)) or "none"
