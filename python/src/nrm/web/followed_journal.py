"""The journal as it grows: looked at a few times a second, and read where it has grown at most once a second.

One thread reads, by one connection that can only read. What others see are values that are made anew and never changed.
"""
from __future__ import annotations

import threading
import time
from dataclasses import dataclass, field, replace
from typing import Callable, Mapping

from nrm import Stop
from nrm.journal.choosing_store import using
from nrm.journal.networks import file_of, network_in, networks_in
from nrm.journal.stores import Opened, Tables
from nrm.network import Network, rows_of
from nrm.web.network_counts import CountedBooking, CountedNetwork, Counts, JournalRow, StrangeRow

LOOKS_EVERY = 0.1  # seconds: whether anybody has written
READS_EVERY = 1.0
ROWS_AT_ONCE = 2000
ROWS_A_ROUND = 50_000  # of one network, before the others have their turn
COLUMNS = "number, at, desk, line, reply"


@dataclass(frozen=True)
class Followed:
    """A network of the journal, as far as it is read."""
    number: int
    name: str
    mode: str
    is_ended: bool
    halted: str | None
    lines: int
    fault: str | None = None  # why no further rows are read
    seen: CountedNetwork = field(default_factory=CountedNetwork)
    is_frozen: bool = False

    @property
    def state(self) -> str:
        """What became of it, in words."""
        if self.halted:
            return f"halted: {self.halted}"
        return self.fault or ("ended" if self.is_ended else "frozen" if self.is_frozen else "open")


class Following:
    """All networks of a journal, as far as they are read."""

    def __init__(self, path: str) -> None:
        self.path = path
        self.changed = threading.Condition()
        self.round = 0  # how often something new was seen
        self.turns = 0  # how often the thread that reads has come round, or to a network
        self.networks: Mapping[str, Followed] = {}
        self.counts: dict[int, Counts] = {}
        self.begun: set[int] = set()  # the networks that are read by this connection
        self.fault: str | None = None  # why the journal can't be read
        self.version = -1
        self.read_at = float("-inf")
        self.is_behind = False

    # By the thread that reads

    def follow(self, is_over: threading.Event, besides: Callable[[], None] = lambda: None) -> None:
        """Reads until it is told that all is over; if the journal can't be read it tries again each second."""
        while not is_over.is_set():
            self.turns += 1
            try:
                with using(self.path) as connection:
                    self.begin_anew()
                    while not is_over.wait(LOOKS_EVERY):
                        self.turns += 1
                        self.look(connection)
                        besides()
            except Stop as stop:
                self.show(self.networks, str(stop))
                is_over.wait(READS_EVERY)

    def begin_anew(self) -> None:
        """Counts nothing that was read by an earlier connection: the journal may have lost lines since."""
        self.version, self.counts, self.begun, self.read_at = -1, {}, set(), float("-inf")

    def look(self, connection: Tables, now: float | None = None) -> None:
        """Reads what is new, if the file has changed and the last time is a second ago."""
        now = time.monotonic() if now is None else now
        if now - self.read_at < READS_EVERY and not self.is_behind:
            return
        version = connection.version()
        if version == self.version and not self.is_behind:
            return
        self.version, self.read_at = version, now
        self.read(connection)

    def read(self, connection: Tables) -> None:
        """Reads what is new of each network."""
        before, made = self.networks, {}
        self.is_behind = False
        for it in networks_in(connection):
            old = before.get(it.name) if it.number in self.begun else None
            self.begun.add(it.number)
            made[it.name] = old if old and is_same(old, it) else self.further(connection, it, old)
            self.is_behind |= not made[it.name].fault and made[it.name].seen.lines < it.lines
        self.show(made, None)

    def further(self, connection: Tables, opened: Opened, old: Followed | None) -> Followed:
        """A network with its next rows."""
        self.turns += 1
        made = Followed(opened.number, opened.name, opened.mode, opened.is_ended, opened.halted, opened.lines,
                        old.fault if old else None, old.seen if old else CountedNetwork(), opened.is_frozen)
        if made.fault:
            return made
        try:
            counts = self.counts_of(connection, opened.number)
            take_rows(connection, opened, counts)
        except StrangeRow as strange:
            return replace(made, fault=str(strange), seen=counts.seen())
        except (ValueError, LookupError):
            return replace(made, fault="its network file isn't one that can be read here")
        return replace(made, seen=counts.seen())

    def counts_of(self, connection: Tables, network: int) -> Counts:
        """The counts of a network, which begin with its file."""
        if network not in self.counts:
            self.counts[network] = Counts(Network.of(rows_of(file_of(connection, network))))
        return self.counts[network]

    def show(self, networks: Mapping[str, Followed], fault: str | None) -> None:
        """Shows the others what was read."""
        with self.changed:
            if fault != self.fault or any(networks[it] is not self.networks.get(it) for it in networks):
                self.round += 1
                self.networks, self.fault = networks, fault
                self.changed.notify_all()

    # By others

    def tell_of_news(self) -> None:
        """Wakes those that wait: there is something new beside the journal."""
        with self.changed:
            self.round += 1
            self.changed.notify_all()

    def wait_for_news(self, behind: int, seconds: float) -> int:
        """Waits until more was seen than in a round, or so long. Gives the round."""
        with self.changed:
            self.changed.wait_for(lambda: self.round > behind, seconds)
            return self.round

    def caught_up(self, name: str, seconds: float) -> Followed | None:
        """A network once all lines are read that the journal has now, or so long was waited; None if it has none of
        this name."""
        with using(self.path) as connection:
            opened = network_in(connection, name)
        if not opened:
            return None
        lines = opened.lines
        with self.changed:
            self.changed.wait_for(lambda: self.is_read(name, lines), seconds)
            return self.networks.get(name, Followed(opened.number, name, opened.mode, False, None, lines))

    def is_read(self, name: str, lines: int) -> bool:
        """Whether so many lines of a network are read, or no more will be."""
        found = self.networks.get(name)
        return found is not None and (found.fault is not None or found.seen.lines >= lines)

    def booking(self, network: Followed, number: int) -> CountedBooking | None:
        """A booking of a network, as far as the journal is read."""
        counts = self.counts.get(network.number)
        return counts.booking(number) if counts else None


def is_same(old: Followed, now: Opened) -> bool:
    """Whether nothing of a network is new."""
    return (old.is_ended, old.is_frozen, old.halted, old.lines) == \
        (now.is_ended, now.is_frozen, now.halted, now.lines) and \
        (bool(old.fault) or old.seen.lines == now.lines)


def take_rows(connection: Tables, opened: Opened, counts: Counts) -> None:
    """Takes the next rows of a network, a limited number."""
    for _ in range(ROWS_A_ROUND // ROWS_AT_ONCE):
        rows = connection.execute(f"SELECT {COLUMNS} FROM line WHERE network = ? AND number > ? ORDER BY number "
                                  "LIMIT ?", [opened.number, counts.lines, ROWS_AT_ONCE]).fetchall()
        for row in rows:
            counts.take(JournalRow(*row))
        if counts.lines >= opened.lines:
            return
        if not rows:
            raise StrangeRow(f"row {counts.lines + 1} is missing: the journal counts {opened.lines} lines")
