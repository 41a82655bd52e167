"""How a journal is asked: at once, or where that may take long by a thread, so that clients are heard meanwhile."""
from __future__ import annotations

import contextlib
import os
import queue
import threading
import time
from collections import deque
from typing import Callable, Generic, Iterator, Protocol, TypeVar

from nrm import Stop
from nrm.journal.networks import rows_of
from nrm.journal.stores import Store, Tables
from nrm.server.event_log import Events
from nrm.server.loop import READ, Loop

PAUSE = 0.1  # the seconds before the journal is asked again, after its connection was lost or it refused to answer
MOST_REFUSED = 10.0  # seconds for which it may refuse
PIECES_AHEAD = 32  # of rows that are read before the program takes them
Subject = TypeVar("Subject")
Given = TypeVar("Given")


class Worker(threading.Thread, Generic[Subject]):
    """A thread that has something for itself, and does one thing after the other with it. What comes of each is told in
    the loop, which a byte in a pipe wakes."""

    def __init__(self, loop: Loop, subject: Subject) -> None:
        super().__init__(daemon=True)
        self.loop, self.subject = loop, subject
        self.asked: queue.SimpleQueue[Callable[[], None] | None] = queue.SimpleQueue()
        self.done: queue.SimpleQueue[Callable[[], None]] = queue.SimpleQueue()
        self.told, self.tells = os.pipe2(os.O_CLOEXEC | os.O_NONBLOCK)
        loop.want(self.told, READ, self.carry_on)
        self.start()

    def ask(self, work: Callable[[Subject], Given], then: Callable[[Given | None, Exception | None], None]) -> None:
        """Has something done, and then told in the loop what it gave, or what went wrong."""
        def do() -> None:
            try:
                given = work(self.subject)
            except Exception as why:
                fault = why
                self.done.put(lambda: then(None, fault))
            else:
                self.done.put(lambda: then(given, None))

        self.asked.put(do)

    def run(self) -> None:
        while do := self.asked.get():
            do()
            with contextlib.suppress(BlockingIOError):  # a full pipe wakes the loop as well
                os.write(self.tells, b".")

    def carry_on(self, _: int) -> None:
        """Tells what has been done."""
        with contextlib.suppress(BlockingIOError):
            os.read(self.told, 65_536)
        with contextlib.suppress(queue.Empty):
            while True:
                self.done.get_nowait()()

    def end(self, seconds: float) -> bool:
        """Ends once all is done that was asked, or doesn't within some seconds; gives whether it did."""
        self.asked.put(None)
        self.join(seconds)
        return not self.is_alive()


class Asker(Protocol):
    """Who is asked what the journal has."""

    def ask(self, work: Callable[[Tables], Given], then: Callable[[Given], None]) -> None:
        """Has the tables asked something that does no harm twice, and tells what they gave."""

    def rows(self, network: int, lines: int | None, wake: Callable[[], None], history: str | None,
             spoilt: Callable[[Exception], None]) -> Iterator[bytes]:
        """The rows of a network, in pieces that a frame takes: so many lines, or for now all that are there. An empty
        piece is none yet: then `wake` is called when there is one. If they are of another past than they must be,
        `spoilt` is called with that fault."""


class AtOnce:
    """Who is asked by the loop itself: a file answers soon."""

    def __init__(self, tables: Tables) -> None:
        self.tables = tables

    def ask(self, work: Callable[[Tables], Given], then: Callable[[Given], None]) -> None:
        """Asks the tables, and tells what they gave."""
        then(work(self.tables))

    def rows(self, network: int, lines: int | None, wake: Callable[[], None], history: str | None,
             spoilt: Callable[[Exception], None]) -> Iterator[bytes]:
        """The rows of a network."""
        return rows_of(self.tables, network)


class ByThread:
    """Who is asked by a thread, again and again until the journal is reached. If the database refuses, as for a right
    that was taken away, it is asked again for some seconds, and then all fails here, so that others take over."""

    def __init__(self, loop: Loop, events: Events, fail: Callable[[Exception], None], tables: Tables) -> None:
        self.loop, self.events, self.fail, self.faults = loop, events, fail, tables.faults
        self.worker = Worker(loop, tables)
        self.is_over = False

    def ask(self, work: Callable[[Tables], Given], then: Callable[[Given], None], since: float | None = None) -> None:
        """Has the tables asked, and tells what they gave. `since` is when they first refused, if they did."""
        def tell(given: Given | None, fault: Exception | None) -> None:
            if fault and isinstance(fault, self.faults):
                now = self.loop.now
                self.refused(fault, now if since is None else since, lambda first: self.ask(work, then, first))
            elif fault:
                raise fault
            else:
                then(given)  # type: ignore[arg-type]  # what a work without a fault has given

        self.worker.ask(lambda tables: self.answer(tables, work), tell)

    def refused(self, fault: Exception, since: float, again: Callable[[float], None]) -> None:
        """Logs what the database refuses since some time, and asks again, or ends all."""
        now = self.loop.now
        self.events.tell("database", why=" ".join(str(fault).split()))
        if now - since > MOST_REFUSED:
            self.fail(fault)
        else:
            self.loop.call_at(now + PAUSE, lambda: again(since))

    def answer(self, tables: Tables, work: Callable[[Tables], Given]) -> Given:
        """What the tables give, once they are reached."""
        while True:
            try:
                return work(tables)
            except tables.lost:
                if self.is_over:
                    raise
                time.sleep(PAUSE)

    def rows(self, network: int, lines: int | None, wake: Callable[[], None], history: str | None,
             spoilt: Callable[[Exception], None]) -> Feed:
        """The rows of a network, which are read ahead."""
        return Feed(self, network, lines, wake, history, spoilt)

    def close(self) -> None:
        """Asks no more."""
        self.is_over = True
        self.worker.end(0)


class Feed:
    """The rows of a network, read ahead by a thread: up to a count of lines, or while that isn't known those that are
    there, of which `more` are read when it is said that they are.

    history    the past of the database that rows must be of, once that is known
    histories  those of all rows that were read
    """

    def __init__(self, asker: ByThread, network: int, lines: int | None, wake: Callable[[], None],
                 history: str | None, spoilt: Callable[[Exception], None]) -> None:
        self.asker, self.network, self.lines, self.wake = asker, network, lines, wake
        self.history, self.spoilt = history, spoilt
        self.pieces: deque[bytes] = deque()
        self.read = 0  # the number of the last row that was read
        self.given = 0  # how many rows the program was given
        self.there = lines or 0  # how many are known to be there
        self.before = 0  # and how many were by the count before that
        self.is_asked = self.is_over = False
        self.histories: set[str] = set()
        self.go_on()

    def __iter__(self) -> Feed:
        return self

    def __next__(self) -> bytes:
        """The next piece, or an empty one."""
        if self.pieces:
            piece = self.pieces.popleft()
            self.given += piece.count(b"\n")
            self.go_on()
            return piece
        if self.is_over or self.lines is not None and self.read >= self.lines:
            raise StopIteration
        self.go_on()
        return b""

    def more(self, there: int, is_all: bool = False) -> None:
        """So many lines are there, and if that is said they are all."""
        self.before, self.there = self.there or there, max(self.there, there)
        if is_all:
            self.lines = there
        self.go_on()
        self.wake()

    def keeps_up(self, behind: int) -> bool:
        """Whether the program lacks at most so many rows, or only rows that the count before didn't have: a network at
        work always has such rows, and perhaps many."""
        return self.given >= min(self.before, self.there - behind)

    def go_on(self) -> None:
        """Has the next rows read, if there are some and few wait."""
        if self.is_asked or self.is_over or self.read >= self.there or len(self.pieces) >= PIECES_AHEAD:
            return
        self.is_asked = True
        network, after, most = self.network, self.read, self.there
        self.asker.ask(lambda tables: tables.read_after(network, after, most), self.take)

    def take(self, given: tuple[str, int, list[bytes]]) -> None:
        """Rows were read. Where there are fewer than were counted no more come, as the program will see."""
        self.is_asked = False
        history, last, pieces = given
        if self.is_over:
            return
        self.histories.add(history)
        if self.history is not None and history != self.history:
            self.close()
            self.spoilt(Stop("its rows were read from a database that isn't the one any more"))
            return
        self.is_over = self.is_over or not pieces
        self.read = last
        self.pieces.extend(pieces)
        self.go_on()
        self.wake()

    def close(self) -> None:
        """Reads no more."""
        self.is_over = True
        self.pieces.clear()


class Journal:
    """The journal of a server, and who asks it: `asker` what it has, and `changer` for changes that aren't rows, which
    may have to wait until nobody else writes. `tables` are for what a file answers soon."""

    def __init__(self, store: Store, loop: Loop, events: Events, fail: Callable[[Exception], None]) -> None:
        self.store, self.tables = store, store.opened()
        self.changer = ByThread(loop, events, fail, store.opened())
        self.asker: Asker = AtOnce(self.tables)
        if store.is_shared:
            self.asker = self.changer

    def close(self) -> None:
        """Asks no more."""
        self.changer.close()
        self.tables.close()
