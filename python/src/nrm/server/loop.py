"""The one loop: who is called when a file can be read or written, and what is done once all have been called."""
from __future__ import annotations

import heapq
import select
import time
from typing import Callable

READ, WRITE = select.EPOLLIN, select.EPOLLOUT
LEFT = select.EPOLLRDHUP  # the other side has ended, whatever is still to be read
Call = Callable[[int], None]


class Loop:
    """Calls those whose files are ready, with what they are ready for, until it is told to end."""

    def __init__(self) -> None:
        self.poll = select.epoll()
        self.calls: dict[int, Call] = {}
        self.wanted: dict[int, int] = {}
        self.soon: list[Callable[[], None]] = []
        self.looks: list[Callable[[], None]] = []
        self.later: list[tuple[float, int, Callable[[], None]]] = []  # a heap, by when
        self.count = 0
        self.now = time.monotonic()
        self.is_ending = self.is_over = False  # it ends once what was taken is answered, and takes nothing more

    def want(self, file: int, what: int, call: Call) -> None:
        """Has a file watched for what it is wanted for; for nothing, it isn't watched."""
        before = self.wanted.get(file, 0)
        if what == before:
            return
        if not what:
            self.forget(file)
        else:
            if before:
                self.poll.modify(file, what)
            else:
                self.poll.register(file, what)
            self.wanted[file], self.calls[file] = what, call

    def forget(self, file: int) -> None:
        """Watches a file no more."""
        if self.wanted.pop(file, 0):
            self.poll.unregister(file)
            del self.calls[file]

    def call_at(self, when: float, call: Callable[[], None]) -> None:
        """Has something called at a time, or up to a millisecond later."""
        self.count += 1
        heapq.heappush(self.later, (when, self.count, call))

    def look_at_the_clock(self) -> None:
        """Sees what time it is, after something that may have taken long."""
        self.now = time.monotonic()

    def run(self) -> None:
        """Goes on until it is over. Once a second it has all that is to be looked at looked at."""
        look_at = self.now + 1
        while not self.is_over:
            next_at = min(look_at, self.later[0][0]) if self.later else look_at
            found = self.poll.poll(0 if self.soon else max(0, next_at - self.now))
            self.now = time.monotonic()
            for file, what in found:
                if call := self.calls.get(file):
                    call(what)
            while self.later and self.later[0][0] <= self.now:
                self.soon.append(heapq.heappop(self.later)[2])
            self.do_what_is_due()
            if self.now >= look_at:
                look_at = self.now + 1
                for do in self.looks:
                    do()

    def do_what_is_due(self) -> None:
        """Does what was put off until all were called, and what that puts off."""
        while self.soon:
            soon, self.soon = self.soon, []
            for do in soon:
                do()
