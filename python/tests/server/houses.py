"""In the place of a server: a clock that a test sets, a reception that takes nobody anywhere, a session that takes all.
"""
from __future__ import annotations

from typing import Callable
from unittest import mock

from nrm.server.access import Access, Right, hash_of
from nrm.server.clients import Client, ClientLimits, Reception
from nrm.server.counters import Counters
from nrm.server.tokens import Tokens

HIS = Right("D1", hash_of(b"right"), ("look",))


class Clock:
    """A loop in the place of one, whose time is what a test says."""

    def __init__(self) -> None:
        self.now, self.later = 1000.0, []
        self.wanted: dict[int, int] = {}
        self.calls: dict[int, Callable[[int], None]] = {}

    def want(self, file: int, what: int, call: Callable[[int], None]) -> None:
        self.wanted[file], self.calls[file] = what, call

    def forget(self, file: int) -> None:
        self.wanted.pop(file, None)

    def call_at(self, when: float, call: Callable[[], None]) -> None:
        self.later.append((when, call))

    def goes_on_to(self, when: float) -> None:
        """Calls what is due at a time."""
        self.now = when
        due, self.later = [it for it in self.later if it[0] <= when], [it for it in self.later if it[0] > when]
        for _, call in due:
            call()


class House:
    """What has clients come, and takes none to a network."""

    def __init__(self) -> None:
        self.loop, self.tokens = Clock(), Tokens(lambda *_, **__: None, Access({HIS.hash: HIS}))
        self.entered: list[tuple[Client, str | None, bytes]] = []
        self.left: list[Client] = []
        self.reception = Reception(self.loop, mock.Mock(), Counters(), ClientLimits(slow=5, idle=60), self.tokens,
                                   lambda *it: self.entered.append(it), self.left.append, lambda: b"status\n\n")


def let_in(client: Client, data: bytes = b"", part: Callable[[Client], None] = lambda _: None) -> None:
    """Gives a client a place at a session in the place of one, which takes all."""
    client.let_in(0, lambda *_: None, part, data)
