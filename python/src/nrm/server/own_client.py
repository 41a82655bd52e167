"""A client that is the server's own, without a connection: it comes to a network as any other, with all its lines, and
what it is told is gathered.
"""
from __future__ import annotations

from typing import Callable

from nrm.server.access import Right
from nrm.server.clients import Client, Reception


class Own(Client):
    """A client with a right of its own and no token, that has sent all its lines and no more. At its end something is
    called, with why it was closed before all was answered, if it was."""

    def __init__(self, reception: Reception, right: Right, at_end: Callable[[Own, str | None], None]) -> None:
        self.reception, self.loop, self.right, self.at_end = reception, reception.loop, right, at_end
        self.out, self.since, self.has_ended, self.least = bytearray(), self.loop.now, True, 1
        self.is_told = True  # that it is closed is nothing to be told
        self.told: list[tuple[float, bytes]] = []  # what it was told, and when

    def watch(self) -> None:
        """Nothing more comes, and nothing waits to be sent."""

    def look(self) -> None:
        """It is never slow."""

    def put(self, data: bytes) -> None:
        """Gathers what it is told."""
        self.told.append((self.loop.now, data))

    def finish(self, why: str | None) -> None:
        """It is no more, and what is to be done then is done when all else of this round is."""
        if self.is_done:
            return
        self.is_let_in, self.is_waiting, self.is_done = False, False, True
        self.reception.leave(self)
        self.loop.soon.append(lambda: self.at_end(self, why))
