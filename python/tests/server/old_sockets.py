"""Sockets as those of Python 3.9, in what they raise when their time is over."""
from __future__ import annotations

import contextlib
import socket
from typing import Iterator

OWN_TIMEOUT = socket.timeout  # of the Python that runs, which is a TimeoutError from 3.10 on


class OldTimeout(OSError):
    """What a socket raises under Python 3.9 when its time is over: no TimeoutError."""


class OldSocket(socket.socket):
    """A socket as those of Python 3.9, in what it raises."""

    def connect(self, *words: object) -> None:
        with old_timeouts():
            super().connect(*words)

    def sendall(self, *words: object) -> None:
        with old_timeouts():
            super().sendall(*words)

    def recv(self, *words: object) -> bytes:
        with old_timeouts():
            return super().recv(*words)


@contextlib.contextmanager
def old_timeouts() -> Iterator[None]:
    try:
        yield
    except (TimeoutError, OWN_TIMEOUT) as over:
        raise OldTimeout(*over.args)
