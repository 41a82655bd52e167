"""Callers of the door who gave wrong tokens: counted by their own addresses, and slowed, a few at a time."""
from __future__ import annotations

import threading
import time
from typing import Callable

from nrm.server.wrong_tokens import Slowed

MOST = 20  # who wait at a time; further ones are answered at once, so that they don't take the connections of others


class Callers:
    """Those whose tokens were refused. A right token waits for nobody."""

    def __init__(self, most: int = MOST, sleep: Callable[[float], None] = time.sleep) -> None:
        self.lock, self.slowed = threading.Lock(), Slowed()
        self.free, self.sleep = threading.BoundedSemaphore(most), sleep

    def refused(self, address: str) -> None:
        """The token of a caller is wrong: waits before that is told."""
        with self.lock:
            wait = self.slowed.refused(address)
        if wait and self.free.acquire(blocking=False):
            try:
                self.sleep(wait)
            finally:
                self.free.release()

    def admitted(self, address: str) -> None:
        """The token of a caller is right."""
        with self.lock:
            self.slowed.admitted(address)
