"""The status of the server, which is asked for it at most once a second, however often it is looked at."""
from __future__ import annotations

import threading
import time
from typing import Callable, Sequence

from nrm.server.status_text import NoStatus, Status

LEAST_SECONDS = 1.0  # between two times that the server is asked


class RecentStatus:
    """The status as it was a moment ago, since whoever asks for it may ask often."""

    def __init__(self, ask: Callable[[], Status], every: float = LEAST_SECONDS) -> None:
        self.ask, self.every = ask, every
        self.lock = threading.Lock()
        self.at = float("-inf")
        self.found: Status | NoStatus = NoStatus("it wasn't asked yet")

    def status(self) -> Status | NoStatus:
        """The status, or why there is none."""
        with self.lock:
            if time.monotonic() - self.at >= self.every:
                try:
                    self.found = self.ask()
                except NoStatus as fault:
                    self.found = fault
                self.at = time.monotonic()
            return self.found

    def unfit(self) -> Sequence[str]:
        """The networks that nobody answers for, since they began with another program: as the server said last, for
        those who don't wait for it. It is asked again beside."""
        if time.monotonic() - self.at >= self.every and not self.lock.locked():
            threading.Thread(target=self.status, daemon=True).start()
        found = self.found
        return () if isinstance(found, NoStatus) else found.unfit()
