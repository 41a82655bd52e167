"""What a page is told as it changes, by server-sent events: each a value in JSON, and nothing where nothing is new."""
from __future__ import annotations

import json
import threading
import time
from typing import Callable, Iterator

from nrm.web.followed_journal import Following
from nrm.web.messages import PASSES, HttpRefusal, HttpStream

MOST = 100  # streams at a time, so that others are answered too
WAITS = 5.0  # seconds, after which what goes by the clock alone may have changed
ALIVE = 15.0  # seconds without an event, after which a sign is sent, so that one who left is found
KIND = "text/event-stream"
Changed = Callable[[], "dict[str, object]"]


class Streams:
    """All streams, of which there are so many at the most."""

    def __init__(self, following: Following) -> None:
        self.following = following
        self.free = threading.BoundedSemaphore(MOST)

    def begin(self, changed: Changed) -> HttpStream:
        """A stream of what a call says that has changed."""
        if not self.free.acquire(blocking=False):
            raise HttpRefusal(503, "streams", "no more pages can be kept up to date now", PASSES)
        return HttpStream(self.pieces(changed), KIND, self.free.release)

    def pieces(self, changed: Changed) -> Iterator[bytes]:
        """The events, with a sign of life where there are none for long."""
        told_at = time.monotonic()
        yield b"retry: 2000\n\n"
        while True:
            behind = self.following.round
            try:
                new = changed()
            except HttpRefusal:  # the network is gone with its journal
                return
            if new:
                yield b"data: %s\n\n" % json.dumps(new).encode()
            elif time.monotonic() - told_at > ALIVE:
                yield b": still here\n\n"
            if new or time.monotonic() - told_at > ALIVE:
                told_at = time.monotonic()
            self.following.wait_for_news(behind, WAITS)
