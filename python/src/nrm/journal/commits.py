"""The thread that writes rows, so that clients and programs are heard while a commit waits for the disk."""
from __future__ import annotations

import os
import queue
import threading
import time
from dataclasses import dataclass, field, replace
from typing import Sequence

from nrm.journal.stores import Busy, Given, Writer

PAUSE = 0.005  # the seconds before it is tried again, while somebody else writes


@dataclass(frozen=True)
class Written:
    """What became of a commit: the rows, why those of a network were refused, or why nothing of it counts, and the
    seconds that it took with all waiting."""
    given: Sequence[Given]
    refused: dict[int, str | None] = field(default_factory=dict)
    fault: Exception | None = None
    seconds: float = 0.0


class Commits(threading.Thread):
    """Writes what it is given, a commit at a time, and tells by a byte in a pipe that one is done."""

    def __init__(self, writer: Writer) -> None:
        super().__init__(daemon=True)
        self.writer = writer
        self.asked: queue.SimpleQueue[Sequence[Given] | None] = queue.SimpleQueue()
        self.done: queue.SimpleQueue[Written] = queue.SimpleQueue()
        self.told, self.tells = os.pipe2(os.O_CLOEXEC | os.O_NONBLOCK)

    def run(self) -> None:
        while (given := self.asked.get()) is not None:
            self.done.put(written_by(self.writer, given))
            os.write(self.tells, b".")

    def next(self) -> Written:
        """The commit that is done."""
        os.read(self.told, 1)
        return self.done.get()


def written_by(writer: Writer, given: Sequence[Given]) -> Written:
    """Writes rows, and waits as long as somebody else writes."""
    begun = time.monotonic()
    while not (done := tried(writer, given)):
        time.sleep(PAUSE)
    return replace(done, seconds=time.monotonic() - begun)


def tried(writer: Writer, given: Sequence[Given]) -> Written | None:
    """Writes rows; nothing if somebody else writes. What failed otherwise may have been written or not."""
    begun = time.monotonic()
    try:
        return Written(given, writer.write(given), seconds=time.monotonic() - begun)
    except Busy:
        return None
    except Exception as fault:
        return Written(given, fault=fault)
