"""The account of a line, as `nrm-tools why` prints it: that command is run when somebody asks, one at a time."""
from __future__ import annotations

import os
import signal
import subprocess
import sys
import threading
from pathlib import Path

from nrm.journal.choosing_store import word_of
from nrm.web.messages import PASSES, HttpRefusal

SECONDS = 30.0  # that the command may take
SOURCES = Path(__file__).resolve().parents[2]
FIRST = "nrm-tools why: "  # of what it tells on standard error


class Accounts:
    """What the command prints of lines of a journal, if it may be run."""

    def __init__(self, journal: str, is_on: bool) -> None:
        self.journal, self.is_on, self.seconds = word_of(journal), is_on, SECONDS
        self.lock = threading.Lock()

    def text(self, network: str, number: int) -> str:
        """What is printed of a line; an HttpRefusal where that is nothing, another line is being explained, or it takes
        too long."""
        if not self.is_on:
            raise HttpRefusal(404, "off", "accounts are off: `--why` enables them")
        if not self.lock.acquire(blocking=False):
            raise HttpRefusal(503, "busy", "another line is being explained", PASSES)
        try:
            return self.printed(network, number)
        finally:
            self.lock.release()

    def printed(self, network: str, number: int) -> str:
        """Runs the command, with all that it begins in a session of its own, so that it can be ended."""
        process = subprocess.Popen(
            [sys.executable, "-m", "nrm", "why", self.journal, network, str(number)], stdin=subprocess.DEVNULL,
            stdout=subprocess.PIPE, stderr=subprocess.PIPE, start_new_session=True,
            env={**os.environ, "PYTHONPATH": os.pathsep.join([str(SOURCES), os.environ.get("PYTHONPATH", "")])})
        try:
            told, wrong = (it.decode("utf-8", "replace") for it in process.communicate(timeout=self.seconds))
        except subprocess.TimeoutExpired:
            os.killpg(process.pid, signal.SIGKILL)
            process.communicate()
            raise HttpRefusal(504, "late", f"the line isn't explained within {self.seconds:g} seconds")
        if not told:
            raise HttpRefusal(501, "why", wrong.strip()[-1000:].replace(FIRST, "", 1) or "the command printed nothing")
        return told
