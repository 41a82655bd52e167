"""A manager of services for tests: the socket at which systemd would hear what a process tells of itself."""
from __future__ import annotations

import os
import signal
import socket
import subprocess
import time
from pathlib import Path
from typing import Mapping

from harness import SECONDS

HANGS = """import os, threading, time
hang, monotonic = os.path.join(os.path.dirname(__file__), "hang"), time.monotonic
def hanging():
    while threading.current_thread() is threading.main_thread() and os.path.exists(hang):
        time.sleep(0.05)
    return monotonic()
time.monotonic = hanging
"""  # as long as the file is there the main thread, in which the loop is, does nothing at all, and others go on
LISTENS_LATE = """import socket, time
listen = socket.socket.listen
def late(self, *given):
    time.sleep(0.5)
    listen(self, *given)
socket.socket.listen = late
"""


class FakeManager:
    """A datagram socket, by a path of a folder or by a name that is none, and what was told there."""

    def __init__(self, folder: Path, is_abstract: bool = False) -> None:
        name = f"nrm-test-{os.getpid()}-{time.monotonic_ns()}"
        self.name = f"@{name}" if is_abstract else str(folder / "notify")
        self.socket = socket.socket(socket.AF_UNIX, socket.SOCK_DGRAM)
        self.socket.bind(f"\0{name}" if is_abstract else self.name)

    def variables(self) -> Mapping[str, str]:
        """What a process is begun with."""
        return {"NOTIFY_SOCKET": self.name, "WATCHDOG_USEC": "3000000"}

    def next(self, seconds: float = SECONDS) -> Mapping[str, str]:
        """What is told next; nothing if nothing is within some seconds."""
        self.socket.settimeout(seconds)
        try:
            told = self.socket.recv(65_536).decode()
        except (TimeoutError, socket.timeout):
            return {}
        return dict(line.split("=", 1) for line in told.split("\n"))

    def until(self, name: str, seconds: float = SECONDS) -> Mapping[str, str]:
        """The next that tells something of a name."""
        deadline = time.monotonic() + seconds
        while (left := deadline - time.monotonic()) > 0:
            if name in (told := self.next(left)):
                return told
        raise AssertionError(f"{name} isn't told")

    def forget(self) -> None:
        """Leaves out what was told up to now."""
        while self.next(0.001):
            pass

    def tells_within(self, name: str, seconds: float) -> int:
        """How often something of a name is told in some seconds."""
        count, deadline = 0, time.monotonic() + seconds
        while (left := deadline - time.monotonic()) > 0:
            count += name in self.next(left)
        return count

    def close(self) -> None:
        self.socket.close()


def see_signs(manager: FakeManager, process: subprocess.Popen[bytes], folder: Path) -> None:
    """Sees that a process tells about once a second that it is at work; and never while its loop hangs, though its
    other threads don't, nor while it is stopped."""
    hangs = folder / "hang"
    for begin, end in ((hangs.touch, hangs.unlink), (lambda: process.send_signal(signal.SIGSTOP),
                                                     lambda: process.send_signal(signal.SIGCONT))):
        for _ in range(3):
            manager.until("WATCHDOG")
        manager.forget()
        often = manager.tells_within("WATCHDOG", 2.5)
        assert often <= 4, f"{often} signs of work in 2.5 seconds"
        begin()
        time.sleep(0.3)
        manager.forget()
        count = manager.tells_within("WATCHDOG", 3.5)
        end()
        assert count <= 1, f"{count} signs of work while nothing was done, and one may have been on its way"
    manager.until("WATCHDOG")
