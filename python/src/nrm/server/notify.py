"""What the manager of services is told of a process, as systemd is by a unit with `Type=notify`: that it is ready, that
it is still at work, what it does, and that it ends.

NOTIFY_SOCKET names the manager's socket, with `@` before a name that is no path, and WATCHDOG_USEC says that the manager
waits for a sign of work, of the process WATCHDOG_PID if that is said. Without them nothing is told. Nobody waits here
for the manager: what it can't take now is told with the next.
"""
from __future__ import annotations

import contextlib
import os
import socket
from typing import Mapping


class Manager:
    """The manager of services, or nobody."""

    def __init__(self, variables: Mapping[str, str] = os.environ) -> None:
        name = variables.get("NOTIFY_SOCKET", "")
        self.place = f"\0{name[1:]}" if name.startswith("@") else name if name.startswith("/") else ""
        self.is_watched = "WATCHDOG_USEC" in variables and variables.get("WATCHDOG_PID") in (None, str(os.getpid()))
        self.untold: dict[str, str] = {}
        self.status = ""

    def ready(self, status: str) -> None:
        """Clients may come from now on; the status is a sentence for `systemctl status`."""
        self.status = status
        self.tell(READY="1", STATUS=status)

    def works(self, status: str) -> None:
        """The loop has turned: to be called by the loop itself, so that a manager who watches hears nothing of one that
        hangs. The status is told if it is another than before."""
        new = {"STATUS": status} if status != self.status else {}
        self.status = status
        self.tell(**new, **({"WATCHDOG": "1"} if self.is_watched else {}))

    def stops(self) -> None:
        """The process takes no more, and is about to end."""
        self.tell(STOPPING="1")

    def tell(self, **told: str) -> None:
        """Tells the manager something, with what it couldn't take before."""
        self.untold.update(told)
        if not (self.place and self.untold):
            return
        data = "\n".join(f"{name}={value}" for name, value in self.untold.items()).encode()
        with contextlib.suppress(OSError), socket.socket(socket.AF_UNIX, socket.SOCK_DGRAM) as made:
            made.sendto(data, socket.MSG_DONTWAIT, self.place)
            self.untold.clear()
