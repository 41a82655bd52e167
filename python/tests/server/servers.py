"""What the tests of a server stand on: the network of most of them, the status of one, replies, and a folder for each
test."""
from __future__ import annotations

import os
import socket
import sys
from pathlib import Path
from typing import Callable, TypeVar

from harness import EXAMPLES, PlaceTest
from nrm.desk import HAS_MORE
from nrm.server.status_text import ClientStatus, CommitStatus, NetworkStatus, ProgramStatus, ServerStatus, Status

HUB = str(EXAMPLES / "hub" / "network.csv")
TESTS = Path(__file__).resolve().parents[1]
Error = TypeVar("Error", bound=BaseException)
STATUS = Status(
    ServerStatus("2.1.0", "ab12", "2026-12-01T09:30:00.123Z", 3, 4096, 5, False),
    ClientStatus(12, 1000, 512, 7, 2, 3456, 7890), {"idle": 3, "program-137": 4},
    CommitStatus(812, 1.93, 0.021, 9000, 3, 1),
    ((0.001, 400), (0.5, 811), (float("inf"), 812)), ProgramStatus(3, 5, 2),
    (NetworkStatus("hub-0612", "bid", "answers", 4, 812, False, 0),
     NetworkStatus("old", "first", "rests", 0, 7, True, 9)))


def child_of(process: int) -> int:
    """The process that another has begun."""
    return int(Path(f"/proc/{process}/task/{process}/children").read_text().split()[0])


def answers(connection: socket.socket, lines: bytes, count: int) -> list[bytes]:
    """Sends lines, and gives so many replies to them; the text of a leg or of a plan is whole, without the empty line
    behind it."""
    connection.sendall(lines)
    made, text, left = [], b"", b""
    while len(made) < count:
        piece = connection.recv(65_536)
        assert piece, f"{count} replies, and not {made} and {text + left!r}"
        *whole, left = (left + piece).split(b"\n")
        for line in whole:
            if text or HAS_MORE.match(line):
                text += line + b"\n" if line else b""
            elif line:
                made.append(line + b"\n")
            if text and not line:
                made, text = [*made, text], b""
    return made


class ServerTest(PlaceTest):
    """A test of a server in a folder of its own."""

    def script(self, name: str, text: str) -> str:
        """A program that Python runs."""
        path = self.file(name, f"#!{sys.executable}\n{text}")
        os.chmod(path, 0o755)
        return path

    def patched(self, lines: str) -> dict[str, str]:
        """The variables with which a run of Python begins by some lines."""
        self.file("sitecustomize.py", lines)
        return {"PYTHONPATH": str(self.folder)}

    def expect(self, kind: type[Error], call: Callable[[], object]) -> Error:
        """The error of a kind that a call raises."""
        with self.assertRaises(kind) as raised:
            call()
        return raised.exception
