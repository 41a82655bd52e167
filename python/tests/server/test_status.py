"""The status of a server: written and read, strange answers, and how it is asked for."""
from __future__ import annotations

import contextlib
import os
import socket
import threading
import time
import unittest
from dataclasses import replace
from typing import Sequence

from harness import WithinTest, meanwhile
from nrm.server.status_text import NoStatus, StrangeStatus, ask_status, status_of
from server.servers import STATUS as MADE

TEXT = """server version 2.1.0 program ab12 started 2026-12-01T09:30:00.123Z epoch 3 journal-bytes 4096 time-jumps 5 stopping no
clients now 12 most 1000 ever 512 turned-away 7 unread 2 bytes-in 3456 bytes-out 7890
closed idle 3
closed program-137 4
commits count 812 seconds 1.930000 longest 0.021000 rows 9000 waiting 3 failed 1
commit-times 0.001 400 0.5 811 inf 812
programs now 3 begun 5 ended 2
network hub-0612 mode bid state answers clients 4 lines 812 halted no memory 0
network old mode first state rests clients 0 lines 7 halted yes memory 9

"""


class Texts(unittest.TestCase):
    def test_it_is_written_and_read(self) -> None:
        self.assertEqual(MADE.text(), TEXT)
        self.assertEqual(status_of(TEXT), MADE)
        bare = replace(MADE, closed={}, networks=())
        self.assertEqual(status_of(bare.text()), bare)

    def test_what_is_strange_is_told(self) -> None:
        for old, new in (("\n\n", "\n"), ("\n\n", "\n\n\n"), ("\nprograms", "\n\nprograms"), ("epoch 3", "epoch three"),
                         ("epoch 3", "epoch -3"), ("epoch 3 ", ""), ("epoch 3", "epoch"),
                         ("stopping no", "stopping maybe"), ("now 12", "there 12"), ("now 12", "now  12"),
                         ("programs", "things"), ("0.5 811", "0.5"), ("0.5 811", "half 811"),
                         ("seconds 1.930000", "seconds 1e3"), ("closed idle 3", "closed idle"),
                         ("closed idle 3", "closed idle no"), (TEXT[:-1], ""), ("lines 812", "lines 812.5"),
                         ("programs now 3 begun 5 ended 2\n", ""), (" old", "  old"), ("epoch 3", "epoch \u0663"),
                         ("programs now 3 begun 5 ended 2\n", "programs now 3 begun 5 ended 2\n" * 2)):
            with self.assertRaises(StrangeStatus, msg=f"{old!r} {new!r}"):
                status_of(TEXT.replace(old, new, 1))


class Asked(WithinTest):
    def answering(self, pieces: Sequence[bytes], is_late: bool = False) -> str:
        """The path of a socket at which whoever comes is answered so, in pieces, once it has asked."""
        path = str(self.folder / f"socket-{len(list(self.folder.iterdir()))}")
        listener = socket.socket(socket.AF_UNIX)
        listener.bind(path)
        listener.listen()
        over = threading.Event()

        def answer() -> None:
            with listener, contextlib.suppress(OSError):
                connection, _ = listener.accept()
                with connection:
                    if connection.recv(100) == b"status\n":
                        for piece in pieces:
                            connection.sendall(piece)
                    if is_late:
                        over.wait(60)

        meanwhile(answer)
        self.addCleanup(over.set)
        return path

    def test_it_is_asked_for(self) -> None:
        """The answer is there with its empty line, while the connection goes on, in whatever pieces it comes."""
        data = TEXT.encode()
        self.assertEqual(ask_status(self.answering([data], is_late=True), 60), MADE)
        self.assertEqual(ask_status(self.answering([data[:-1], data[-1:]], is_late=True), 60), MADE)
        self.assertEqual(self.told("status", self.answering([data])), TEXT)

    def test_there_is_none(self) -> None:
        """Each cause has its sentence, in the name of the tool."""
        none = str(self.folder / "none")
        for place, seconds, told in (
                (none, "9", f"no status of {none}: No such file or directory"),
                ("127.0.0.1:1", "9", "Connection refused"), ("x" * 300, "9", "too long"),
                (self.answering([b"closed clients\n"]), "9", "says: closed clients"),
                (self.answering([TEXT.encode()[:-1]], is_late=True), "0.5", "timed out"),
                (self.answering([TEXT.encode()[:-1]]), "9", "isn't a status: no status came, but"),
                (self.answering([b"bad\n\n"]), "9", "isn't a status: a line of no known kind: 'bad'"),
                (self.answering([b""]), "9", "isn't a status: no status came, but b''")):
            self.stopped("status", place, "--seconds", seconds, says=told)
        with self.assertRaises(NoStatus):
            ask_status(("127.0.0.1", 1), 9)
        begun = time.monotonic()
        with self.assertRaises(NoStatus):
            ask_status(self.answering([TEXT.encode()[:-1]], is_late=True), 0.5)
        self.assertTrue(0.4 < time.monotonic() - begun < 8, "the seconds are those of all")
        for words in ([], [none, "--seconds", "0"]):
            self.stopped("status", *words, status=2, env=os.environ)
        self.assertFalse(os.path.exists(none))
