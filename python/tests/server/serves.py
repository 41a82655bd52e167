"""What the tests of a server of a journal stand on: journals with networks, a run of the server, and what it says."""
from __future__ import annotations

import contextlib
import errno
import os
import signal
import socket
import sqlite3
import subprocess
import sys
from pathlib import Path
from typing import Iterator, Mapping, Sequence

from databases import LOOPBACK, free_ports  # of the folder tests at the top
from harness import SECONDS, SOURCES, wait_for
from nrm.journal.networks import open_network
from nrm.journal.sqlite_tables import begin, using
from nrm.program import Program
from server.servers import HUB, ServerTest, child_of

TOLD = "nrm-tools serve: "
LISTENS = "event=listening"
PATIENT = 3 * SECONDS  # for what takes long where much else is at work, as that a server begins or ends
ONE = "periods,1,1\nleg,AB,300\nproduct,LOC,200,AB\n"  # a network of one leg
# in the place of a program: a client is told some text once its lines have come
INSTEAD = """import sys

given, told, used, text = sys.stdin.buffer, sys.stdout.buffer, 0, {text}
while (words := given.readline().split()) and words != [b"end"]:
    data = given.read(int(words[-1])) if words[0] in (b"again", b"came") else b""
    used += len(data)
    told.write(b"send 0 %d %d\\n%b" % (used, len(text), text) if words == [b"kept"] else
               {{b"again": b"ready 0\\n", b"came": b"keep 0\\n", b"gone": b"close 0 gone\\n"}}.get(words[0], b""))
    told.flush()
"""


def journal_of(path: Path, program: Program, networks: Mapping[str, tuple[str, bytes]]) -> Path:
    """A new journal with networks, each of a mode and a file."""
    begin(str(path))
    with using(str(path), is_to_write=True) as connection:
        for name, (mode, file) in networks.items():
            open_network(connection, name, mode, file, program.checksum())
    return path


def rows_in(path: Path, query: str = "SELECT number, desk, sequence, line, reply FROM line ORDER BY network, number",
            ) -> list[tuple[object, ...]]:
    """What a query of a journal gives, read by another process's means: a connection that only reads."""
    with contextlib.closing(sqlite3.connect(f"file:{path}?mode=ro", uri=True)) as connection:
        return connection.execute(query).fetchall()


class Serve:
    """A run of `nrm-tools serve` in a folder."""

    def __init__(self, folder: Path, journal: Path | str, program: Program, *options: str, name: str = "socket",
                 variables: Mapping[str, str] | None = None, source: Path = SOURCES, status: int | None = None,
                 is_named: bool = True, before: Sequence[str] = ()) -> None:
        self.path, self.err = folder / name, folder / f"{name}.told"
        words = [*before, sys.executable, str(source), "serve", str(journal), "--socket", str(self.path), *options,
                 *(["--program", *program.words] if is_named else [])]
        with open(self.err, "w") as told:
            self.process = subprocess.Popen(words, stderr=told, env={**os.environ, **(variables or {})})
        if status is None:
            self.wait_until_it_listens()

    def wait_until_it_listens(self) -> None:
        try:
            wait_for(lambda: LISTENS in self.told() or self.process.poll() is not None, "a server", PATIENT)
            assert LISTENS in self.told()
        except AssertionError:
            self.process.kill()
            self.process.wait()
            raise AssertionError(f"the server does not listen: {self.told()}")

    def told(self) -> str:
        return self.err.read_text()

    def program(self) -> int:
        """The process of the one program below it."""
        return child_of(self.process.pid)

    def connect(self) -> socket.socket:
        made = socket.socket(socket.AF_UNIX)
        made.settimeout(SECONDS)
        wait_for(lambda: made.connect_ex(str(self.path)) != errno.EAGAIN, "a place among those who wait to be taken")
        made.getpeername()
        return made

    def end(self, status: int = 0, sent: int | None = signal.SIGTERM) -> None:
        """Ends it, and waits for it."""
        if sent:
            self.process.send_signal(sent)
        ended = self.process.wait(PATIENT)
        assert ended == status, f"the status {ended}, and not {status}, with {self.told()!r}"

    def __enter__(self) -> Serve:
        return self

    def __exit__(self, *_: object) -> None:
        self.process.send_signal(signal.SIGCONT)
        self.process.kill()
        self.process.wait()


class Server(Serve):
    """A run among others over a journal in a database, which listens on a port."""
    patience = 10.0  # of a client

    def __init__(self, folder: Path, uri: str, answering: Program, name: str, run: int, *options: str,
                 address: str = LOOPBACK, port: int = 0, before: Sequence[str] = (), is_awaited: bool = True) -> None:
        self.address, self.port, self.name = address, port or free_ports(1)[0], name
        super().__init__(folder, uri, answering, "--listen", f"{address}:{self.port}", "--name", name, *options,
                         name=f"{name}-{run}", before=before, status=None if is_awaited else 0)

    def connect(self) -> socket.socket:
        made = socket.create_connection((self.address, self.port), self.patience)
        made.setsockopt(socket.IPPROTO_TCP, socket.TCP_NODELAY, 1)
        return made

    def kill(self) -> None:
        """Ends it at once, and leaves its programs alone: their input ends, and they with it."""
        self.process.kill()
        self.process.wait()

    def is_there(self) -> bool:
        """Whether it hasn't ended."""
        return self.process.poll() is None


def talk(serve: Serve, lines: bytes) -> bytes:
    """What a client is told that sends lines and no more."""
    with serve.connect() as made:
        made.sendall(lines)
        made.shutdown(socket.SHUT_WR)
        return all_told(made)


def all_told(connection: socket.socket) -> bytes:
    """What comes until the connection ends."""
    told = b""
    with contextlib.suppress(ConnectionError):
        while piece := connection.recv(65_536):
            told += piece
    return told


class ServeTest(ServerTest):
    """A test of a server of a journal in a folder of its own."""

    def journal(self, *names: str, mode: str = "first", file: bytes | None = None, at: str = "journal") -> Path:
        """A journal with networks of some names, that of the hub if no file is given."""
        made = Path(HUB).read_bytes() if file is None else file
        return journal_of(self.folder / at, self.desks_program, {it: (mode, made) for it in names or ("hub",)})

    def serve(self, journal: Path, *options: str, **more: object) -> Serve:
        return Serve(self.folder, journal, more.pop("program", self.desks_program), *options, **more)

    def instead(self, name: str, text: str) -> Program:
        """A program that tells a client some text, and no more, whatever it asks."""
        return Program((self.script(name, INSTEAD.format(text=text.encode())),))

    @contextlib.contextmanager
    def served(self, journal: Path, *options: str, **more: object) -> Iterator[Serve]:
        """A server that is there, and at the end is told to end."""
        with self.serve(journal, *options, **more) as serve:
            yield serve
            serve.end()

    def same(self, found: Sequence[object], *wanted: object) -> None:
        self.assertEqual(list(found), list(wanted))
