"""What the tests of a fleet stand on: three database servers, a journal in them, servers of it, and what clients are
told."""
from __future__ import annotations

import contextlib
import itertools
import os
import signal
import socket
import subprocess
import sys
import tempfile
import time
import unittest
from pathlib import Path
from typing import Any, Iterable, Iterator

from databases import LOOPBACK, WANTING, Databases, free_ports, is_there  # of the folder tests at the top
from harness import SOURCES, PlaceTest, needs, program, wait_for
from nrm.program import Program
from server.serves import ONE, PATIENT, Server

LEASE = 3.0  # seconds after which a server that tells nothing is taken for gone
NEW = 5.0  # seconds for which a server that has begun takes nothing from others
OWNER = "SELECT server.name FROM head JOIN server USING (server)"
LINES = "SELECT number, desk, sequence, line, reply FROM line ORDER BY network, number"
COUNT = "SELECT count(*) FROM line"
HALTED = "SELECT halted FROM network WHERE halted IS NOT NULL"
PASSES = (b"wait", b"moved", b"gone", b"idle", b"journal", b"stopping", b"memory", b"program", b"clients", b"half")


def tools(*words: object) -> None:
    """Runs a command that must end with status 0."""
    done = subprocess.run([sys.executable, str(SOURCES), *map(str, words)], capture_output=True, text=True)
    if done.returncode:
        raise AssertionError(f"nrm-tools {words[0]} ended with status {done.returncode}: {done.stderr}")


def rows_of(uri: str, query: str) -> list[tuple[Any, ...]]:
    """What a query of the primary gives."""
    import psycopg
    with psycopg.connect(uri, target_session_attrs="read-write", connect_timeout=5) as connection:
        return connection.execute(query).fetchall()


@contextlib.contextmanager
def holding(uri: str, query: str) -> Iterator[None]:
    """Somebody else's transaction, that is taken back at the end."""
    import psycopg
    with psycopg.connect(uri, target_session_attrs="read-write") as connection:
        connection.execute(query)
        yield
        connection.rollback()


def change(uri: str, *statements: str) -> None:
    """What whoever may do everything changes in the database."""
    import psycopg
    with psycopg.connect(uri, target_session_attrs="read-write", autocommit=True) as connection:
        for it in statements:
            connection.execute(it)


class Fleet:
    """A journal in a database, and its servers, of which each has a place and was perhaps begun several times."""

    def __init__(self, folder: Path, uri: str, count: int = 3, answering: Program | None = None) -> None:
        self.folder, self.uri = folder, uri
        self.answering = answering or program("NRM_DESKS", "nrm_desks")
        self.ports = free_ports(count)
        self.runs = itertools.count(1)
        self.servers: dict[int, Server] = {}
        tools("journal", "begin", uri)

    def open(self, name: str, mode: str, path: Path) -> None:
        """Puts a network into the journal."""
        tools("journal", "open", self.uri, name, mode, path, "--program", *self.answering.words)

    def start(self, at: int, *options: str, answering: Program | None = None, uri: str = "", **more: Any) -> Server:
        """Begins a server at a place, and waits until it listens."""
        self.servers[at] = Server(self.folder, uri or self.uri, answering or self.answering, f"server-{at}",
                                  next(self.runs), *options, port=self.ports[at], **more)
        return self.servers[at]

    def place_of(self, server: Server) -> int:
        """The place of a server."""
        [at] = [at for at, it in self.servers.items() if it is server]
        return at

    def rows(self, query: str = LINES) -> list[tuple[Any, ...]]:
        """What a query of the journal gives."""
        return rows_of(self.uri, query)

    def value(self, query: str) -> Any:
        """The one value that a query gives."""
        [[value]] = self.rows(query)
        return value

    def owner(self) -> Server:
        """The server that has the one network."""
        return self.servers[int(str(self.value(OWNER)).rsplit("-", 1)[1])]

    def others(self) -> list[Server]:
        """The servers that are there and haven't the one network."""
        owner = self.owner()
        return [it for it in self.servers.values() if it is not owner and it.is_there()]

    def end(self) -> None:
        """Kills the servers that are there."""
        for it in self.servers.values():
            if it.is_there():
                it.process.send_signal(signal.SIGCONT)
                it.kill()


def silent(server: Server, lines: bytes, seconds: float = 3.0) -> bytes:
    """What a client is told within some seconds that sends lines and stays."""
    told, deadline = b"", time.monotonic() + seconds
    with contextlib.suppress(OSError), server.connect() as made:
        made.sendall(lines)
        while (left := deadline - time.monotonic()) > 0:
            made.settimeout(left)
            if not (piece := made.recv(65_536)):
                break
            told += piece
    return told


def asked(servers: Iterable[Server], lines: bytes, count: int, name: str = "D1", sequence: int = 1,
          seconds: float = PATIENT) -> list[bytes]:
    """The replies to some lines of a desk of the one network, one a line, which asks the servers in turn until all have
    come, or until it is turned away for good."""
    deadline, greeting = time.monotonic() + seconds, f"desk net {name} {sequence}\n".encode()
    for it in itertools.cycle([*servers]):
        told = replies_by(it, greeting + lines, count + 1).splitlines()
        if told and told[-1].startswith(b"closed ") and told[-1].split()[1] not in PASSES:
            return told[-1:]
        if len(told) > count:
            return told[1:]
        if time.monotonic() > deadline:
            raise AssertionError(f"{lines!r} has no reply: {told!r}")
        time.sleep(0.1)
    raise AssertionError("there is no server")


def replies_by(server: Server, lines: bytes, count: int) -> bytes:
    """What a client is told that sends lines, up to so many, or to its end."""
    with contextlib.suppress(OSError), server.connect() as made:
        made.sendall(lines)
        return heard(made, count)
    return b""


def heard(connection: socket.socket, count: int) -> bytes:
    """What comes, up to so many lines, or to the end, or until nothing comes for long."""
    told = b""
    with contextlib.suppress(OSError):
        while told.count(b"\n") < count and (piece := connection.recv(65_536)):
            told += piece
    return told


@unittest.skipUnless(is_there(), WANTING)
@needs("psycopg")
class FleetTest(PlaceTest):
    """Tests whose database servers are made once, and anew where a test has left them otherwise."""
    place: tempfile.TemporaryDirectory[str]
    databases: Databases
    addresses: tuple[str, ...] = (LOOPBACK,)
    runs = itertools.count(1)

    @classmethod
    def setUpClass(cls) -> None:
        cls.place = tempfile.TemporaryDirectory()
        cls.addClassCleanup(cls.place.cleanup)
        os.chmod(cls.place.name, 0o755)
        cls.databases = cls.made_databases()
        cls.addClassCleanup(lambda: cls.databases.end())

    def setUp(self) -> None:
        super().setUp()
        if not self.databases.is_whole():
            self.databases.end()
            type(self).databases = self.made_databases()

    @classmethod
    def made_databases(cls) -> Databases:
        """Three database servers, which follow each other."""
        made = Databases(Path(cls.place.name) / f"databases-{time.monotonic_ns()}")
        made.make(free_ports(3), cls.addresses)
        return made

    def fleet(self, file: str = "", count: int = 3) -> Fleet:
        """A journal with one network in a database of its own, without a server."""
        name = f"fleet{next(self.runs)}"
        self.databases.asked(self.databases.primary(), f"CREATE DATABASE {name}")
        made = Fleet(self.folder, self.databases.uri(database=name), count)
        self.addCleanup(made.end)
        made.open("net", "first", Path(self.file("net.csv", file or ONE)))
        return made

    def begun(self, count: int = 1, *options: str) -> tuple[Fleet, list[Server]]:
        """A journal and so many servers, by one of which a seat of its network was booked."""
        fleet = self.fleet()
        servers = [fleet.start(at, *options) for at in range(count)]
        self.assertEqual(asked(servers, b"book LOC 1\n", 1), [b"ok 1"])
        return fleet, servers

    def same_rows(self, fleet: Fleet, *wanted: tuple[object, ...]) -> None:
        """Sees that these are the lines of the journal."""
        self.assertEqual(fleet.rows(), [*wanted])

    def see_that_nothing_is_told(self, servers: Iterable[Server], lines: bytes, seconds: float, why: str) -> None:
        """No server takes a desk's lines within some seconds, however often it comes."""
        some, deadline = [*servers], time.monotonic() + seconds
        while time.monotonic() < deadline:
            for it in some:
                self.assertNotIn(b"ok", silent(it, lines, 1), why)

    def until(self, fleet: Fleet, query: str, seconds: float = PATIENT) -> None:
        """Waits until a query gives a row, which may fail while the database servers change."""
        import psycopg

        def gives() -> bool:
            with contextlib.suppress(psycopg.OperationalError):
                return bool(fleet.rows(query))
            return False

        wait_for(gives, f"a row by {query!r}", seconds)
