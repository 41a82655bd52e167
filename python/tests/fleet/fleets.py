"""What the tests of servers that share a journal stand on: networks in it, servers, and what these say."""
from __future__ import annotations

import contextlib
import signal
import time
from typing import Iterator, Sequence

from fleet.databases import DatabaseTest
from harness import SECONDS, PlaceTest, wait_for
from nrm.journal.choosing_store import store_of, using
from nrm.journal.networks import put_network
from nrm.server.fleet_owners import rank
from nrm.server.status_text import ask_status
from server import serves
from server.serves import ONE, PATIENT


class Server(serves.Server):
    """A run whose clients wait for long, and ask again where they are told to wait."""
    patience = SECONDS

    @property
    def place(self) -> tuple[str, int]:
        return self.address, self.port

    def wait_for(self, text: str) -> None:
        """Waits until it has told something."""
        wait_for(lambda: text in self.told() or self.process.poll() is not None, f"{text!r} of {self.name}", PATIENT)
        if text not in self.told():
            raise AssertionError(f"{self.name} has ended: {self.told()}")

    def send(self, sent: int) -> None:
        """Sends it a signal."""
        self.process.send_signal(sent)

    def talk(self, lines: bytes) -> bytes:
        """What a client is told that sends lines and no more."""
        return serves.talk(self, lines)

    def answer(self, lines: bytes) -> bytes:
        """The same, once it isn't told to wait."""
        told = b""
        until = time.monotonic() + PATIENT
        while not told or told.endswith(b"closed wait\n"):
            if time.monotonic() > until:
                raise AssertionError(f"{self.name} answers {told!r}: {self.told()}")
            time.sleep(0.05)
            with contextlib.suppress(OSError):
                told = self.talk(lines)
        return told


class FleetTest(DatabaseTest, PlaceTest):
    """A test of servers that share a journal, which is empty at its beginning."""

    def setUp(self) -> None:
        super().setUp()
        self.database.set("synchronous_standby_names", "")
        self.database.renew()
        store_of(self.database.uri).begin()
        self.servers: list[Server] = []
        self.addCleanup(self.end_all)

    def end_all(self) -> None:
        """Ends the servers that are left."""
        for it in self.servers:
            it.kill()

    def open(self, *names: str, mode: str = "first", file: bytes = ONE.encode(), program: str | None = None) -> None:
        """Puts networks into the journal."""
        with using(self.database.uri, is_to_write=True) as tables, tables.change():
            for it in names:
                put_network(tables, it, mode, file, program or self.desks_program.checksum())

    def serve(self, name: str, *options: str, uri: str = "") -> Server:
        """A server of a database that is alone."""
        made = Server(self.folder, uri or self.database.uri, self.desks_program, name, len(self.servers), "--alone",
                      *options)
        self.servers.append(made)
        return made

    def owner(self, network: str = "net") -> str | None:
        """The name of the server that has a network, as the journal has it."""
        [(name,)] = self.database.ask("SELECT server.name FROM network JOIN head USING (network) LEFT JOIN server "
                                      f"USING (server) WHERE network.name = '{network}'")
        return name

    def settled(self, servers: Sequence[Server]) -> list[Server]:
        """Some servers, once no network moves any more: the one that has the network comes first, and behind it the one
        that would have it next."""
        found = sorted(servers, key=lambda it: rank("net", it.name), reverse=True)
        wait_for(lambda: self.owner() == found[0].name, "an owner", PATIENT)
        found[0].wait_for("event=taken network=net")
        for it in found:
            def owners() -> list[str]:
                return [share.owner for share in ask_status(it.place, SECONDS).shares if share.network == "net"]

            wait_for(lambda: owners() == [found[0].name], "the owner, once each has looked", PATIENT)
        return found

    def rows(self, what: str = "desk, sequence, line, reply") -> list[tuple[object, ...]]:
        """The lines of the journal."""
        return self.database.ask(f"SELECT {what} FROM line ORDER BY network, number")

    def fill(self, count: int, network: int = 1) -> None:
        """Has a network have so many lines, as the desk FILL has asked them: each is refused, since no party has so
        many seats."""
        self.database.ask("INSERT INTO server (name, address, program, seen) VALUES ('filler', '', '', '-infinity')")
        self.database.ask(f"INSERT INTO line SELECT it, it, 0, {network}, 0, 'FILL', 'book LOC 999', 'no AB' "
                          f"FROM generate_series(1, {count}) AS it")
        self.database.ask(f"UPDATE head SET lines = {count} WHERE network = {network}")


@contextlib.contextmanager
def stopped(server: Server) -> Iterator[None]:
    """A server that does nothing meanwhile, as one whose machine is paused."""
    server.send(signal.SIGSTOP)
    try:
        yield
    finally:
        server.send(signal.SIGCONT)


