"""What the tests of a fleet under Patroni stand on: its nodes, two servers, and a desk that books while something goes
wrong, and whose every reply must be in the journal at the end."""
from __future__ import annotations

import contextlib
import threading
import time
import unittest
from pathlib import Path
from typing import Iterator, Sequence

from databases import Fault, free_ports  # of the folder tests at the top
from fleet.patroni_nodes import Nodes, why_not
from fleet.standing import Fleet, FleetTest, asked, silent
from harness import wait_for
from server.serves import PATIENT, Server

MANY = "periods,1,1\nleg,AB,999\nproduct,LOC,200,AB\n"  # a network of one leg, which isn't sold out in a test
LINE = b"book LOC 1\n"
NAMES = "SHOW synchronous_standby_names"
ANYBODY = "*"  # what Patroni has waited for where there is no standby
PAUSE = 0.2  # seconds between a desk's lines
SOME = 5  # lines


class Desk(threading.Thread):
    """A desk that books a seat at a time, by whichever server answers, and sends a line until it has its reply."""

    def __init__(self, servers: Sequence[Server]) -> None:
        super().__init__(daemon=True)
        self.servers = servers
        self.replies: list[bytes] = []
        self.is_over = False
        self.fault: Exception | None = None

    def run(self) -> None:
        try:
            while not self.is_over:
                self.replies += asked(self.servers, LINE, 1, sequence=len(self.replies) + 1)
                time.sleep(PAUSE)
        except Exception as fault:
            self.fault = fault

    def go_on(self) -> None:
        """Waits until more lines are answered."""
        count = len(self.replies)
        wait_for(lambda: self.fault or len(self.replies) >= count + SOME, "the replies to more lines", PATIENT)
        if self.fault:
            raise self.fault

    def stop(self) -> None:
        """Waits for the reply to the last line."""
        self.is_over = True
        self.join(PATIENT)
        if self.fault:
            raise self.fault


class PatroniTest(FleetTest):
    """Tests whose database servers are under Patroni."""
    databases: Nodes

    @classmethod
    def setUpClass(cls) -> None:
        if why := cls.why_not():
            raise unittest.SkipTest(why)
        super().setUpClass()

    def setUp(self) -> None:
        with contextlib.suppress(Fault):
            self.databases.wait_until_whole()
        super().setUp()

    @classmethod
    def why_not(cls) -> str:
        """Why these can't be tried here; empty if they can."""
        return why_not()

    @classmethod
    def made_databases(cls) -> Nodes:
        made = Nodes(Path(cls.place.name) / f"nodes-{time.monotonic_ns()}")
        try:
            cls.make(made)
        except BaseException:
            made.end()
            raise
        return made

    @classmethod
    def make(cls, nodes: Nodes) -> None:
        """Makes the nodes of these tests."""
        nodes.make_nodes(free_ports(8))

    def served(self) -> Fleet:
        """A journal with a network, and two servers of it."""
        fleet = self.fleet(file=MANY, count=2)
        for at in range(2):
            fleet.start(at)
        return fleet

    @contextlib.contextmanager
    def buying(self, fleet: Fleet) -> Iterator[Desk]:
        """A desk that books meanwhile. At the end all lines are its own, each once and in its order, with the replies
        that it got."""
        desk = Desk([*fleet.servers.values()])
        desk.start()
        try:
            desk.go_on()
            yield desk
            desk.go_on()
            desk.stop()
        finally:
            desk.is_over = True
        self.assertEqual(desk.replies, [b"ok %d" % it for it in range(1, len(desk.replies) + 1)])
        self.same_rows(fleet, *((it, "D1", it, "book LOC 1", f"ok {it}") for it in range(1, len(desk.replies) + 1)))
        self.assertTrue(all(it.is_there() for it in fleet.servers.values()), "servers go on")

    def see_that_nothing_is_answered(self, fleet: Fleet, desk: Desk, seconds: float) -> None:
        """Neither the desk that books nor another is told anything for some seconds."""
        count, servers = len(desk.replies), [*fleet.servers.values()]
        for at, server in enumerate(servers):
            told = silent(server, b"desk net D2 1\nask LOC\n", seconds / len(servers))
            self.assertFalse(b"ask LOC" in told, f"{server.name} tells {told!r}")
        self.assertEqual(desk.replies[count:], [], "lines are answered")

    def wait_for_primary(self, server: str) -> None:
        """Waits until Patroni has made a server the primary."""
        self.databases.wait(lambda: self.databases.state_of(server) == "primary", f"{server} as the primary")

    def wait_for_standby(self, server: str) -> None:
        """Waits until a server follows."""
        self.databases.wait(lambda: self.databases.state_of(server) == "standby", f"{server} as a standby")

    def log_of(self, server: str) -> str:
        """What Patroni and the server of a node have told."""
        return (self.databases.folder / f"{server}.log").read_text()
