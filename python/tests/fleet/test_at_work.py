"""Networks move while their desks are at work: to a server that is added, and from one that leaves."""
from __future__ import annotations

import contextlib
import threading
import time
from typing import Iterator, Sequence

from fleet.fleets import FleetTest, Server
from harness import SECONDS, wait_for
from nrm.desk import Desk
from nrm.server.fleet import FEW
from nrm.server.fleet_owners import rank
from server.serves import PATIENT

NETWORKS = [f"n{it}" for it in range(6)]  # of which each of three servers gets two
HANDED_OVER = 2.0  # seconds in which a server that leaves has handed over
BUSY = 4  # times as long it may take here, where other work may keep the machine busy


class AtWork(FleetTest):
    def begun(self, *names: str) -> list[Server]:
        """Servers, each with its share of networks that have more lines than may still have to be answered again."""
        self.open(*NETWORKS)
        for number in range(1, len(NETWORKS) + 1):
            self.fill(3 * FEW, number)
        servers = [self.serve(it) for it in names]
        self.wait_for_shares(*names)
        return servers

    def wait_for_shares(self, *names: str, seconds: float = PATIENT) -> None:
        """Waits until each network is of the server that it belongs to."""
        shares = {network: max(names, key=lambda it: rank(network, it)) for network in NETWORKS}
        self.assertEqual({*shares.values()}, {*names})
        wait_for(lambda: {it: self.owner(it) for it in NETWORKS} == shares, f"the shares of {names}", seconds)

    @contextlib.contextmanager
    def desks(self, servers: Sequence[Server]) -> Iterator[list[int]]:
        """A desk of each network, which asks all the while, and how many replies each has. At the end each of its lines
        is in the journal once."""
        counts, over, faults = [0] * len(NETWORKS), threading.Event(), []
        places = [it.place for it in servers]

        def ask(at: int) -> None:
            try:
                with Desk(places, f"D{at}", network=NETWORKS[at], sequence=1, seconds=PATIENT) as desk:
                    while not over.is_set():
                        desk.book("LOC", 1)
                        counts[at] += 1
            except Exception as fault:
                faults.append(fault)

        threads = [threading.Thread(target=ask, args=[it], daemon=True) for it in range(len(NETWORKS))]
        for it in threads:
            it.start()
        try:
            self.wait_for_replies(counts)
            yield counts
            self.wait_for_replies(counts)
        finally:
            over.set()
            for it in threads:
                it.join(SECONDS)
        self.assertEqual(faults, [])
        for at, count in enumerate(counts):
            self.assertEqual(self.database.ask(f"SELECT count(*), max(sequence) FROM line WHERE desk = 'D{at}'"),
                             [(count, count)])

    def wait_for_replies(self, counts: Sequence[int]) -> None:
        """Waits until each desk has had 50 more replies."""
        wanted = [it + 50 for it in counts]
        wait_for(lambda: all(it >= least for it, least in zip(counts, wanted)), "more replies", PATIENT)

    def test_who_leaves_hands_over_networks_at_work(self) -> None:
        servers = self.begun("a", "b", "c")
        with self.desks(servers):
            told = time.monotonic()
            servers[0].end(0)
            self.assertLess(time.monotonic() - told, BUSY * HANDED_OVER, servers[0].told())
            self.wait_for_shares("b", "c")
            self.want_in(servers[0].told(), "event=leaving networks=2")

    def test_who_is_added_gets_its_share_of_networks_at_work(self) -> None:
        servers = self.begun("a", "b")
        with self.desks(servers):
            self.serve("c")
            self.wait_for_shares("a", "b", "c", seconds=SECONDS)
