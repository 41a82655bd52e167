"""What may be asked of a network that ends, is frozen or thaws, where several servers share the journal."""
from __future__ import annotations

import threading

from fleet.fleets import FleetTest, Server
from harness import SECONDS, wait_for
from nrm.desk import Denied, Desk
from nrm.journal.choosing_store import store_of, using
from nrm.journal.networks import end_network, freeze_network, network_in, thaw_network
from nrm.journal.stores import Given, Named
from server.servers import answers
from server.serves import PATIENT

ROW = b"1\tD1\t1\tbook LOC 1\tok 1\n"


class Asking(threading.Thread):
    """A desk that books a seat again and again until it is answered otherwise than that it is sold."""

    def __init__(self, server: Server) -> None:
        super().__init__(daemon=True)
        self.server, self.told = server, list[object]()

    def run(self) -> None:
        with Desk(self.server.place, "COUNTER-9", network="net") as desk:
            while not self.told or type(self.told[-1]).__name__ == "Sold":
                self.told.append(desk.book("LOC", 1))


class Ending(FleetTest):
    def change(self, change: object) -> int:
        """Changes what may be asked of the network, and gives how many lines it has then."""
        with using(self.database.uri, is_to_write=True) as tables:
            change(tables, "net")
            return network_in(tables, "net").lines

    def test_nothing_is_written_behind_the_end(self) -> None:
        """Whichever server a desk asks, which goes on by itself and hears that it is denied."""
        self.open("net")
        servers = [self.serve(name) for name in ("a", "b")]
        for change in freeze_network, end_network:
            with self.subTest(change.__name__):
                asking = Asking(servers[change is end_network])
                asking.start()
                wait_for(lambda: len(asking.told) > 3, "a desk that sells", PATIENT)
                lines = self.change(change)
                asking.join(PATIENT)
                self.assertEqual((asking.told[-1], len(self.rows("number"))), (Denied(), lines))
                self.assertEqual(servers[0].answer(b"desk net D1\ncancel 1\n").split(b"\n")[1][:9],
                                 b"cancelled" if change is freeze_network else b"denied")
                if change is freeze_network:
                    self.change(thaw_network)
                    wait_for(lambda: b"ok" in servers[0].answer(b"desk net D2\nbook LOC 1\n"), "a sale", PATIENT)

    def test_the_end_is_seen_where_nobody_asks(self) -> None:
        """Also where an earlier release has ended it, which says so to nobody."""
        for name, change in ("net", end_network), ("two", lambda tables, _: tables.execute(
                "UPDATE network SET ended = 1 WHERE name = 'two'")):
            with self.subTest(name):
                self.open(name)
                server = self.serve(name)
                wait_for(lambda: server.answer(f"desk {name} D1\n".encode()).startswith(b"at "), "an answer", PATIENT)
                with server.connect() as client:
                    told = answers(client, f"desk {name} D1 1\nbook LOC 1\n".encode(), 2)
                    self.assertEqual(told, [b"at 1\n", b"ok 1\n"])
                    with using(self.database.uri, is_to_write=True) as tables:
                        change(tables, name)
                    client.settimeout(SECONDS)
                    self.assertEqual(client.recv(100), b"closed wait\n")
                self.assertEqual(server.answer(f"desk {name} D1\nbook LOC 1\n".encode()), b"at 2\ndenied\n")
                server.kill()

    def test_who_had_it_before_the_end_writes_nothing_more(self) -> None:
        """By the statement that writes, in one commit with the count of lines."""
        self.open("net", "two")
        store = store_of(self.database.uri, is_alone=True)
        members, writer = store.members(Named("one", "", self.desks_program.checksum())), store.writer("p")
        self.addCleanup(members.close)
        self.addCleanup(writer.close)
        members.beat(False)
        members.take([(1, 0), (2, 0)])
        self.change(end_network)
        self.assertEqual(writer.write([Given(it, 1, 0, ROW, 1) for it in (1, 2)]), {1: None})
        self.assertEqual(self.rows("network, number"), [(2, 1)])
        self.assertEqual([(it.ended is not None, it.server is None) for it in members.beat(False).heads],
                         [(True, True), (False, False)])
