"""What a fleet does when the network between a server and the database, or between desks and a server, is cut."""
from __future__ import annotations

import unittest

from fleet.spaces import FIRST, Spaces, why_not
from fleet.standing import COUNT, LEASE, LOOPBACK, Fleet, FleetTest, asked, heard, silent


class Cuts(FleetTest):
    """Two servers on machines of their own; the database and the desks are on this one."""
    addresses = LOOPBACK, FIRST
    spaces: Spaces

    @classmethod
    def setUpClass(cls) -> None:
        if why := why_not():
            raise unittest.SkipTest(why)
        cls.spaces = Spaces(2)
        cls.addClassCleanup(cls.spaces.end)
        super().setUpClass()

    def served(self) -> Fleet:
        """A journal, and a server on each machine, of which one has the network."""
        fleet = self.fleet(count=2)
        uri = self.databases.uri(FIRST, database=fleet.uri.rpartition("/")[2])
        for at in range(2):
            fleet.start(at, "--beyond-this-machine", uri=uri, address=self.spaces.address(at),
                        before=self.spaces.within(at))
        self.assertEqual(asked(fleet.servers.values(), b"book LOC 1\n", 1), [b"ok 1"])
        return fleet

    def test_between_an_owner_and_the_database(self) -> None:
        """The owner answers nothing; the other takes the network; and when all comes through again, the first tells
        nothing from what was, and serves on."""
        fleet = self.served()
        owner, [other] = fleet.owner(), fleet.others()
        at = fleet.place_of(owner)
        with owner.connect() as buyer, owner.connect() as looker:
            for made, name in (buyer, b"D2"), (looker, b"D3"):
                made.sendall(b"desk net %s 1\nask LOC\n" % name)
                self.assertEqual(heard(made, 2), b"at 1\nask LOC 299 leg AB\n")
            self.spaces.cut(at, [*self.databases.ports.values()])
            buyer.sendall(b"book LOC 5\n")
            looker.sendall(b"ask LOC\n")
            self.assertEqual(asked([other], b"book LOC 2\n", 1, sequence=2), [b"ok 2"])
            self.assertEqual(fleet.owner().name, other.name)
            self.spaces.heal(at)
            for made in buyer, looker:
                told = heard(made, 1)
                self.assertTrue(not told or told.startswith(b"closed "), f"who was cut off tells {told!r}")
        self.assertEqual(asked([owner], b"book LOC 5\nask LOC\n", 2, name="D2", sequence=2),
                         [b"ok 3", b"ask LOC 292 leg AB"])
        self.assertEqual(fleet.value(COUNT), 3)

    def test_between_all_servers_and_the_database(self) -> None:
        """Nobody answers; then they go on by themselves."""
        fleet = self.served()
        for at in fleet.servers:
            self.spaces.cut(at, [*self.databases.ports.values()])
        for it in fleet.servers.values():
            self.assertNotIn(b"ok", silent(it, b"desk net D1 2\nbook LOC 2\n", LEASE))
        for at in fleet.servers:
            self.spaces.heal(at)
        self.assertEqual(asked(fleet.servers.values(), b"book LOC 2\n", 1, sequence=2), [b"ok 2"])
        self.assertEqual(fleet.value(COUNT), 2)

    def test_between_desks_and_the_owner(self) -> None:
        """A desk whose line was sent, and perhaps carried out, asks another server, which passes it on: it is carried
        out once, and the owner stays."""
        fleet = self.served()
        owner, [other] = fleet.owner(), fleet.others()
        at = fleet.place_of(owner)
        with owner.connect() as made:
            made.sendall(b"desk net D2 1\nbook LOC 1\n")
            self.assertEqual(heard(made, 2), b"at 1\nok 2\n")
            made.sendall(b"book LOC 3\n")
            self.spaces.cut(at, [owner.port], FIRST)
            self.assertEqual(asked([other], b"book LOC 3\nbook LOC 4\n", 2, name="D2", sequence=2), [b"ok 3", b"ok 4"])
        self.assertEqual((fleet.owner().name, fleet.value(COUNT)), (owner.name, 4))
        self.spaces.heal(at)
        self.assertEqual(asked([owner], b"ask LOC\n", 1, name="D2", sequence=4), [b"ask LOC 291 leg AB"])

    def test_between_two_servers(self) -> None:
        """Who hasn't the network can't pass a desk on; the owner itself goes on."""
        fleet = self.served()
        owner, [other] = fleet.owner(), fleet.others()
        at = fleet.place_of(owner)
        self.spaces.cut(at, [owner.port], other.address)
        told = silent(other, b"desk net D2 1\nbook LOC 1\n", 2 * LEASE)
        self.assertNotIn(b"ok", told)
        self.assertEqual(asked([owner], b"book LOC 1\n", 1, sequence=2), [b"ok 2"])
        self.spaces.heal(at)
        self.assertEqual(asked([other], b"book LOC 2\n", 1, name="D2"), [b"ok 3"])
        self.assertEqual((fleet.owner().name, fleet.value(COUNT)), (owner.name, 3))
