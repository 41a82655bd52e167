"""Moments of a desk: servers are killed while it asks, it sends numbers again, and comes to a server that hasn't its
network."""
from __future__ import annotations

import signal

from fleet.standing import COUNT, FleetTest, asked, heard, silent
from harness import wait_for

NOT_NEW = "FROM server WHERE clock_timestamp() > began + interval '6 seconds'"


class Desks(FleetTest):
    def test_a_desk_goes_on_while_servers_are_killed(self) -> None:
        fleet = self.fleet()
        for at in range(2):
            fleet.start(at)
        for number in range(1, 41):
            self.assertEqual(asked(fleet.servers.values(), b"book LOC 1\n", 1, sequence=number), [b"ok %d" % number])
            if number % 10 == 0:
                owner = fleet.owner()
                owner.kill()
                fleet.start(fleet.place_of(owner))
        self.assertEqual(asked(fleet.servers.values(), b"ask LOC\n", 1, sequence=41), [b"ask LOC 260 leg AB"])
        self.assertEqual(fleet.value(COUNT), 40)
        self.assertGreaterEqual(fleet.value("SELECT count(DISTINCT server) FROM tenure"), 4)

    def test_numbers_of_lines(self) -> None:
        fleet = self.fleet()
        one = fleet.start(0)
        self.assertEqual(asked([one], b"book LOC 1\nbook LOC 1\n", 2, sequence=5), [b"ok 1", b"ok 2"])
        for sent, wanted, what in (
                (b"desk net D1 6\nbook LOC 1\nask LOC\n", b"at 6\nok 2\nask LOC 298 leg AB\n", "again"),
                (b"desk net D1 6\nbook LOC 3\n", b"at 6\nclosed sequence\n", "another line under a number"),
                (b"desk net D1 3\nbook LOC 1\n", b"at 3\nclosed old\n", "a number before the first that is held"),
                (b"desk net D1\n", b"at 7\n", "the next number"),
                (b"desk none D1\n", b"closed network\n", "a network that isn't there")):
            self.assertEqual(silent(one, sent, 2), wanted, what)
        with one.connect() as first:
            first.sendall(b"desk net D1\n")
            self.assertEqual(heard(first, 1), b"at 7\n")
            self.assertEqual(asked([one], b"ask LOC\n", 1, sequence=7), [b"ask LOC 298 leg AB"])
            self.assertEqual(heard(first, 1), b"closed elsewhere\n", "the first of two")

    def test_numbers_hold_beyond_a_taking(self) -> None:
        """Another server has the network now, and carries nothing out again."""
        fleet = self.fleet()
        one = fleet.start(0)
        self.assertEqual(asked([one], b"book LOC 1\nbook LOC 2\n", 2), [b"ok 1", b"ok 2"])
        one.kill()
        two = fleet.start(1)
        self.assertEqual(asked([two], b"book LOC 1\nbook LOC 2\nbook LOC 3\n", 3), [b"ok 1", b"ok 2", b"ok 3"])
        self.assertEqual(silent(two, b"desk net D1 2\nbook LOC 1\n", 2), b"at 2\nclosed sequence\n")
        self.assertEqual(fleet.value(COUNT), 3)

    def test_any_server_passes_a_desk_on(self) -> None:
        fleet, _ = self.begun(2)
        [other] = fleet.others()
        with other.connect() as made:
            made.sendall(b"desk net D2\nbook LOC 1\n")
            self.assertEqual(heard(made, 2), b"at 1\nok 2\n")
            made.sendall(b"book LOC 1\n" * 50)
            self.assertEqual(heard(made, 50), b"".join(b"ok %d\n" % it for it in range(3, 53)))
            fleet.owner().kill()
            told = heard(made, 1)
            self.assertTrue(not told or told.startswith(b"closed "), f"the one that passes on tells {told!r}")
        self.assertEqual(asked([other], b"book LOC 1\n", 1, name="D2", sequence=52), [b"ok 53"])

    def test_a_server_says_who_has_a_network(self) -> None:
        """With --send-on."""
        fleet, _ = self.begun(2, "--send-on")
        [other], owner = fleet.others(), fleet.owner()
        self.assertEqual(silent(other, b"desk net D2\n", 2), f"closed moved {owner.address}:{owner.port}\n".encode())

    def test_who_leaves_hands_over_first(self) -> None:
        """A desk that asks all the while waits for no longer than a taking, and the one that leaves ends with status
        0."""
        fleet, _ = self.begun(2)
        wait_for(lambda: fleet.rows(f"SELECT 1 {NOT_NEW} HAVING count(*) = 2"), "servers that aren't new")
        leaving, [left] = fleet.owner(), fleet.others()
        leaving.process.send_signal(signal.SIGTERM)
        for number in range(2, 30):
            self.assertEqual(asked([left], b"book LOC 1\n", 1, sequence=number, seconds=4), [b"ok %d" % number])
        leaving.end(0, None)
        self.assertEqual(fleet.owner().name, left.name)
