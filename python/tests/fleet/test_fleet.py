"""Several servers share the networks of a journal: any takes a desk, and when one is lost others go on."""
from __future__ import annotations

import signal
import time
import unittest

from fleet.fleets import FleetTest, Server, stopped
from harness import SECONDS, meanwhile, wait_for
from nrm.desk import Desk, Sold
from nrm.journal.stores import REPLACED, Head, Member, SeenServers
from nrm.server.fleet_owners import preferred, wanted_of
from nrm.server.status_text import ask_status
from server.serves import PATIENT

FIRST = b"desk net D1 1\nbook LOC 1\n"


class Fleets(FleetTest):
    def three(self, *options: str) -> list[Server]:
        """Three servers, of which the one that has the network comes first."""
        self.open("net")
        return self.settled([self.serve(it, *options) for it in ("a", "b", "c")])

    def test_any_server_takes_a_desk(self) -> None:
        """It passes it on to the owner, byte for byte, with the same reply to what is sent again."""
        for at, server in enumerate(self.three()):
            self.assertEqual(server.answer(FIRST), b"at 1\nok 1\n")
            more = b"desk net D%d\nbook LOC 2\nleg AB\n" % (5 + at)
            seats = 3 + 2 * at
            self.assertEqual(server.answer(more), b"at 1\nok %d\nleg AB seats 300 authorised 300 sold %d left %d\n"
                             b"on AB LOC %d\n\n" % (2 + at, seats, 300 - seats, seats))
            self.assertEqual(server.talk(b"desk none D1\n"), b"closed network\n")
        self.assertEqual(len(self.rows()), 4)

    def test_a_desk_is_sent_on(self) -> None:
        owner, *others = self.three("--send-on")
        for it in others:
            self.assertEqual(it.answer(FIRST), b"closed moved 127.0.0.1:%d\n" % owner.port)
            with Desk(it.place, f"D{it.port}", network="net") as desk:
                self.assertIsInstance(desk.book("LOC", 1), Sold)

    def test_one_is_killed_and_the_retry_is_answered_alike(self) -> None:
        owner, *others = self.three()
        self.assertEqual(owner.answer(FIRST), b"at 1\nok 1\n")
        owner.kill()
        killed = time.monotonic()
        for it in others:
            self.assertEqual(it.answer(FIRST + b"book LOC 2\n"), b"at 1\nok 1\nok 2\n")
        self.assertLess(time.monotonic() - killed, SECONDS)
        self.assertEqual(self.rows(), [("D1", 1, "book LOC 1", "ok 1"), ("D1", 2, "book LOC 2", "ok 2")])
        self.assertEqual([it for it, in self.rows("epoch")], sorted({it for it, in self.rows("epoch")}))

    def test_one_that_was_stopped_past_its_lease_writes_and_tells_nothing(self) -> None:
        owner, other, _ = self.three()
        with owner.connect() as buyer, owner.connect() as looker:
            for desk, client in (b"D2", buyer), (b"D3", looker):
                client.sendall(b"desk net %b 1\nask LOC\n" % desk)
                wait_for(lambda: client.recv(1000).endswith(b"leg AB\n"), "a reply")
            with stopped(owner):
                buyer.sendall(b"book LOC 5\n")
                looker.sendall(b"ask LOC\n")
                self.assertEqual(other.answer(FIRST), b"at 1\nok 1\n")
            for client in (buyer, looker):
                told = client.recv(1000)
                self.assertIn(told, (b"closed wait\n", b""), "and no reply")
        self.assertEqual(self.rows("desk"), [("D1",)])

    def test_one_that_leaves_hands_over_first(self) -> None:
        """A desk that goes on meanwhile gets each reply; another server has the network before this one stops."""
        owner, *others = self.three()
        with Desk([it.place for it in others], "D1", network="net", seconds=SECONDS) as desk:
            for number in range(1, 201):
                if number == 50:
                    owner.send(signal.SIGTERM)
                self.assertEqual(desk.book("LOC", 1), Sold(number))
                time.sleep(0.01)
        owner.end(0, None)
        self.want_in(owner.told(), "event=leaving networks=1\n")
        self.assertNotEqual(self.owner(), owner.name)
        self.assertEqual([it for it, in self.rows("sequence")], [*range(1, 201)])
        told = [owner.told().index(it) for it in ("event=leaving", "event=lost network=net", "event=stopping")]
        self.assertEqual(told, sorted(told))

    def test_the_last_one_ends_at_once(self) -> None:
        self.open("net")
        server = self.serve("one")
        self.assertEqual(server.answer(FIRST), b"at 1\nok 1\n")
        server.end()
        self.assertEqual(self.owner(), None)
        self.assertEqual(self.serve("two").answer(FIRST), b"at 1\nok 1\n")

    def test_one_that_leaves_when_the_database_is_gone_ends(self) -> None:
        """Nobody can take its networks."""
        owner = self.three()[0]
        self.assertEqual(owner.answer(FIRST), b"at 1\nok 1\n")
        self.database.kill()
        try:
            owner.end()
        finally:
            self.database.start()

    def test_another_start_by_the_same_name_is_the_one(self) -> None:
        """The earlier one ends with a status of its own, by which it isn't begun again."""
        self.open("net")
        first = self.serve("one")
        self.assertEqual(first.answer(FIRST), b"at 1\nok 1\n")
        second = self.serve("one")
        self.assertEqual(second.answer(FIRST), b"at 1\nok 1\n")
        first.end(REPLACED, None)
        self.want_in(first.told(), "event=lost why=\"another server was started with the name one, at "
                     f"127.0.0.1:{second.port}: to start this one again, give it a name of its own, or stop the other\"")
        self.assertEqual(second.talk(FIRST), b"at 1\nok 1\n")

    def test_two_that_are_begun_again_take_a_name_once(self) -> None:
        """Each by a supervisor that begins it again unless it ended as the unit says: the later one stays."""
        self.open("net")
        supervisors = [meanwhile(self.supervise, "one")]
        wait_for(lambda: len(self.servers) == 1, "the first", PATIENT)
        supervisors.append(meanwhile(self.supervise, "one"))
        wait_for(lambda: len(self.servers) > 1, "the second", PATIENT)
        supervisors[0].join(SECONDS)
        self.assertEqual([it.is_alive() for it in supervisors], [False, True], "one takes the name from the other")
        self.assertEqual(len(self.servers), 2)
        self.assertEqual(self.servers[1].answer(FIRST), b"at 1\nok 1\n")
        self.assertEqual([it.process.poll() for it in self.servers], [REPLACED, None])

    def supervise(self, name: str) -> None:
        """Begins a server again and again, but if it was killed, or another has its name."""
        while self.serve(name).process.wait() not in (-signal.SIGKILL, REPLACED):
            time.sleep(0.5)

    def test_the_database_is_lost_in_a_commit(self) -> None:
        """It is killed again and again, and comes back: each line is there once."""
        server = self.three()[0]
        with Desk([it.place for it in self.servers], "D1", network="net", seconds=SECONDS) as desk:
            for number in range(1, 61):
                if number in (20, 40):
                    self.database.kill()
                    self.database.start()
                self.assertEqual(desk.book("LOC", 1), Sold(number))
        self.assertEqual([it for it, in self.rows("sequence")], [*range(1, 61)])
        self.want_in("".join(it.told() for it in self.servers), "event=taken network=net epoch=")
        self.assertEqual(server.process.poll(), None)

    def test_a_journal_that_was_changed_halts_its_network(self) -> None:
        self.open("net", "other")
        server = self.serve("one")
        for network in b"net", b"other":
            self.assertEqual(server.answer(b"desk %b D1 1\nbook LOC 1\nbook LOC 2\n" % network), b"at 1\nok 1\nok 2\n")
        server.kill()
        self.database.ask("ALTER TABLE line DISABLE TRIGGER ALL; UPDATE line SET reply = 'ok 9' WHERE network = 1 AND "
                          "number = 2; ALTER TABLE line ENABLE TRIGGER ALL")
        server = self.serve("one")
        wait_for(lambda: server.answer(b"desk net D1\n") == b"closed halted\n", "a halted network", PATIENT)
        wait_for(lambda: self.database.ask("SELECT halted FROM network ORDER BY network") == [
            ("row 2, `book LOC 2` of D1 2 with the reply `ok 9`, isn't what the program answers",), (None,)], "why")
        self.assertEqual(server.answer(b"desk other D1 3\nbook LOC 1\n"), b"at 3\nok 3\n")

    def test_lines_that_the_database_has_lost_are_missed(self) -> None:
        self.open("net")
        server = self.serve("one")
        self.assertEqual(server.answer(b"desk net D1 1\nbook LOC 1\nbook LOC 2\n"), b"at 1\nok 1\nok 2\n")
        time.sleep(1)
        self.database.ask("ALTER TABLE line DISABLE TRIGGER ALL; DELETE FROM line WHERE number = 2; UPDATE head SET "
                          "lines = 1; ALTER TABLE line ENABLE TRIGGER ALL")
        server.wait_for("event=halted")
        wait_for(lambda: self.database.ask("SELECT halted FROM network") == [
            ("lines 2 to 2 were answered and are gone from the journal",)], "a halted network")
        wait_for(lambda: server.answer(b"desk net D1\n") == b"closed halted\n", "a halted network", PATIENT)

    def test_another_program_takes_nothing(self) -> None:
        self.open("net", program="0" * 64)
        server = self.serve("one")
        self.assertEqual(server.talk(b"desk net D1\n"), b"closed wait\n")
        self.want_in(server.told(), "event=version network=net")
        self.assertIsNone(self.owner())

    def test_a_network_that_is_opened_later_is_answered(self) -> None:
        self.open("net")
        server = self.serve("one")
        self.assertEqual(server.answer(b"D1\n"), b"bad\n", "it is the only one")
        self.open("late")
        self.assertEqual(server.answer(b"desk late D1\nbook LOC 1\n"), b"at 1\nok 1\n")

    def test_the_status_tells_the_owners(self) -> None:
        owner, other, third = self.three()
        self.assertEqual(owner.answer(FIRST), b"at 1\nok 1\n")
        self.assertEqual(other.answer(FIRST), b"at 1\nok 1\n")
        for it in owner, other, third:
            def shares() -> list[tuple[str, str]]:
                return [(share.network, share.owner) for share in ask_status(it.place, SECONDS).shares]

            wait_for(lambda: shares() == [("net", owner.name)], "the owner, once each has looked", PATIENT)
        self.assertEqual([one.network for one in ask_status(owner.place, SECONDS).networks], ["net"])


def member(server: int, name: str, program: str = "p", leaving: bool = False, young: bool = False) -> Member:
    return Member(server, name, f"{name}:1", program, leaving, young)


def head(number: int, server: int | None) -> Head:
    return Head(number, f"n{number}", "first", "p", False, None, 5, 1, server)


def seen(members: list[Member], heads: list[Head], dead: frozenset[int] = frozenset(),
         is_sure: bool = True) -> SeenServers:
    return SeenServers(members[0].server, tuple(members), dead, is_sure, tuple(heads), None, 0)


class Owning(unittest.TestCase):
    """Whose networks are to be, without a database."""

    def test_few_move_when_one_goes(self) -> None:
        members = [member(it, f"s{it}") for it in range(1, 5)]
        heads = [head(it, None) for it in range(1, 401)]
        before = {it.number: preferred(it, members).server for it in heads}
        for it in members:
            self.assertTrue(60 < list(before.values()).count(it.server) < 140, before)
        after = {it.number: preferred(it, members[1:]).server for it in heads}
        self.assertTrue(all(after[it] == before[it] for it in before if before[it] != 1))

    def test_who_takes_moves_and_follows(self) -> None:
        """Nobody's is taken; who is dead has lost his; of one that is alive what is preferred here is moved; and who
        would be next follows."""
        one, two = member(1, "s1"), member(2, "s2")
        at_one = next(it for it in range(1, 99) if preferred(head(it, None), [one, two]) is one)
        for members, owner, more, wanted in (
                ([one, two], None, {}, ([at_one], [], [])),
                ([one, two], 9, {}, ([at_one], [], [])),
                ([one, two], 9, {"is_sure": False}, ([], [], [at_one])),
                ([one, two], 9, {"is_sure": False, "dead": frozenset({9})}, ([at_one], [], [])),
                ([one, two], 2, {}, ([], [at_one], [at_one])),
                ([two, one], 1, {}, ([], [], [at_one])),
                ([one, two], 1, {}, ([at_one], [], [])),
                ([member(1, "s1", young=True), two], 2, {}, ([], [], [])),
                ([member(1, "s1", leaving=True), two], None, {}, ([], [], [])),
                ([member(1, "s1", "q"), two], None, {}, ([], [], [])),
                ([member(1, "s1", young=True)], None, {}, ([at_one], [], [])),
                ([member(3, "s1", young=True), member(2, "s2", young=True)], None, {}, ([], [], []))):
            with self.subTest(members=members, owner=owner, **more):
                found = wanted_of(seen(members, [head(at_one, owner)], **more), {})
                kinds = found.takes, found.moves, found.follows
                self.assertEqual(tuple([it.number for it in some] for some in kinds), wanted)
        self.assertEqual(wanted_of(seen([one], [head(at_one, None)]), {at_one: 1}).takes, (), "it has it already")
