"""A session alone, beside a program that is two pipes: what it is given, in which order, and who is at which place."""
from __future__ import annotations

import os
import random
import unittest
from typing import Callable, Iterator
from unittest import mock

from nrm import desks_frames as frames
from nrm.journal.stores import Opened
from nrm.server import sessions
from nrm.server.access import Right
from nrm.server.loop import Loop
from nrm.server.sessions import Session

GATHER = 0.003
PLACES = 3
RUNS, STEPS = 150, 80


class Client:
    """In the place of a client: its lines are its name, so that what is given can be told from what others sent."""
    is_waiting, is_parting = True, False
    unused = tail = 0

    def __init__(self, name: str) -> None:
        self.name, self.line = name, f"{name}\n".encode()
        self.right = Right(name, "", ("look",))
        self.is_let_in, self.place = False, -1
        self.told: list[str] = []

    def let_in(self, place: int, give: Callable[[Client, bytes], None], part: object, data: bytes) -> None:
        self.place, self.is_let_in, self.is_waiting = place, True, False
        give(self, data)

    def used(self, count: int, data: bytes) -> None:
        """The program has answered something."""

    def closed(self, why: str) -> None:
        self.is_let_in = False
        self.told.append(why)

    def watch(self) -> None:
        """Nothing is read from it."""


class Commits:
    """In the place of those who write rows: they are kept when a test says so."""

    def __init__(self) -> None:
        self.gather, self.expected = GATHER, set()
        self.writer, self.keep = mock.Mock(is_still=lambda given: False), mock.Mock()


class Pipes:
    """In the place of a program: who is at each place by what it was given, and what is wrong with that."""
    returncode = 0

    def __init__(self) -> None:
        (given, stdin), (stdout, tells) = os.pipe(), os.pipe()
        os.set_blocking(given, False)
        self.given, self.stdin = open(given, "rb", 0), open(stdin, "wb", 0)
        self.stdout, self.tells = open(stdout, "rb", 0), open(tells, "wb", 0)
        self.left = b""
        self.there: dict[int, str] = {}
        self.gone: set[str] = set()
        self.wrong: list[str] = []

    def wait(self, _: float | None = None) -> int:
        return 0

    def close(self) -> None:
        for it in (self.given, self.stdin, self.stdout, self.tells):
            it.close()

    def frames(self) -> Iterator[tuple[list[str], bytes]]:
        """What came since this was asked last."""
        self.left += self.given.read(1 << 20) or b""
        while self.left:
            line, _, self.left = self.left.partition(b"\n")
            words = line.decode().split(" ")
            size = int(words[-1]) if words[0] in ("came", "again") else 0
            data, self.left = self.left[:size], self.left[size:]
            yield words, data

    def look(self) -> None:
        """Takes what came, as the program does: what is for a place where nobody is, is nothing."""
        for words, data in self.frames():
            place = int(words[1]) if len(words) > 1 else -1
            name = self.there.get(place)
            if words[0] == "open":
                self.wrong += [f"{words[2]} is opened at the place of {name}"] if name else []
                self.there[place] = words[2]
            elif words[0] == "came" and name and {*data.split()} != {name.encode()}:
                self.wrong.append(f"{name} is taken to have sent {data!r}")
            elif words[0] == "gone" and name and name not in self.gone:
                self.wrong.append(f"{name} is taken to be gone")


class Places(unittest.TestCase):
    def setUp(self) -> None:
        few = mock.patch.object(frames, "PLACES", PLACES)
        few.start()
        self.addCleanup(few.stop)
        self.pipes, self.loop = Pipes(), Loop()
        self.begun()
        self.addCleanup(self.close)

    def close(self) -> None:
        self.pipes.close()
        self.loop.poll.close()

    def begun(self) -> None:
        """A session whose program answers."""
        self.close()
        self.loop, self.commits = Loop(), Commits()
        self.session = Session(self.loop, mock.Mock(), self.commits, Opened(1, "hub", "first", "p", False, None, 0, 1),
                               mock.Mock(), mock.Mock(), mock.Mock())
        self.begin()

    def begin(self) -> None:
        """Its program begins, or a next one."""
        self.pipes.close()
        self.pipes = Pipes()
        with mock.patch.object(sessions, "begun", lambda *_: self.pipes):
            self.session.start(["program"], b"", iter(()))
        self.say("ready 0\n")
        self.given()

    def say(self, text: str) -> None:
        """The program writes frames."""
        self.pipes.tells.write(text.encode())
        self.session.hear(0)

    def end_program(self) -> None:
        """The program ends."""
        self.pipes.tells.close()
        self.session.hear(0)

    def pass_time(self, seconds: float) -> None:
        """Time goes on, and what is due is done."""
        loop = self.loop
        loop.now += seconds
        loop.later, due = [it for it in loop.later if it[0] > loop.now], [it for it in loop.later if it[0] <= loop.now]
        loop.soon += [it[2] for it in due]
        loop.do_what_is_due()

    def given(self) -> list[str]:
        """The lines of what the program was given in this round."""
        self.loop.do_what_is_due()
        return [" ".join([*words[:2], *data.decode().split()]) if data else " ".join(words[:3])
                for words, data in self.pipes.frames()]

    def came(self, name: str) -> Client:
        """A client that has come, with a line."""
        made = Client(name)
        self.session.enter(made, made.line)
        return made

    def test_who_comes_is_given_in_the_same_round(self) -> None:
        """As long as nothing is written and nobody is awaited."""
        self.came("A")
        self.assertEqual(self.given(), ["open 0 A", "came 0 A"])
        self.assertEqual(self.commits.expected, {self.session})

    def test_nothing_is_awaited_of_who_has_only_come(self) -> None:
        """Rows of other networks don't wait for it."""
        made = Client("A")
        made.let_in = lambda *_: None
        self.session.enter(made, b"")
        self.assertEqual((self.given(), self.commits.expected), (["open 0 A"], set()))

    def test_what_is_held_of_one_is_given_before_the_next_has_the_place(self) -> None:
        """Rows are being written when more comes, and the program closes the client before it has that."""
        for what, held in ("came", "came 0 A"), ("gone", "gone 0"):
            with self.subTest(what):
                self.begun()
                one, _ = self.came("A"), self.came("AWAITED")
                self.given()
                self.say("keep 0\n")
                self.session.give(one, one.line) if what == "came" else self.session.part(one)
                self.assertEqual(self.given(), [])
                self.session.kept(0)
                self.say("send 0 4 0\nclose 0 sequence\nsend 1 4 0\n")
                self.came("B")
                self.assertEqual(self.given(), ["kept"])
                self.pass_time(GATHER)
                self.assertEqual(self.given(), [held, "open 2 B", "came 2 B"])
                self.came("C")
                self.assertEqual(self.given(), ["open 0 C", "came 0 C"], "nothing of A is to come")

    def test_who_waits_for_a_place_has_it_once_nothing_of_the_former_is_to_come(self) -> None:
        some = [self.came(f"A{at}") for at in range(PLACES)]
        last = self.came("LAST")
        self.assertEqual((len(self.given()), last.place), (2 * PLACES, -1))
        self.say("keep 0\n")
        self.session.give(some[1], some[1].line)
        self.session.kept(0)
        self.say("send 0 4 0\nclose 1 long\n")
        self.assertEqual((self.given(), last.place), (["kept"], -1))
        self.pass_time(GATHER)
        self.assertEqual(self.given(), ["came 1 A1", "open 1 LAST", "came 1 LAST"])

    def test_nobody_is_awaited_who_is_closed(self) -> None:
        one, two = self.came("A"), self.came("B")
        self.given()
        self.say("keep 0\n")
        self.session.kept(0)
        self.say("send 0 2 0\nclose 0 sequence\n")
        self.session.give(two, two.line)
        self.assertEqual((self.given(), one.told), (["kept", "came 1 B"], ["sequence"]))

    def test_a_next_program_is_given_nothing_of_the_clients_of_the_last(self) -> None:
        """And all places are free."""
        some = [self.came(f"A{at}") for at in range(PLACES)]
        self.given()
        self.say("keep 0\n")
        for it in some:
            self.session.give(it, it.line)
        self.session.kept(0)
        self.say("close 1 long\n")
        self.end_program()
        self.assertEqual([it.told for it in some], [["program 0"], ["long"], ["program 0"]])
        self.begin()
        for at in range(PLACES):
            self.came(f"B{at}")
        self.assertEqual(self.given(), [it for at in range(PLACES) for it in (f"open {at} B{at}", f"came {at} B{at}")])

    def test_each_is_taken_to_have_sent_what_it_sent(self) -> None:
        """Whatever comes in which order: clients, lines, ends, rows that are written, closings, and next programs."""
        for seed in range(RUNS):
            self.begun()
            drive = Drive(self, random.Random(seed))
            for _ in range(STEPS):
                drive.step()
                self.assertEqual(self.pipes.wrong, [], f"seed {seed}")
            drive.end()
            self.assertEqual(self.pipes.wrong, [], f"seed {seed}")


class Drive:
    """A session, its clients and its program, at random."""

    def __init__(self, test: Places, draw: random.Random) -> None:
        self.test, self.draw, self.session = test, draw, test.session
        self.clients: list[Client] = []
        self.is_awaiting = False  # that rows are kept
        self.steps: list[Callable[[], None]] = [self.come, self.send, self.send, self.leave, self.go_on, self.go_on,
                                                self.program, self.program, self.kept, self.kept]

    def step(self) -> None:
        if self.draw.random() < 0.02:
            self.is_awaiting = False
            self.test.end_program()
            self.test.begin()
        self.draw.choice(self.steps)()

    def seated(self) -> list[Client]:
        return [it for it in self.clients if it.is_let_in and not it.is_parting]

    def come(self) -> None:
        self.clients.append(self.test.came(f"C{len(self.clients)}"))

    def send(self) -> None:
        if some := self.seated():
            it = self.draw.choice(some)
            self.session.give(it, it.line * self.draw.randint(1, 3))

    def leave(self) -> None:
        if some := self.seated():
            it = self.draw.choice(some)
            it.is_parting = True
            self.test.pipes.gone.add(it.name)
            self.session.part(it)

    def go_on(self) -> None:
        self.test.pass_time(self.draw.choice([0, 0.001, 2 * GATHER]))

    def program(self) -> None:
        """The program has rows written, or closes some clients."""
        pipes = self.test.pipes
        pipes.look()
        if self.is_awaiting:
            return
        if self.draw.random() < 0.5:
            self.is_awaiting = True
            self.test.say("keep 0\n")
            return
        for place in [it for it in pipes.there if self.draw.random() < 0.4]:
            del pipes.there[place]
            self.test.say(f"send {place} 0 0\nclose {place} sequence\n")

    def kept(self) -> None:
        if self.is_awaiting:
            self.is_awaiting = False
            self.session.kept(0)

    def end(self) -> None:
        """All that is to come comes, each client is closed, and then all places are free."""
        self.kept()
        while self.session.coming or self.session.places:
            self.test.pass_time(2 * GATHER)
            self.test.pipes.look()
            for place in [*self.test.pipes.there]:
                del self.test.pipes.there[place]
                self.test.say(f"close {place} gone\n")
        self.test.pass_time(2 * GATHER)
        self.test.assertEqual((sorted(self.session.free), [it.told for it in self.clients if len(it.told) != 1]),
                              ([*range(PLACES)], []))
