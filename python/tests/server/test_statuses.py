"""The status that a server makes of its counters, its sessions and its journal."""
from __future__ import annotations

import contextlib
from types import SimpleNamespace
from unittest import mock

from harness import PlaceTest
from nrm.journal.networks import end_network, open_network
from nrm.journal.sqlite_store import Sqlite
from nrm.journal.sqlite_tables import begin, opened, using
from nrm.server.counters import Counters
from nrm.server.sole_owner import Sole
from nrm.server.status_now import StatusWriter
from nrm.server.status_text import NetworkStatus, status_of


class Statuses(PlaceTest):
    def setUp(self) -> None:
        super().setUp()
        self.journal, self.loop = str(self.folder / "journal"), SimpleNamespace(now=10.0)
        begin(self.journal)
        self.open("one")
        self.reader = self.enter(contextlib.closing(opened(self.journal)))
        self.counters, self.sessions = Counters(), {}
        owning = Sole(Sqlite(self.journal), self.reader, 7, mock.Mock())
        self.programs = SimpleNamespace(counters=self.counters, sessions=self.sessions, loop=self.loop,
                                        fits=lambda _: True, answering=SimpleNamespace(checksum="ab12"))
        self.teller = StatusWriter(owning, self.programs, 7, 50)

    def enter(self, manager: contextlib.AbstractContextManager) -> object:
        made = manager.__enter__()
        self.addCleanup(manager.__exit__, None, None, None)
        return made

    def open(self, name: str) -> None:
        with using(self.journal, is_to_write=True) as connection:
            open_network(connection, name, "bid", b"file", "ab12")

    def session(self, state: int, **more: object) -> SimpleNamespace:
        """What a status needs of a session."""
        return SimpleNamespace(**{"state": state, "process": None, "lines": 9, "places": {0: 1, 3: 1}, "coming": [1],
                                  "memory": 4, "network": SimpleNamespace(halted=None), **more})

    def networks(self) -> list[NetworkStatus]:
        return [*self.teller.status(0, 0, False).networks]

    def test_what_is_counted_is_told(self) -> None:
        self.counters.closed.update(["idle", "program 137", "idle"])
        self.counters.commit(0.25, 3, True)
        self.counters.begun, self.counters.ended = 9, 3
        told = status_of(self.teller.status(4, 5, True).text())
        self.assertEqual(told.closed, {"idle": 2, "program-137": 1}, "no reason has a space")
        self.assertEqual((told.clients.now, told.clients.most, told.commits.waiting, told.commits.rows), (4, 50, 5, 3))
        self.assertEqual((told.programs.now, told.server.epoch, told.server.stopping), (6, 7, True))
        self.assertEqual(dict(told.commit_times)[0.5], 1)

    def test_each_state_has_its_word(self) -> None:
        """The lines of a network whose program runs are those that the program has, which are more by then."""
        for state, word in enumerate(("rests", "waits", "begins", "answers", "ends")):
            self.sessions["one"] = self.session(state)
            self.assertEqual(self.networks(), [NetworkStatus("one", "bid", word, 3, 0, False, 4)])
        self.sessions["one"] = self.session(3, process=1)
        self.assertEqual(self.networks(), [NetworkStatus("one", "bid", "answers", 3, 9, False, 4)])

    def test_a_network_of_another_program_has_a_word_too(self) -> None:
        """Whether somebody came to it or not, unless it has ended, or a program runs."""
        self.programs.fits = lambda network: network.program != "ab12"
        self.assertEqual([it.state for it in self.networks()], ["version"])
        for state, word in enumerate(("version", "waits", "begins", "answers")):
            self.sessions["one"] = self.session(state)
            self.assertEqual([it.state for it in self.networks()], [word])
        self.assertEqual(status_of(self.teller.status(0, 0, False).text()).unfit(), [])
        self.sessions.clear()
        self.assertEqual(status_of(self.teller.status(0, 0, False).text()).unfit(), ["one"])
        with using(self.journal, is_to_write=True) as connection:
            end_network(connection, "one")
        self.loop.now += 2
        self.assertEqual([it.state for it in self.networks()], ["rests"])

    def test_the_journal_is_asked_once_a_second(self) -> None:
        """So one that was put into it is there a second later; but a network that is halted is so at once."""
        self.sessions["one"] = self.session(0)
        self.networks()
        self.open("two")
        with mock.patch("nrm.server.sole_owner.networks_in", side_effect=AssertionError):
            self.loop.now += 0.9
            self.sessions["one"].network.halted = "row 2"
            self.assertEqual(self.networks(), [NetworkStatus("one", "bid", "rests", 3, 0, True, 4)])
        self.loop.now += 0.2
        self.assertEqual([it.network for it in self.networks()], ["one", "two"])
