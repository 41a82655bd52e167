"""What a manager of services is told: by which socket, and that nobody waits for it."""
from __future__ import annotations

import os
import time
from types import SimpleNamespace
from unittest import mock

from harness import PlaceTest
from nrm.server.notify import Manager
from nrm.web.web_run import Signs
from operating.managers import FakeManager


class Notify(PlaceTest):
    def fake(self, is_abstract: bool = False) -> FakeManager:
        made = FakeManager(self.folder, is_abstract)
        self.addCleanup(made.close)
        return made

    def test_what_is_told(self) -> None:
        """By a path and by a name that is none; a status once, until it is another."""
        for is_abstract in (False, True):
            fake = self.fake(is_abstract)
            manager = Manager(fake.variables())
            manager.ready("none")
            manager.works("none")
            manager.works("one")
            manager.stops()
            self.assertEqual([fake.next(1) for _ in range(4)], [
                {"READY": "1", "STATUS": "none"}, {"WATCHDOG": "1"}, {"STATUS": "one", "WATCHDOG": "1"},
                {"STOPPING": "1"}])
            self.assertEqual(fake.next(0.01), {})

    def test_signs_of_work_are_for_who_waits_for_them(self) -> None:
        fake = self.fake()
        for more, wanted in (({}, {}), ({"WATCHDOG_USEC": "9", "WATCHDOG_PID": str(os.getpid())}, {"WATCHDOG": "1"}),
                             ({"WATCHDOG_USEC": "9", "WATCHDOG_PID": "1"}, {}),
                             ({"WATCHDOG_USEC": "9"}, {"WATCHDOG": "1"})):
            Manager({"NOTIFY_SOCKET": fake.name, **more}).works("")
            self.assertEqual(fake.next(0.05), wanted, more)

    def test_there_may_be_none(self) -> None:
        """No socket, a name that means nothing here, a path at which nobody is, and one that is too long."""
        for name in (None, "", "vsock:2:1234", "relative", str(self.folder / "none"), "/" + "x" * 200, "@" + "x" * 200):
            manager = Manager({"WATCHDOG_USEC": "9", **({} if name is None else {"NOTIFY_SOCKET": name})})
            for call in (lambda: manager.ready("one"), lambda: manager.works("two"), manager.stops):
                call()

    def test_what_couldnt_be_taken_is_told_with_the_next(self) -> None:
        """Where as much waits as may, nobody waits for room."""
        fake = self.fake()
        manager = Manager(fake.variables())
        begun, count = time.monotonic(), 0
        while not manager.untold:
            manager.works("")
            count += 1
            self.assertLess(count, 100_000)
        manager.ready("one")
        manager.works("two")
        self.assertLess(time.monotonic() - begun, 20)
        fake.forget()
        manager.stops()
        self.assertEqual(fake.next(1), {"READY": "1", "STATUS": "two", "WATCHDOG": "1", "STOPPING": "1"})
        manager.works("two")
        self.assertEqual(fake.next(1), {"WATCHDOG": "1"}, "what was told isn't told again")

    def test_both_threads_of_the_web_must_turn(self) -> None:
        told: list[str] = []
        web = SimpleNamespace(following=SimpleNamespace(turns=0, networks={"one": 1}))
        now = [100.0]
        with mock.patch("nrm.web.web_run.time.monotonic", lambda: now[0]):
            signs = Signs(SimpleNamespace(works=told.append), web)  # type: ignore[arg-type]
            for turns, seconds, wanted in ((0, 5, 0), (1, 0.1, 1), (2, 0.5, 0), (2, 0.6, 1), (2, 9, 0), (3, 1, 1)):
                web.following.turns = turns
                now[0] += seconds
                before = len(told)
                signs.turned()
                self.assertEqual(len(told) - before, wanted, (turns, seconds))
        self.assertEqual(set(told), {"1 networks followed"})
