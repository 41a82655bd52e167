"""Faults as they are seen by who operates the server: each in the log, and in what is counted."""
from __future__ import annotations

import contextlib
import os
import signal
import sqlite3
import unittest

from harness import SECONDS, wait_for
from nrm.server.clock_jumps import Jumps
from nrm.server.counters import Counters
from nrm.server.status_text import Status, ask_status
from nrm.web.followed_journal import Following
from nrm.web.metrics import what_is_wrong
from nrm.web.recent_status import RecentStatus
from server.faults import clock_off, failing, library
from server.servers import answers
from server.serves import ONE, Serve, ServeTest, all_told, talk

HOUR = 3600
FRONT = "level={} tool=nrm-tools-serve event="


class Faults(ServeTest):
    def status(self, serve: Serve) -> Status:
        return ask_status(serve.path, SECONDS)

    def want_told(self, serve: Serve, level: str, event: str) -> None:
        wait_for(lambda: FRONT.format(level) + event in serve.told(), f"{event} in {serve.told()!r}")

    def test_a_full_disk(self) -> None:
        """It is told and ends the server, so that what is counted is that none answers."""
        journal = self.journal(file=ONE.encode())
        for kind, why in ("write", "database or disk is full"), ("fsync", "disk I/O error"):
            with self.serve(journal, variables=failing(library(self.folder), journal, kind, 12)) as serve:
                asked = RecentStatus(lambda: ask_status(serve.path, SECONDS), every=0)
                following = Following(str(journal))
                self.assertEqual([*what_is_wrong(following, asked.status())], [])
                self.assertEqual(self.status(serve).commits.failed, 0)
                with serve.connect() as client:
                    with contextlib.suppress(OSError):
                        for _ in range(50):
                            client.sendall(b"book LOC 1\n")
                            client.recv(100)
                    all_told(client)
                serve.end(74, sent=None)
                self.want_told(serve, "error", f'journal-fault why="{journal}: {why}"\n')
                self.want_told(serve, "info", "stopped status=74\n")
                self.assertEqual([*what_is_wrong(following, asked.status())],
                                 [f"no status of {serve.path}: No such file or directory"])

    def test_a_row_that_the_journal_does_not_take(self) -> None:
        """Where another process has written one of its number: the network is halted, and the others aren't."""
        journal = self.journal("one", "two", file=ONE.encode())
        with self.served(journal) as serve:
            self.assertEqual(talk(serve, b"desk one D1\nbook LOC 1\n"), b"at 1\nok 1\n")
            self.assertEqual(self.status(serve).commits.failed, 0)
            with contextlib.closing(sqlite3.connect(journal, isolation_level=None)) as other:
                other.execute("INSERT INTO line SELECT network, 2, epoch, desk, 9, at, line, reply FROM line")
            talk(serve, b"desk one D1\nbook LOC 1\n")
            self.want_told(serve, "error", "halted network=one row=2 why=")
            told = self.status(serve)
            self.assertEqual((told.commits.failed, [it.halted for it in told.networks]), (1, [True, False]))
            self.assertEqual(talk(serve, b"desk two D1\nbook LOC 1\n"), b"at 1\nok 1\n")

    def test_a_wrong_token(self) -> None:
        desks = self.file("desks.toml", "")
        self.told("token", desks, "C-7", "look")
        with self.served(self.journal(file=ONE.encode()), "--desks", desks) as serve:
            for _ in range(2):
                self.assertEqual(talk(serve, b"token wrong\nask LOC\n"), b"closed token\n")
            self.want_told(serve, "warning", "token-refused count=")
            self.want_told(serve, "warning", "closed reason=token\n")
            self.assertEqual(self.status(serve).closed, {"token": 2})

    def test_a_clock_that_goes_back_an_hour(self) -> None:
        """The server answers as before."""
        journal = self.journal(file=ONE.encode())
        with self.served(journal, variables=clock_off(library(self.folder), -HOUR, 40)) as serve:
            self.assertEqual(talk(serve, b"desk D1 1\nbook LOC 1\n"), b"at 1\nok 1\n")
            self.want_told(serve, "warning", "time-jumped seconds=-3")
            self.assertEqual(self.status(serve).server.time_jumps, 1)
            self.assertEqual(talk(serve, b"desk D1 1\nbook LOC 1\nbook LOC 1\n"), b"at 1\nok 1\nok 2\n")

    def test_a_program_that_is_killed(self) -> None:
        with self.served(self.journal(file=ONE.encode())) as serve, serve.connect() as client:
            self.assertEqual(answers(client, b"desk D1\nbook LOC 1\n", 2), [b"at 1\n", b"ok 1\n"])
            os.kill(serve.program(), signal.SIGKILL)
            self.assertEqual(all_told(client), b"closed program 137\n")
            self.want_told(serve, "warning", "program-ended network=hub status=137")
            self.want_told(serve, "warning", 'closed reason="program 137" network=hub\n')
            told = self.status(serve)
            self.assertEqual((told.closed, told.programs.begun, told.programs.ended), ({"program-137": 1}, 1, 1))
            self.assertEqual(talk(serve, b"desk D1\n"), b"at 2\n")
            self.assertEqual(self.status(serve).programs.begun, 2)


class JumpsTest(unittest.TestCase):
    def test_what_is_a_jump(self) -> None:
        """In both ways from five seconds on; time that goes by is none, and a jump is one once."""
        told: list[tuple[str, object]] = []

        class Events:
            def tell(self, event: str, **fields: object) -> None:
                told.append((event, fields["seconds"]))
        wall, steady, counters = [1e9], [50.0], Counters()
        jumps = Jumps(Events(), counters, lambda: wall[0], lambda: steady[0])  # type: ignore[arg-type]
        for goes, seconds, wanted in ((1.0, 1.0, None), (90.0, 90.0, None), (1.5, 1.0, None), (-3599.0, 1.0, -3600.0),
                                      (1.0, 1.0, None), (6.0, 1.0, 5.0), (5.9, 1.0, None), (-4.0, 1.0, -5.0)):
            wall[0], steady[0] = wall[0] + goes, steady[0] + seconds
            before = len(told)
            jumps.look()
            self.assertEqual(told[before:], [] if wanted is None else [("time-jumped", wanted)], (goes, seconds))
        self.assertEqual(counters.jumps, 3)
