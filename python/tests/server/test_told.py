"""What a server tells of itself: its status, by a line of a client, and its log, whoever reads it."""
from __future__ import annotations

import contextlib
import fcntl
import json
import os
import socket
import time
from pathlib import Path

from harness import SECONDS, wait_for
from nrm import __version__
from nrm.server.status_text import NetworkStatus, Status, ask_status, status_of
from server.servers import answers
from server.serves import LISTENS, ONE, Serve, ServeTest, all_told, talk

MANY = 40_000  # lines of a client that doesn't read
AHEAD = 1000  # lines of one that sends them all before it reads: more is answered than may be unsent
SET_SIZE = 1031  # of a pipe: F_SETPIPE_SZ, which Python before 3.10 doesn't name


class Told(ServeTest):
    def status(self, serve: Serve) -> Status:
        return ask_status(serve.path, SECONDS)

    def test_what_is_counted(self) -> None:
        """Of clients, rows, commits, programs and networks, among which are those that nobody has come to."""
        journal = self.journal("one", "two", file=ONE.encode())
        with self.served(journal) as serve, serve.connect() as client:
            self.same(answers(client, b"desk one D1 1\nbook LOC 1\nbook LOC 2\n", 3), b"at 1\n", b"ok 1\n", b"ok 2\n")
            self.assertEqual(talk(serve, b"desk one D1 1\nbook LOC 9\n"), b"at 1\nclosed sequence\n")
            self.assertEqual(all_told(client), b"closed elsewhere\n")
            self.assertEqual(talk(serve, b"desk three D1 1\n"), b"closed network\n")
            told = self.status(serve)
            self.assertEqual(told.networks, (NetworkStatus("one", "first", "answers", 0, 2, False, 0),
                                             NetworkStatus("two", "first", "rests", 0, 0, False, 0)))
            self.assertEqual((told.clients.now, told.clients.most, told.clients.ever, told.clients.turned_away),
                             (1, 1000, 4, 0))
            self.assertEqual((told.clients.bytes_in, told.clients.bytes_out),
                             (36 + 25 + 16 + 7, 15 + 17 + 5 + 16 + 15))
            self.assertEqual(told.closed, {"sequence": 1, "elsewhere": 1, "network": 1})
            self.assertEqual((told.commits.rows, told.commits.waiting, told.commits.failed), (2, 0, 0))
            self.see_that_commits_are_whole(told)
            self.assertEqual((told.programs.now, told.programs.begun, told.programs.ended), (1, 1, 0))
            self.assertEqual((told.server.version, told.server.program, told.server.epoch, told.server.stopping),
                             (__version__[1:], self.desks_program.checksum(), 1, False))
            self.assertGreaterEqual(told.server.journal_bytes, os.stat(journal).st_size)
            self.want_in(self.told("status", serve.path), "\nnetwork one mode first state answers clients 0 lines 2 ")

    def see_that_commits_are_whole(self, told: Status) -> None:
        """The counts by time agree with that of all."""
        counts = [count for _, count in told.commit_times]
        self.assertEqual((counts, counts[-1]), (sorted(counts), told.commits.count))
        self.assertGreaterEqual(told.commits.count, 1)
        self.assertTrue(0 < told.commits.longest <= told.commits.seconds < SECONDS, told.commits)

    def test_a_client_that_asks_for_the_status(self) -> None:
        """It may ask again, in any pieces, and is closed for another line. One that doesn't read keeps nobody waiting,
        and is dropped."""
        with self.served(self.journal(file=ONE.encode()), "--slow", "2", "--unsent", "65536") as serve:
            one = talk(serve, b"status\n")
            self.assertEqual(status_of(one.decode()).networks[0].network, "hub")
            self.assertEqual(talk(serve, b"status\nstatus\r\nstat").count(b"server "), 2)
            for line in b"\n", b"stats\n", b"desk D1 1\n", b" status\n", b"status \n":
                told = talk(serve, b"status\n" + line + b"status\n")
                self.assertEqual((told.count(b"server "), told[-15:]), (1, b"\nclosed status\n"), line)
            with serve.connect() as client:
                for piece in b"st", b"atus", b"\ns", b"tatus\n":
                    client.sendall(piece)
                    time.sleep(0.02)
                told = b""
                while told.count(b"\n\n") < 2:
                    told += client.recv(65_536)
            with serve.connect() as ahead:
                ahead.sendall(b"status\n" * AHEAD)
                ahead.shutdown(socket.SHUT_WR)
                time.sleep(1)
                self.assertEqual(all_told(ahead).count(b"server "), AHEAD, "as they are taken")
            self.see_that_who_doesnt_read_is_dropped(serve)
            self.assertEqual(talk(serve, b"status of things\n"), b"bad\n")

    def see_that_who_doesnt_read_is_dropped(self, serve: Serve) -> None:
        with serve.connect() as deaf:
            deaf.settimeout(0.2)
            sent = 0
            with contextlib.suppress(OSError):
                for _ in range(MANY // 100):
                    sent += deaf.send(b"status\n" * 100)
            self.assertLess(sent, 7 * MANY)
            begun = time.monotonic()
            self.assertEqual(talk(serve, b"ask LOC\n"), b"ask LOC 300 leg AB\n")
            self.assertLess(time.monotonic() - begun, 30)
            wait_for(lambda: ask_status(serve.path, SECONDS).clients.now == 1, "the end of it")

    def test_the_log_in_another_form(self) -> None:
        """As objects of JSON, and of what is told the errors and warnings alone."""
        journal = self.journal(file=ONE.encode())
        options = "--log", "json", "--log-level", "warning"
        with self.serve(journal, *options, status=0) as serve:
            wait_for(lambda: is_there(serve.path), "the server")
            self.assertEqual(talk(serve, b"desk none D1\n"), b"closed network\n")
            serve.end()
            [told] = [json.loads(it) for it in serve.told().splitlines()]
            self.assertEqual((told["level"], told["event"], told["reason"]), ("warning", "closed", "network"))
        self.stopped("serve", journal, "--socket", "s", "--log", "none", "--program", "p", status=2, says="--log")
        self.stopped("serve", journal, "--socket", "s", "--log-level", "all", "--program", "p", status=2, says="--log")

    def test_nobody_need_read_the_log(self) -> None:
        """Where standard error is a pipe that is full lines are answered, and how much wasn't told is told later."""
        journal, path = self.journal(file=ONE.encode()), self.folder / "socket"
        read, written = os.pipe()
        os.write(written, b"x" * fcntl.fcntl(written, SET_SIZE, 16_384))
        process = self.process("serve", journal, "--socket", path, "--program", *self.desks_program.words,
                               stderr=written)
        os.close(written)
        self.addCleanup(process.kill)
        wait_for(lambda: is_there(path), "the server")
        self.assertEqual(asked_at(path, b"book LOC 1\n"), b"ok 1\n")
        self.assertEqual(os.read(read, 16_384), b"x" * 16_384)
        process.terminate()
        self.assertEqual(process.wait(SECONDS), 0)
        told = b""
        while piece := os.read(read, 4096):
            told += piece
        os.close(read)
        self.want_in(told.decode(), "level=warning tool=nrm-tools-serve event=untold times=3\n")
        self.want_in(told.decode(), "event=stopped status=0\n")
        self.assertNotIn(LISTENS, told.decode())


def is_there(path: Path) -> bool:
    """Whether somebody listens on a socket."""
    with socket.socket(socket.AF_UNIX) as client:
        return client.connect_ex(str(path)) == 0


def asked_at(path: Path, lines: bytes) -> bytes:
    """What a client at a socket is told that sends lines and no more."""
    with socket.socket(socket.AF_UNIX) as client:
        client.settimeout(SECONDS)
        client.connect(str(path))
        client.sendall(lines)
        client.shutdown(socket.SHUT_WR)
        return all_told(client)
