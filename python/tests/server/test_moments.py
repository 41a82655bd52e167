"""Moments of a server of a journal that chance seldom finds, one by one: what it must do when it can't know, when
something is slow, and when it is to end."""
from __future__ import annotations

import os
import signal
import unittest
from contextlib import ExitStack
from pathlib import Path

import preload  # of the folder tests at the top
from harness import SECONDS, wait_for
from nrm.journal.sqlite_writing import Given, SqliteWriter
from nrm.program import Program
from nrm.server.status_text import ask_status
from server.faults import failing, library
from server.servers import answers
from server.serves import ONE, Serve, ServeTest, all_told, journal_of, rows_in, talk

SEES_NO_LOCK = "import fcntl\nfcntl.flock = lambda *_: None\n"
LINES = 100  # that a desk may send ahead
MANY = 10_000  # rows: more than a pipe and the server hold

# a program that begins under `bid` when a file is gone
BEGINS_LATE = """#!/bin/sh
if [ "$1" = bid ]; then
    while [ -e {file} ]; do sleep 0.05; done
fi
exec {words} "$@"
"""


def children_of(serve: Serve) -> Path:
    """The file that tells which processes stand below a server."""
    return Path(f"/proc/{serve.process.pid}/task/{serve.process.pid}/children")


class Moments(ServeTest):
    def test_one_that_was_stopped_writes_and_tells_nothing(self) -> None:
        """Another has taken the journal meanwhile: neither a look nor a line is answered from what was."""
        for at, line in enumerate((b"ask LOC\n", b"book LOC 5\n")):
            journal = self.journal(file=ONE.encode(), at=f"journal-{at}")
            with self.serve(journal) as stopped, stopped.connect() as client:
                self.assertEqual(answers(client, b"desk D1 1\nbook LOC 1\n", 2), [b"at 1\n", b"ok 1\n"])
                stopped.process.send_signal(signal.SIGSTOP)
                with self.served(journal, name="other", variables=self.patched(SEES_NO_LOCK)) as other:
                    self.assertEqual(talk(other, b"desk D2 1\nbook LOC 3\n"), b"at 1\nok 2\n")
                    client.sendall(line)
                    stopped.process.send_signal(signal.SIGCONT)
                    self.assertEqual(client.recv(100), b"closed journal\n", line)
                    stopped.end(1, None)
                    self.want_in(stopped.told(), "level=error tool=nrm-tools-serve event=lost\n")
                    self.assertEqual(talk(other, b"desk D1 2\nbook LOC 5\n"), b"at 2\nok 3\n")
            self.same(rows_in(journal, "SELECT epoch, desk, sequence, reply FROM line"), (1, "D1", 1, "ok 1"),
                      (2, "D2", 1, "ok 2"), (2, "D1", 2, "ok 3"))

    def test_one_that_reads_while_another_writes_halts_nothing(self) -> None:
        """The rows that a program is given again grow, since another server has the journal: the first ends."""
        held, late = self.late()
        journal = journal_of(self.folder / "journal", late, {"net": ("bid", ONE.encode())})
        self.write(journal, late, 0, MANY)
        with self.serve(journal, program=late) as serve, serve.connect() as client:
            client.sendall(b"desk D1\n")
            wait_for(children_of(serve).read_text, "a program")
            self.write(journal, late, MANY, 5)
            os.unlink(held)
            self.assertEqual(client.recv(100), b"closed journal\n")
            serve.end(1, None)
            self.want_in(serve.told(), "level=error tool=nrm-tools-serve event=lost\n")
        self.same(rows_in(journal, "SELECT halted, lines FROM network JOIN head USING (network)"), (None, MANY + 5))

    def test_a_line_answered_memory_isnt_in_the_journal(self) -> None:
        program = self.instead("lacks", "at 1\nmemory\n")
        journal = journal_of(self.folder / "journal", program, {"net": ("first", ONE.encode())})
        with self.served(journal, program=program) as serve:
            self.assertEqual(talk(serve, b"desk D1 1\nbook LOC 1\n"), b"at 1\nmemory\n")
            self.want_in(serve.told(), "level=warning tool=nrm-tools-serve event=memory network=net\n")
            self.assertEqual([it.memory for it in ask_status(serve.path, SECONDS).networks], [1])
        self.same(rows_in(journal))

    def late(self) -> tuple[str, Program]:
        """A file, and a program that begins under `bid` when it is gone."""
        held = self.file("held", "")
        path = self.file("late", BEGINS_LATE.format(file=held, words=" ".join(self.desks_program.words)))
        os.chmod(path, 0o755)
        return held, Program((path,))

    def write(self, journal: Path, program: Program, before: int, count: int) -> None:
        """Writes rows into the journal of a network as another server does, behind so many."""
        rows = "".join(f"{at}\tD1\t{at}\tbook X 1\tunknown\n" for at in range(before + 1, before + count + 1))
        writer = SqliteWriter(str(journal), program.checksum())
        self.assertEqual(writer.write([Given(1, 1, before, rows.encode())]), {})
        writer.close()

    @unittest.skipUnless(preload.is_there(), preload.WANTING)
    def test_what_cant_be_written_isnt_answered(self) -> None:
        """What was answered is there, and what wasn't gets its reply from the next server."""
        for kind, why in ("write", "database or disk is full"), ("fsync", "disk I/O error"):
            journal = self.journal("one", "two", file=ONE.encode(), at=f"journal-{kind}")
            variables = failing(library(self.folder), journal, kind, 20)
            with self.serve(journal, variables=variables) as serve, serve.connect() as client, serve.connect() as other:
                self.assertEqual(answers(other, b"desk two D2\n", 1), [b"at 1\n"])
                self.assertEqual(answers(client, b"desk one D1 1\n", 1), [b"at 1\n"])
                count, told = 0, b""
                while told != b"closed journal\n":
                    count += 1
                    [told] = answers(client, b"book LOC 1\n", 1)
                    self.assertIn(told, (b"ok %d\n" % count, b"closed journal\n"))
                self.assertEqual(all_told(other), b"closed journal\n")
                serve.end(74, None)
                self.want_in(serve.told(), f'event=journal-fault why="{journal}: {why}"\n')
            self.assertGreaterEqual(len(rows_in(journal)), count - 1)
            with self.served(journal) as serve:
                wanted = b"".join(b"ok %d\n" % it for it in range(1, count + 1))
                self.assertEqual(talk(serve, b"desk one D1 1\n" + b"book LOC 1\n" * count), b"at 1\n" + wanted)
            self.assertEqual(len(rows_in(journal)), count)

    def test_a_network_that_is_slow_keeps_no_other_waiting(self) -> None:
        """Neither while its program begins, nor while it answers."""
        held, late = self.late()
        networks = {"one": ("bid", ONE.encode()), "two": ("first", ONE.encode())}
        journal = journal_of(self.folder / "journal", late, networks)
        with self.served(journal, program=late) as serve, serve.connect() as slow:
            slow.sendall(b"desk one D1 1\nbook LOC 1\n")
            wait_for(children_of(serve).read_text, "a program")
            program = serve.program()
            self.assertEqual(talk(serve, b"desk two D2\nbook LOC 1\n"), b"at 1\nok 1\n")
            os.unlink(held)
            self.assertEqual(answers(slow, b"", 2), [b"at 1\n", b"ok 1\n"])
            os.kill(program, signal.SIGSTOP)
            slow.sendall(b"book LOC 1\n")
            self.assertEqual(talk(serve, b"desk two D2\nbook LOC 1\n"), b"at 2\nok 2\n")
            os.kill(program, signal.SIGCONT)
            self.assertEqual(answers(slow, b"", 1), [b"ok 2\n"])

    def test_what_was_taken_is_answered_at_the_end(self) -> None:
        """Each line that is in the journal was answered, whenever the end comes."""
        journal = self.journal(file=ONE.encode())
        for after in (0, 1, 30):
            with self.serve(journal) as serve, ExitStack() as clients:
                there = [clients.enter_context(serve.connect()) for _ in range(5)]
                for number, client in enumerate(there):
                    self.assertEqual(len(answers(client, b"desk D%d\n" % number, 1)), 1)
                before = len(rows_in(journal))
                for client in there:
                    client.sendall(b"book LOC 1\n" * LINES)
                wait_for(lambda: len(rows_in(journal)) >= before + after, "lines")
                serve.process.terminate()
                told = b"".join(map(all_told, there)).splitlines()
                serve.end(0, None)
            self.assertEqual(told.count(b"closed stopping"), 5)
            self.assertEqual(len(told) - 5, len(rows_in(journal)) - before)
