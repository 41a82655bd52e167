"""What a server of a journal promises and no other test here asks of it: one commit for all that wait, a line that
comes again while it is written, what halts a network and what doesn't, and who may answer for it."""
from __future__ import annotations

import contextlib
import os
import shlex
import socket
import sqlite3
import unittest
from contextlib import ExitStack, closing
from pathlib import Path
from typing import Iterator

import preload  # of the folder tests at the top
from harness import SECONDS, wait_for
from nrm.program import Program
from nrm.server.status_text import ask_status
from server.faults import clock_off, library
from server.servers import answers
from server.serves import ONE, Serve, ServeTest, all_told, journal_of, rows_in, talk

ROWS = "SELECT desk, sequence, line, reply FROM line ORDER BY number"
HALTED = "SELECT halted FROM network"
MANY = 30  # networks
# so few files may be open at first that a server with so many networks must ask for more
FEW_FILES = """import resource
resource.setrlimit(resource.RLIMIT_NOFILE, (40, resource.getrlimit(resource.RLIMIT_NOFILE)[1]))
"""
# in the place of a program: for a machine that has too little memory for the journal, as long as a file is there
LACKS_MEMORY = """#!/bin/sh
[ ! -e {file} ] || exit 6
exec {words} "$@"
"""
STANDS_FOR = """#!/bin/sh
exec {words} "$@"
"""


@contextlib.contextmanager
def held(journal: Path) -> Iterator[None]:
    """A journal that another process holds, so that what is to be written waits."""
    with closing(sqlite3.connect(journal, isolation_level=None)) as connection:
        connection.execute("BEGIN IMMEDIATE")
        yield
        connection.execute("ROLLBACK")


class Promises(ServeTest):
    def waiting(self, serve: Serve) -> int:
        """The rows that wait to be written."""
        return ask_status(serve.path, SECONDS).commits.waiting

    def standing_for(self, name: str, text: str = STANDS_FOR, **more: object) -> Program:
        """A program that stands for the one that is tested."""
        path = self.file(name, text.format(words=shlex.join(self.desks_program.words), **more))
        os.chmod(path, 0o755)
        return Program((path,))

    def change(self, journal: Path, trigger: str, change: str) -> None:
        """Changes lines of a journal, as somebody may who can write the file."""
        with closing(sqlite3.connect(journal, isolation_level=None)) as connection:
            connection.execute(f"DROP TRIGGER IF EXISTS {trigger}")
            connection.execute(change)

    def test_rows_of_all_that_wait_are_written_by_one_commit(self) -> None:
        """Those of the first network, which comes while nothing waits, and then those of all others together."""
        names = [f"net-{at}" for at in range(5)]
        journal = self.journal(*names, file=ONE.encode())
        with self.served(journal) as serve, ExitStack() as clients:
            there = [clients.enter_context(serve.connect()) for _ in names]
            for client, name in zip(there, names):
                self.assertEqual(answers(client, f"desk {name} D1 1\n".encode(), 1), [b"at 1\n"])
            before = ask_status(serve.path, SECONDS).commits
            with held(journal):
                for at, client in enumerate(there, 1):
                    client.sendall(b"book LOC 1\n")
                    wait_for(lambda: self.waiting(serve) == at, "a row that waits")
            self.assertEqual([answers(it, b"", 1) for it in there], [[b"ok 1\n"]] * len(names))
            after = ask_status(serve.path, SECONDS).commits
            self.assertEqual((after.rows - before.rows, after.count - before.count), (len(names), 2))

    def test_a_line_that_comes_again_while_it_is_written_is_carried_out_once(self) -> None:
        """It waits for the one that is on its way, and both have one row and one reply."""
        journal = self.journal(file=ONE.encode())
        with self.served(journal) as serve, serve.connect() as first, serve.connect() as second:
            self.assertEqual(answers(first, b"desk D1 1\n", 1), [b"at 1\n"])
            with held(journal):
                first.sendall(b"book LOC 1\n")
                wait_for(lambda: self.waiting(serve) == 1, "a row that waits")
                second.sendall(b"desk D1 1\nbook LOC 1\nbook LOC 2\n")
                second.settimeout(1)
                with self.assertRaises((TimeoutError, socket.timeout)):
                    second.recv(100)
            second.settimeout(SECONDS)
            self.assertEqual(answers(second, b"", 3), [b"at 1\n", b"ok 1\n", b"ok 2\n"])
            self.assertEqual(all_told(first), b"ok 1\nclosed elsewhere\n")
        self.same(rows_in(journal, ROWS), ("D1", 1, "book LOC 1", "ok 1"), ("D1", 2, "book LOC 2", "ok 2"))

    def test_a_row_that_repeats_a_number_halts_a_network(self) -> None:
        """No index guards a desk's numbers: the program does, when the journal is given again."""
        journal = self.journal(file=ONE.encode())
        with self.served(journal) as serve:
            self.assertEqual(talk(serve, b"desk D1 1\nbook LOC 1\nbook LOC 1\n"), b"at 1\nok 1\nok 2\n")
        self.change(journal, "line_stays", "UPDATE line SET sequence = 1 WHERE number = 2")
        with self.served(journal) as serve:
            self.assertEqual(talk(serve, b"desk D1\n"), b"closed halted\n")
        self.same(rows_in(journal, HALTED),
                  ("row 2, `book LOC 1` of D1 1 with the reply `ok 2`, is none, or isn't the next",))

    def test_what_was_halted_is_tried_again_once_a_person_says_so(self) -> None:
        """By the server that is there, and only if the journal is as it should be."""
        journal = self.journal(file=ONE.encode())
        with self.served(journal) as serve:
            self.assertEqual(talk(serve, b"desk D1 1\nbook LOC 1\n"), b"at 1\nok 1\n")
        self.change(journal, "line_stays", "UPDATE line SET reply = 'ok 9'")
        allow = "UPDATE network SET halted = NULL"
        with self.served(journal) as serve:
            for _ in range(2):
                self.assertEqual(talk(serve, b"desk D1\n"), b"closed halted\n")
                wait_for(lambda: rows_in(journal, HALTED) != [(None,)], "a halt that is written")
                self.change(journal, "line_stays", allow)
            self.change(journal, "line_stays", "UPDATE line SET reply = 'ok 1'")
            self.assertEqual(talk(serve, b"desk D1 1\nbook LOC 1\nbook LOC 1\n"), b"at 1\nok 1\nok 2\n")
        self.same(rows_in(journal, HALTED), (None,))

    def test_lines_that_are_gone_while_it_serves_halt_a_network(self) -> None:
        """Those that the journal no longer counts: neither a look nor a line is answered behind them."""
        for at, line in enumerate((b"ask LOC\n", b"book LOC 1\n")):
            journal = self.journal(file=ONE.encode(), at=f"journal-{at}")
            with self.served(journal) as serve, serve.connect() as client:
                self.assertEqual(answers(client, b"desk D1 1\nbook LOC 1\nbook LOC 1\n", 3)[2], b"ok 2\n")
                self.change(journal, "line_is_kept", "DELETE FROM line WHERE number = 2")
                self.change(journal, "line_is_kept", "UPDATE head SET lines = 1")
                self.assertEqual(answers(client, line, 1), [b"closed halted\n"], line)
            self.same(rows_in(journal, HALTED), ("row 3 was given out, and the journal has 1 lines",))

    def test_a_machine_with_too_little_memory_halts_nothing(self) -> None:
        """It gives the network up, and tries again with the next client: it is no fault of the journal."""
        file = self.file("little", "")
        program = self.standing_for("lacks", LACKS_MEMORY, file=file)
        journal = journal_of(self.folder / "journal", program, {"net": ("first", ONE.encode())})
        with self.served(journal, program=program) as serve:
            self.assertEqual(talk(serve, b"desk D1 1\nbook LOC 1\n"), b"closed program 6\n")
            self.same(rows_in(journal, HALTED), (None,))
            os.unlink(file)
            self.assertEqual(talk(serve, b"desk D1 1\nbook LOC 1\n"), b"at 1\nok 1\n")
        Path(file).touch()
        with self.served(journal, program=program) as serve:
            self.assertEqual(talk(serve, b"desk D1\n"), b"closed program 6\n")
        self.same(rows_in(journal, HALTED), (None,))

    def test_another_program_in_its_place_answers_nothing(self) -> None:
        """Where it was put there while the server is at work: until the earlier one is back, or a server begins that
        knows it."""
        program = self.standing_for("program")
        before, path = program.checksum(), Path(program.words[0])
        journal = journal_of(self.folder / "journal", program, {"net": ("first", ONE.encode())})
        with self.served(journal, "--linger", "1", program=program) as serve:
            self.assertEqual(talk(serve, b"desk D1 1\nbook LOC 1\n"), b"at 1\nok 1\n")
            wait_for(lambda: "event=ended network=net" in serve.told(), "the end of the program")
            text = path.read_text()
            path.write_text(f"{text}# another\n")
            self.assertEqual(talk(serve, b"desk D1 2\nbook LOC 1\n"), b"closed version\n")
            self.want_in(serve.told(), f"event=version network=net began={before} answers={program.checksum()}\n")
            path.write_text(text)
            self.assertEqual(talk(serve, b"desk D1 2\nbook LOC 1\n"), b"at 2\nok 2\n")
        self.same(rows_in(journal, ROWS), ("D1", 1, "book LOC 1", "ok 1"), ("D1", 2, "book LOC 1", "ok 2"))

    @unittest.skipUnless(preload.is_there(), preload.WANTING)
    def test_a_clock_that_jumps_back_changes_no_order(self) -> None:
        """Rows are numbered, given again and looked up in the order in which they were answered."""
        journal, count = self.journal(file=ONE.encode()), 40
        with self.served(journal, variables=clock_off(library(self.folder), -100_000, 30)) as serve:
            for at in range(1, count + 1):
                self.assertEqual(talk(serve, b"desk D1\nbook LOC 1\n"), b"at %d\nok %d\n" % (at, at))
        times = [it for (it,) in rows_in(journal, "SELECT at FROM line ORDER BY number")]
        self.assertGreater(times[0], times[-1])
        with self.served(journal) as serve:
            wanted = b"".join(b"ok %d\n" % it for it in range(1, count + 1))
            self.assertEqual(talk(serve, b"desk D1 1\n" + b"book LOC 1\n" * count), b"at 1\n" + wanted)
        looked = self.told("journal", "look", "journal", "hub").splitlines()
        self.assertEqual([it.split("\t")[5] for it in looked], wanted.decode().splitlines())

    def test_each_of_many_networks_has_its_files(self) -> None:
        """The server asks for as many as it may need, where fewer may be open at first."""
        names = [f"net-{at}" for at in range(MANY)]
        journal = self.journal(*names, file=ONE.encode())
        with self.served(journal, "--clients", "4", variables=self.patched(FEW_FILES)) as serve:
            for name in names:
                self.assertEqual(talk(serve, f"desk {name} D1 1\nbook LOC 1\n".encode()), b"at 1\nok 1\n", name)
            self.assertEqual(ask_status(serve.path, SECONDS).programs.now, MANY)
