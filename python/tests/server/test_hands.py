"""What hands do to a journal while it is served: somebody holds it, renames a network or takes it away, or the file is
damaged. What one network suffers no other does, and the server ends in order or not at all."""
from __future__ import annotations

import contextlib
import os
import sqlite3
import time
from pathlib import Path
from typing import Callable, Iterator

from harness import SECONDS, wait_for
from nrm.server.status_text import ask_status
from server.servers import answers
from server.serves import ONE, ServeTest, all_told, rows_in, talk

SOON = 3.0  # seconds: well below those for which a connection waits until nobody else writes
HALTED = "SELECT name, halted IS NOT NULL FROM network ORDER BY name"
PAGE = 4096  # bytes
LOG = "-wal"
# what is done to the journal at a path, and a pattern of what the server says then
HANDS: dict[str, tuple[Callable[[str], object], str]] = {
    "renamed": (lambda path: os.rename(path, f"{path}.old"), "renamed or removed"),
    "taken away": (os.unlink, "renamed or removed"),
    "replaced": (lambda path: os.replace(f"{path}.copy", path), "another file is at .* now"),
    "named twice": (lambda path: os.link(path, f"{path}.too"), r"has 2 names \(hard links\) now"),
    "cut": (lambda path: os.truncate(path, PAGE), "was cut from [0-9]* bytes to 4096"),
    "its log renamed": (lambda path: os.rename(path + LOG, f"{path}.old"), "renamed or removed"),
    "its log taken away": (lambda path: os.unlink(path + LOG), "renamed or removed"),
    "its log named twice": (lambda path: os.link(path + LOG, f"{path}.too"), "has 2 names .* now"),
    "its log cut": (lambda path: os.truncate(path + LOG, 2 * PAGE), "was cut from [0-9]* bytes to 8192"),
    "its log emptied": (lambda path: os.truncate(path + LOG, 0), "was cut from [0-9]* bytes to 0"),
}


class Hands(ServeTest):
    @contextlib.contextmanager
    def held(self, journal: Path) -> Iterator[None]:
        """A journal that somebody holds, as who mends a row."""
        with contextlib.closing(sqlite3.connect(journal, isolation_level=None)) as connection:
            connection.execute("BEGIN IMMEDIATE")
            yield
            connection.execute("ROLLBACK")

    def change(self, journal: Path, *changes: str) -> None:
        """Changes the journal, as who may write the file can, and looks at no condition."""
        with contextlib.closing(sqlite3.connect(journal, isolation_level=None)) as connection:
            for it in changes:
                connection.execute(it)

    def test_a_halt_keeps_no_other_network_waiting(self) -> None:
        """Somebody holds the journal: the network counts as halted, and the others are answered. It is written, with
        the reason, once that is let go."""
        journal = self.journal("one", "two", file=ONE.encode())
        with self.served(journal) as serve:
            self.assertEqual(talk(serve, b"desk one D1 1\nbook LOC 1\n"), b"at 1\nok 1\n")
        self.change(journal, "DROP TRIGGER line_stays", "UPDATE line SET reply = 'ok 9'")
        with self.served(journal) as serve, serve.connect() as other:
            self.assertEqual(answers(other, b"desk two D1\nask LOC\n", 2), [b"at 1\n", b"ask LOC 300 leg AB\n"])
            with self.held(journal):
                begun = time.monotonic()
                self.assertEqual(talk(serve, b"desk one D1\n"), b"closed halted\n")
                self.assertEqual(answers(other, b"ask LOC\n", 1), [b"ask LOC 300 leg AB\n"])
                self.assertEqual(talk(serve, b"desk one D1\n"), b"closed halted\n")
                [one, _] = ask_status(serve.path, SECONDS).networks
                self.assertLess(time.monotonic() - begun, SOON)
                self.assertEqual((one.state, one.halted), ("rests", True))
                self.assertEqual(rows_in(journal, HALTED), [("one", 0), ("two", 0)])
            wait_for(lambda: rows_in(journal, HALTED) == [("one", 1), ("two", 0)], "a halt that is written")
            self.assertEqual(talk(serve, b"desk one D1\n"), b"closed halted\n")
            self.assertEqual(answers(other, b"desk D1\nbook LOC 1\n", 2)[1:], [b"ok 1\n"])
            wait_for(lambda: "event=halted network=one row=1 why=" in serve.told(), "what is told")

    def test_a_network_that_another_program_takes_keeps_no_other_waiting(self) -> None:
        """That is written as its program begins, and somebody holds the journal."""
        journal = self.journal("one", "two", file=ONE.encode())
        self.change(journal, "UPDATE network SET program = 'another' WHERE name = 'one'")
        with self.served(journal) as serve, serve.connect() as other, serve.connect() as client:
            self.assertEqual(answers(other, b"desk two D1\nask LOC\n", 2), [b"at 1\n", b"ask LOC 300 leg AB\n"])
            with self.held(journal):
                begun = time.monotonic()
                client.sendall(b"desk one D1 1\nbook LOC 1\n")
                self.assertEqual(answers(other, b"ask LOC\n", 1), [b"ask LOC 300 leg AB\n"])
                self.assertLess(time.monotonic() - begun, SOON)
            self.assertEqual(answers(client, b"", 2), [b"at 1\n", b"ok 1\n"])

    def test_a_network_that_is_renamed_or_taken_away_is_none(self) -> None:
        """Whether its program runs or not; the others are answered, and so is it by its new name."""
        changes = {"renamed": "UPDATE network SET name = 'three' WHERE name = 'one'",
                   "gone": "DELETE FROM network WHERE name = 'one'"}
        for kind, change in changes.items():
            for is_running in (True, False):
                with self.subTest(kind, is_running=is_running):
                    journal = self.journal("one", "two", file=ONE.encode(), at=f"{kind}-{is_running}")
                    linger = "600" if is_running else "0.1"
                    with self.served(journal, "--linger", linger) as serve, serve.connect() as other:
                        self.assertEqual(answers(other, b"desk two D1 1\nbook LOC 1\n", 2), [b"at 1\n", b"ok 1\n"])
                        self.assertEqual(talk(serve, b"desk one D1 1\nbook LOC 1\n"), b"at 1\nok 1\n")
                        if not is_running:
                            wait_for(lambda: "event=ended network=one" in serve.told(), "the end of its program")
                        self.change(journal, change)
                        wait_for(lambda: "event=ended network=one" in serve.told(), "the end of its program")
                        self.assertEqual(talk(serve, b"desk one D1\n"), b"closed network\n")
                        self.assertEqual(answers(other, b"book LOC 1\n", 1), [b"ok 2\n"])
                        if kind == "renamed":
                            self.assertEqual(talk(serve, b"desk three D1\n"), b"at 2\n")
                        self.assertNotIn("Traceback", serve.told())

    def damaged(self, name: str, pages: range) -> Path:
        """A journal with lines, with other bytes in the place of some of its pages."""
        journal = self.journal("one", file=ONE.encode(), at=name)
        with self.served(journal) as serve:
            talk(serve, b"desk one D1 1\n" + b"book LOC 1\n" * 300)
        self.change(journal, "PRAGMA wal_checkpoint(TRUNCATE)")
        with open(journal, "r+b") as file:
            for page in pages:
                file.seek(page * PAGE)
                file.write(b"\xa5" * PAGE)
        return journal

    def test_a_journal_that_is_damaged_ends_by_a_sentence(self) -> None:
        """Behind its first page: as the server begins, or as a client comes, whom it tells."""
        [(pages,)] = rows_in(self.damaged("whole", range(0)), "PRAGMA page_count")
        journal = self.damaged("all", range(1, pages))
        with self.serve(journal, status=1) as serve:
            serve.end(1, None)
        self.assertRegex(serve.told(), rf"^nrm-tools serve: {journal}: .*malformed\n$")
        [(root,)] = rows_in(self.folder / "whole", "SELECT rootpage FROM sqlite_master WHERE name = 'line'")
        journal = self.damaged("lines", range(root - 1, root))
        with self.serve(journal) as serve, serve.connect() as client:
            client.sendall(b"desk one D1\n")
            self.assertEqual(all_told(client), b"closed journal\n")
            serve.end(74, None)
        self.assertNotIn("Traceback", serve.told())
        self.assertRegex(serve.told(), r"event=journal-fault why=.*malformed")


class Files(ServeTest):
    """The journal's files are renamed, taken away, replaced, cut or named twice while a server is at work."""

    def had(self, name: str) -> Path:
        """A journal with a network, and a copy of it, beside which its log is to be large."""
        journal = self.journal("one", file=ONE.encode(), at=name)
        self.told("journal", "backup", str(journal), f"{journal}.copy")
        return journal

    def test_nothing_is_answered_into_files_that_are_gone(self) -> None:
        """Neither lines nor looks behind them, and the clients are told."""
        for name, (do, told) in HANDS.items():
            with self.subTest(name):
                journal = self.had(name.replace(" ", "-"))
                with self.serve(journal) as serve, serve.connect() as client:
                    answers(client, b"desk one D1 1\n" + b"book LOC 1\n" * 20, 21)
                    do(str(journal))
                    client.sendall(b"book LOC 1\n")
                    self.assertEqual(all_told(client), b"closed journal\n")
                    serve.end(74, None)
                self.assertRegex(serve.told(), rf'event=journal-fault why=.*{told}"')
                self.assertNotIn("Traceback", serve.told())

    def test_that_is_seen_where_nobody_asks(self) -> None:
        for name, (do, told) in HANDS.items():
            with self.subTest(name):
                journal = self.had(name.replace(" ", "-"))
                with self.serve(journal) as serve:
                    talk(serve, b"desk one D1 1\n" + b"book LOC 1\n" * 20)
                    do(str(journal))
                    serve.end(74, None)
                self.assertRegex(serve.told(), rf'event=journal-fault why=.*{told}"')

    def test_what_was_renamed_and_is_named_again_has_all(self) -> None:
        """The file as well as its log: nothing of them is taken away at the end, nor what has the log's name then."""
        for behind in "", LOG:
            with self.subTest(behind):
                journal = self.had(f"journal{behind}s")
                with self.serve(journal) as serve:
                    talk(serve, b"desk one D1 1\n" + b"book LOC 1\n" * 20)
                    os.rename(f"{journal}{behind}", f"{journal}.old")
                    Path(f"{journal}{behind}").write_bytes(b"of another")
                    serve.end(74, None)
                self.assertEqual(Path(f"{journal}{behind}").read_bytes(), b"of another")
                os.replace(f"{journal}.old", f"{journal}{behind}")
                with self.served(journal) as serve:
                    self.assertEqual(talk(serve, b"desk one D1\nask LOC\n"), b"at 21\nask LOC 280 leg AB\n")

    def test_a_file_of_two_names_isnt_begun_on(self) -> None:
        journal = self.had("journal")
        other = self.folder / "other"
        os.link(journal, other)
        for path in journal, other:
            with self.serve(path, status=1) as serve:
                serve.end(1, None)
            self.assertEqual(serve.told(), f"nrm-tools serve: {path} has 2 names (hard links), and a journal "
                                           "must have only one: remove the others\n")
            self.stopped("journal", "end", str(path), "one", says="has 2 names")
        os.unlink(other)
        with self.served(journal) as serve:
            self.assertEqual(talk(serve, b"desk one D1\nbook LOC 1\n"), b"at 1\nok 1\n")

    def test_what_others_may_do_ends_nothing(self) -> None:
        """They empty the log, make the file smaller, copy it and write; a link that is followed is no other name."""
        link = self.folder / "link"
        os.symlink(self.had("journal"), link)
        with self.served(link) as serve, serve.connect() as client, \
                contextlib.closing(sqlite3.connect(link, isolation_level=None)) as other:
            answers(client, b"desk one D1 1\n" + b"book LOC 1\n" * 20, 21)
            sold = 20
            for change in ("PRAGMA wal_checkpoint(TRUNCATE)", "CREATE TABLE large AS SELECT zeroblob(1000000)",
                           "PRAGMA wal_checkpoint(TRUNCATE)", "DROP TABLE large", "VACUUM",
                           "PRAGMA wal_checkpoint(PASSIVE)", "PRAGMA wal_checkpoint(RESTART)"):
                other.execute(change).fetchall()
                for _ in range(3):
                    sold += 1
                    self.assertEqual(answers(client, b"book LOC 1\n", 1), [b"ok %d\n" % sold], change)
                time.sleep(1.2)  # it looks by itself, too
            self.told("journal", "backup", str(link), str(self.folder / "copy"))
            self.assertEqual(answers(client, b"book LOC 1\n", 1), [b"ok %d\n" % (sold + 1)])
            self.assertNotIn("event=journal-fault", serve.told())
