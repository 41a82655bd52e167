"""The command `journal`: what it makes, what it refuses, what it tells, and what it copies."""
from __future__ import annotations

import contextlib
import os
import sqlite3
import stat
from pathlib import Path

from nrm.journal.sqlite_tables import begin, using
from nrm.journal.sqlite_writing import Fenced, Given, SqliteWriter
from server.serves import ONE, ServeTest, rows_in


def written(path: Path, *lines: tuple[str, int, str, str], program: str = "p", before: int = 0) -> dict[int, str]:
    """What a server's writing of some lines of the first network tells: desk, its number, line and reply."""
    writer = SqliteWriter(str(path), program)
    rows = "".join(f"{number}\t{desk}\t{sequence}\t{line}\t{reply}\n"
                   for number, (desk, sequence, line, reply) in enumerate(lines, before + 1))
    try:
        return writer.write([Given(1, 1, before, rows.encode())])
    finally:
        writer.close()


LINES = (("D1", 1, "book LOC 2", "ok 1"), ("D2", 7, "book LOC 400", "no AB"), ("D1", 2, "cancel 1", "cancelled 1 400"))


class Journals(ServeTest):
    def one(self) -> Path:
        """A journal with a network of one leg, without a program."""
        journal = self.folder / "journal"
        begin(str(journal))
        with using(str(journal), is_to_write=True) as connection, connection.change():
            connection.execute("INSERT INTO network (name, mode, file, program, begun) VALUES "
                               "('one', 'first', ?, 'p', 0)", [ONE.encode()])
            connection.execute("INSERT INTO head VALUES (1, 0, 0)")
        return journal

    def test_it_is_made_for_its_owner_alone_and_once(self) -> None:
        self.told("journal", "begin", "journal")
        self.assertEqual(stat.S_IMODE(os.stat(self.folder / "journal").st_mode), 0o600)
        self.stopped("journal", "begin", "journal", says="journal is there already")
        self.assertEqual(rows_in(self.folder / "journal", "PRAGMA journal_mode"), [("wal",)])

    def test_what_is_no_journal_stays_as_it_is(self) -> None:
        for content in (ONE.encode(), b"", b"x" * 5000):
            path = self.file("other", content)
            with_it = ["--program", *self.desks_program.words]
            for words in (["look", path], ["backup", path, "copy"], ["end", path, "a"],
                          ["open", path, "a", "first", path, *with_it]):
                self.stopped("journal", *words, says="isn't a journal")
            self.stopped("serve", path, "--socket", "socket", *with_it, says="isn't a journal")
            self.assertEqual(Path(path).read_bytes(), content)
            self.assertEqual((self.folder / "other-wal").exists(), False)
        with contextlib.closing(sqlite3.connect(self.folder / "store")) as connection:
            connection.execute("CREATE TABLE other (it)")
        self.stopped("journal", "look", "store", says="isn't a journal")
        self.stopped("journal", "look", "none", says="none")

    def test_a_network_is_put_into_it_byte_for_byte(self) -> None:
        network, with_it = self.file("network.csv", ONE), ["--program", *self.desks_program.words]
        self.told("journal", "begin", "journal")
        self.told("journal", "open", "journal", "one", "bid", network, *with_it)
        checksum = self.desks_program.checksum()
        self.assertEqual(rows_in(self.folder / "journal", "SELECT name, mode, file, program, lines, epoch FROM network "
                                                          "JOIN head USING (network)"),
                         [("one", "bid", ONE.encode(), checksum, 0, 0)])
        self.want_in(self.told("journal", "look", "journal"), f"program {checksum}\n")
        self.stopped("journal", "open", "journal", "one", "bid", network, *with_it, says="has a network one already")
        for name in ("One", "", "a b", "a" * 41, "é"):
            self.stopped("journal", "open", "journal", name, "bid", network, *with_it, says="isn't a name of a network")
        self.stopped("journal", "open", "journal", "two", "best", network, *with_it, status=2,
                     says="isn't one of: first, bid, davn")
        bad = self.file("bad.csv", ONE.replace("300", "1000"))
        self.stopped("journal", "open", "journal", "two", "bid", bad, *with_it, says="refused row 2 why 7 range")
        self.stopped("journal", "open", "journal", "two", "bid", "none", *with_it, says="none")
        self.stopped("journal", "open", "journal", "two", "bid", network, "--program", "/bin/true", says="ended with")

    def test_the_second_network_is_said_to_be_so(self) -> None:
        """And no other, also where one before has ended: a desk has to name its own then, too."""
        network, with_it = self.file("network.csv", ONE), ["--program", *self.desks_program.words]
        self.told("journal", "begin", "journal")
        for name, is_second in (("one", False), ("two", True), ("three", False)):
            done = self.ran("journal", "open", "journal", name, "bid", network, *with_it)
            says = f"{name} is the second network: from now on a desk that names none gets `closed network`"
            self.assertEqual((done.status, done.out, done.err),
                             (0, "", f"nrm-tools journal: {says}\n" if is_second else ""))
            if name == "one":
                self.told("journal", "end", "journal", name)

    def test_lines_are_looked_up(self) -> None:
        journal = self.one()
        self.same(written(journal, *LINES))

        def looked(*words: object) -> list[list[str]]:
            """Lines without their times."""
            told = self.told("journal", "look", "journal", "one", *words)
            return [[it[0], *it[2:]] for it in (line.split("\t") for line in told.splitlines())]

        every = [[str(at), desk, str(sequence), line, reply]
                 for at, (desk, sequence, line, reply) in enumerate(LINES, 1)]
        self.same(looked(), *every)
        self.same(looked(2), every[1])
        self.same(looked("--desk", "D1"), every[0], every[2])
        self.same(looked("--booking", "1"), every[0], every[2])
        self.same(looked(9))
        self.stopped("journal", "look", "journal", "two", says="the journal has no network two")
        self.stopped("journal", "look", "journal", "one", "x", status=2, says="NUMBER: 'x' isn't a whole number")
        self.stopped("journal", "look", status=2)
        self.stopped("journal", "look", "journal", "one", "1", "2", status=2, says="and 3 were given")
        self.assertRegex(self.told("journal", "look", "journal", "one", "1"),
                         r"^1\t\d{4}-\d\d-\d\dT[0-9:.]{12}Z\tD1\t1\t")

    def test_views_tell_requests_and_cancellations(self) -> None:
        journal = self.one()
        written(journal, *LINES)
        self.same(rows_in(journal, "SELECT network, number, desk, product, party, booking, reply FROM request"),
                  ("one", 1, "D1", "LOC", 2, 1, "ok 1"), ("one", 2, "D2", "LOC", 400, None, "no AB"))
        self.same(rows_in(journal, "SELECT number, desk, booking, amount FROM cancellation"), (3, "D1", 1, 400))
        self.same(rows_in(journal, "SELECT number, epoch, line FROM journal WHERE desk = 'D2'"), (2, 1, "book LOC 400"))

    def test_a_line_stays_as_it_is(self) -> None:
        journal = self.one()
        written(journal, *LINES)
        for change_of in ("UPDATE line SET reply = 'ok 9'", "DELETE FROM line"):
            with contextlib.closing(sqlite3.connect(journal)) as connection:
                with self.assertRaises(sqlite3.IntegrityError):
                    connection.execute(change_of)
        self.assertEqual(len(rows_in(journal)), 3)

    def test_a_row_that_isnt_the_next_halts_its_network_and_no_other(self) -> None:
        journal = self.one()
        with using(str(journal), is_to_write=True) as connection, connection.change():
            connection.execute("INSERT INTO network SELECT 2, 'two', mode, file, program, begun, ended, halted "
                               "FROM network")
            connection.execute("INSERT INTO head VALUES (2, 0, 0)")
        written(journal, *LINES)
        with using(str(journal), is_to_write=True) as connection:
            connection.execute("INSERT INTO line VALUES (1, 4, 1, 'X', 1, 0, 'book LOC 9', 'ok 9')")
        writer = SqliteWriter(str(journal), "p")
        refused = writer.write([Given(1, 1, 3, b"4\tD1\t5\tbook LOC 1\tok 2\n"),
                                Given(2, 1, 0, b"1\tD1\t1\tbook LOC 1\tok 1\n")])
        self.want_in(refused[1], "a row of 4 to 4 is refused: UNIQUE")
        self.same(refused, 1)
        self.same(rows_in(journal, "SELECT network, lines FROM head"), (1, 3), (2, 1))
        self.same(rows_in(journal, "SELECT halted FROM network WHERE network = 1"), (refused[1],))
        for rows in (b"3\tD1\t9\tbook LOC 1\tok 2\n", b"2\tD1\t9\tbook LOC 1\n"):
            self.want_in(writer.write([Given(2, 1, 1, rows)])[2], "row 2 was given out as")
        self.want_in(writer.write([Given(2, 1, 7, b"8\tD1\t9\tbook LOC 1\tok 2\n")])[2], "the journal has 1 lines")
        writer.close()

    def test_who_has_an_older_epoch_writes_nothing(self) -> None:
        journal = self.one()
        first, second = SqliteWriter(str(journal), "p"), SqliteWriter(str(journal), "p")
        given = Given(1, 1, 0, b"1\tD1\t1\tbook LOC 1\tok 1\n")
        self.expect(Fenced, lambda: first.write([given]))
        self.same(rows_in(journal))
        self.same(second.write([given]))
        self.expect(Fenced, lambda: first.write([Given(1, 1, 1, b"2\tD1\t2\tbook LOC 1\tok 2\n")]))
        self.same(rows_in(journal, "SELECT epoch, number FROM line"), (2, 1))
        self.same(rows_in(journal, "SELECT epoch, program FROM tenure"), (1, "p"), (2, "p"))
        first.close()
        second.close()

    def test_a_copy_is_a_journal(self) -> None:
        journal = self.one()
        written(journal, *LINES)
        self.told("journal", "backup", "journal", "copy")
        self.assertEqual(rows_in(self.folder / "copy"), rows_in(journal))
        self.assertEqual(stat.S_IMODE(os.stat(self.folder / "copy").st_mode), 0o600)
        self.assertEqual(self.told("journal", "look", "copy"), self.told("journal", "look", "journal"))
        self.stopped("journal", "backup", "journal", "copy", says="copy is there already")
        self.stopped("journal", "backup", "journal", "none/copy", says="none/copy")

    def test_a_log_that_is_left_isnt_taken_for_a_new_ones(self) -> None:
        """As when somebody took away the file alone."""
        journal = self.one()
        written(journal, *LINES)
        for name in ("new-wal", "new-shm"):
            path = self.folder / name
            path.write_bytes(b"")
            for words in (("begin", "new"), ("backup", "journal", "new")):
                self.stopped("journal", *words, says=f"{name} is there, the log of another file")
            path.unlink()
        self.assertFalse((self.folder / "new").exists())
        self.told("journal", "begin", "new")
