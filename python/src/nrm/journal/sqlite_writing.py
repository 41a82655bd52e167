"""The writing of rows: those that wait, of all networks, in one commit, which nobody with an older epoch can make."""
from __future__ import annotations

import contextlib
import fcntl
import os
import sqlite3
from typing import Iterator, Sequence

from nrm import Stop
from nrm.journal.sqlite_files import Files
from nrm.journal.sqlite_tables import Connection, opened
from nrm.journal.stores import Busy, Fenced, Given, Gone, RefusedByStore, now

FENCE = ("UPDATE head SET lines = lines + ? WHERE network = ? AND epoch = ? AND lines = ?"
         " AND EXISTS (SELECT * FROM network WHERE network.network = head.network AND ended IS ?)")
KNOWN = "SELECT epoch, lines, ended FROM head JOIN network USING (network) WHERE network = ?"
HALT = "UPDATE network SET halted = ? WHERE network = ? AND halted IS NULL"
LOCKED = ("database is locked", "database table is locked")
FIELDS, VALUES = 5, 8  # of a row as a program gives it out, and as the table has it
# how many rows a statement puts, and the statement. While one is at work other threads go on, and between two of them
# they may keep it waiting: so there are few for many rows
PUTS = [(count, "INSERT INTO line (number, desk, sequence, line, reply, network, epoch, at) VALUES "
         + ", ".join([f"({', '.join('?' * VALUES)})"] * count)) for count in (100, 25, 5, 1)]


class Changed(Exception):
    """A network isn't there any more, or other things may be asked of it than when its program began."""


@contextlib.contextmanager
def locked(path: str) -> Iterator[None]:
    """The journal at a path, locked as long as this process has it; a Stop while another server does. Its file must not
    be closed before the journal is: that would let go of the locks of SQLite too."""
    file = os.open(path, os.O_RDONLY | os.O_CLOEXEC)
    try:
        fcntl.flock(file, fcntl.LOCK_EX | fcntl.LOCK_NB)
        yield
    except BlockingIOError:
        raise Stop(f"another server has the journal {path}")
    finally:
        os.close(file)


class SqliteWriter:
    """One server's writing. It begins with a commit of its own, so that what is read later can't be lost either."""

    def __init__(self, path: str, program: str) -> None:
        self.path = path
        self.is_quick = True
        self.connection = opened(path, is_to_write=True)
        self.reader = opened(path)
        try:
            # what an earlier server couldn't force to the disk is written anew, since the system doesn't try again what
            # failed; where a reader is in the way it stays in the log
            self.connection.execute("PRAGMA wal_checkpoint(TRUNCATE)").fetchone()
            self.epoch = self.take(program)
            self.connection.execute("PRAGMA busy_timeout = 0")  # from here on the caller waits
            self.files = Files(path, self.connection.version, self.connection.least)
        except (sqlite3.Error, Gone) as fault:
            raise Stop(f"{path}: {fault}")

    def take(self, program: str) -> int:
        """Begins a tenure, and takes all networks. Gives its epoch."""
        with self.connection.change():
            [epoch] = self.connection.execute("SELECT coalesce(max(epoch), 0) + 1 FROM tenure").fetchone()
            self.connection.execute("INSERT INTO tenure VALUES (?, ?, ?)", [epoch, now(), program])
            self.connection.execute("UPDATE head SET epoch = ?", [epoch])
        return int(epoch)

    def write(self, given: Sequence[Given]) -> dict[int, str | None]:
        """Writes the rows of several networks in one commit. Gives why those of a network were refused, which halts it,
        or None where its rights have changed; those of the others are written."""
        try:
            with self.commit():
                self.put_rows(given)
            return {}
        except (RefusedByStore, Changed):
            with self.commit():
                return {network: why for it in given for network, why in self.put(it).items()}
        except sqlite3.OperationalError as fault:
            if str(fault) in LOCKED:
                raise Busy(str(fault))
            raise

    @contextlib.contextmanager
    def commit(self) -> Iterator[None]:
        """A change that counts only if it is in the files that were opened."""
        with self.connection.change():
            self.files.see_that_none_is_cut()  # before more is written behind what is missing
            yield
        self.files.see_that_they_are_there()

    def look(self) -> None:
        """Gone if the files aren't those that were opened, or one was cut."""
        self.files.see_that_none_is_cut()
        self.files.see_that_they_are_there()

    def put(self, given: Given) -> dict[int, str | None]:
        """Writes the rows of a network, or halts it and gives why, or None where nothing is to be halted."""
        self.connection.execute("SAVEPOINT network")
        try:
            self.put_rows([given])
        except (RefusedByStore, Changed) as why:
            self.connection.execute("ROLLBACK TO network")
            if isinstance(why, Changed):
                return {given.network: None}
            self.halt(given.network, str(why))
            return {given.network: str(why)}
        self.connection.execute("RELEASE network")
        return {}

    def put_rows(self, given: Sequence[Given]) -> None:
        """Writes the rows of networks, each behind the lines that it has."""
        values: list[object] = []
        at = now()
        for it in given:
            self.pass_the_fence(it)
            values += values_of(it, self.epoch, at)
        try:
            for text, some in statements(values):
                self.connection.execute(text, some)
        except sqlite3.IntegrityError as why:
            raise RefusedByStore(given[0].refused(why))

    def pass_the_fence(self, given: Given) -> None:
        """Counts up the lines of a network, if it is still this server's and has the lines and the rights that the
        program knew."""
        moved = self.connection.execute(FENCE, [given.count(), given.network, self.epoch, given.before, given.ended])
        if moved.rowcount != 1:
            self.tell_of_the_fence(given)

    def tell_of_the_fence(self, given: Given) -> None:
        """Why the fence let nothing through: another server's epoch, other lines than the program was given, or other
        rights."""
        found = self.connection.execute(KNOWN, [given.network]).fetchone()
        if not found:
            raise Changed
        epoch, lines, _ = found
        if epoch != self.epoch:
            raise Fenced("another server has the journal now, and this one writes nothing more")
        if lines != given.before:
            raise RefusedByStore(f"row {given.before + 1} was given out, and the journal has {lines} lines")
        raise Changed

    def halt(self, network: int, why: str) -> None:
        """Has nobody answer for a network any more, within a change."""
        self.connection.execute(HALT, [why, network])

    def version(self) -> int:
        """A number that is another one when another connection has written."""
        return self.connection.version()

    def is_still(self, given: Given) -> bool:
        """Whether a network is still this server's, and has the lines and the rights that its program knows: by another
        connection than the one that may be writing."""
        wanted = self.epoch, given.before, given.ended
        return given.epoch == self.epoch and self.reader.execute(KNOWN, [given.network]).fetchone() == wanted

    def close(self) -> None:
        """Ends the writing."""
        self.reader.close()
        self.connection.close()


def values_of(given: Given, epoch: int, at: int) -> list[object]:
    """What the table has of the rows of a network, one behind the other; RefusedByStore for one that isn't the next."""
    values: list[object] = []
    more = given.network, epoch, at
    for number, row in enumerate(given.rows.decode().split("\n")[:-1], given.before + 1):
        fields = row.split("\t")
        if len(fields) != FIELDS or fields[0] != str(number):
            raise RefusedByStore(f"row {number} was given out as {fields}")
        values += fields
        values += more
    return values


def statements(values: list[object]) -> Iterator[tuple[str, list[object]]]:
    """The statements that put rows, with the values that each takes."""
    at = 0
    for count, text in PUTS:
        size = count * VALUES
        while len(values) - at >= size:
            yield text, values[at:at + size]
            at += size


@contextlib.contextmanager
def changing(path: str) -> Iterator[Connection]:
    """A change of the journal at a path, by a connection of its own; Busy if somebody else goes on writing."""
    try:
        with contextlib.closing(opened(path, is_to_write=True)) as connection, connection.change():
            yield connection
    except sqlite3.OperationalError as fault:
        if str(fault) in LOCKED:
            raise Busy(str(fault))
        raise


def halt(path: str, network: int, epoch: int, why: str) -> None:
    """Has nobody answer for a network of the journal at a path any more, if its epoch is still this one."""
    with changing(path) as connection:
        connection.execute(f"{HALT} AND EXISTS (SELECT * FROM head WHERE head.network = network.network AND epoch = ?)",
                           [why, network, epoch])


def answer_by(path: str, network: int, program: str) -> None:
    """Has a network of the journal at a path, if it has no lines, answered by another program than it began with."""
    with changing(path) as connection:
        connection.execute("UPDATE network SET program = ? WHERE network = ? AND "
                           "NOT EXISTS (SELECT * FROM line WHERE network = ?)", [program, network, network])
