"""The tables of a journal in SQLite, and how its file is made and opened."""
from __future__ import annotations

import contextlib
import os
import sqlite3
from pathlib import Path
from typing import ContextManager, Iterator

from nrm import Stop
from nrm.desks_frames import pieces_of
from nrm.journal.sqlite_files import see_that_it_has_one_name
from nrm.journal.stores import Busy, LineConditions, NoJournal, closed_at_the_end

APPLICATION, VERSION = 0x6E726D6A, 1  # `nrmj`, and the version of the tables: both are in the head of the file
LOGS = ("-wal", "-shm", "-journal")  # what SQLite has beside a file
PATIENCE = 10.0  # the seconds for which a call waits until no other writes
ROWS_AT_ONCE = 500  # that are read in one piece
ROW = "number || char(9) || desk || char(9) || sequence || char(9) || line || char(9) || reply || char(10)"
TABLES = """
-- A network, with its file byte for byte, and the SHA-256 of the program that answers it from its first line on.
CREATE TABLE network (
    network INTEGER PRIMARY KEY,
    name TEXT NOT NULL UNIQUE CHECK (length(name) <= 40 AND name GLOB '[a-z]*' AND NOT name GLOB '*[^a-z0-9._-]*'),
    mode TEXT NOT NULL CHECK (mode IN ('first', 'bid', 'davn')),
    file BLOB NOT NULL,
    program TEXT NOT NULL,
    begun INTEGER NOT NULL,     -- as all times here, in milliseconds since 1970 began
    ended INTEGER,              -- since when it is only looked at; below 0, since when it is frozen
    halted TEXT                 -- why nobody answers for it
);

-- Each start of a server.
CREATE TABLE tenure (
    epoch INTEGER PRIMARY KEY,
    began INTEGER NOT NULL,
    program TEXT NOT NULL
);

-- How many lines a network has, and whose it is: who has an older epoch can write nothing.
CREATE TABLE head (
    network INTEGER PRIMARY KEY REFERENCES network,
    lines INTEGER NOT NULL,
    epoch INTEGER NOT NULL
);

-- The lines that may have changed something, with their replies.
CREATE TABLE line (
    network INTEGER NOT NULL REFERENCES network,
    number INTEGER NOT NULL,    -- 1, 2, 3 .. in each network
    epoch INTEGER NOT NULL REFERENCES tenure,
    desk TEXT NOT NULL,
    sequence INTEGER NOT NULL,  -- the desk's own number of the line
    at INTEGER NOT NULL,        -- when it was written, by a clock that may jump: the number tells the order
    line TEXT NOT NULL,
    reply TEXT NOT NULL,
    PRIMARY KEY (network, number)
) WITHOUT ROWID;

CREATE TRIGGER line_stays BEFORE UPDATE ON line BEGIN SELECT RAISE(ABORT, 'a line stays as it is'); END;
CREATE TRIGGER line_is_kept BEFORE DELETE ON line BEGIN SELECT RAISE(ABORT, 'a line stays'); END;

-- What is read: all lines; those that ask for seats; those that give them back.
CREATE VIEW journal AS
    SELECT network.name AS network, number, strftime('%Y-%m-%dT%H:%M:%fZ', at / 1000.0, 'unixepoch') AS at, epoch, desk,
        sequence, line, reply
    FROM line JOIN network USING (network);
CREATE VIEW request AS
    SELECT network, number, at, desk, substr(line, 6, instr(substr(line, 6), ' ') - 1) AS product,
        CAST(substr(line, 6 + instr(substr(line, 6), ' ')) AS INTEGER) AS party,
        CASE WHEN reply GLOB 'ok *' THEN CAST(substr(reply, 4) AS INTEGER) END AS booking, reply
    FROM journal WHERE line GLOB 'book *';
CREATE VIEW cancellation AS
    SELECT network, number, at, desk, CAST(substr(line, 8) AS INTEGER) AS booking,
        CASE WHEN reply GLOB 'cancelled *'
            THEN CAST(substr(reply, 11 + instr(substr(reply, 11), ' ')) AS INTEGER) END AS amount, reply
    FROM journal WHERE line GLOB 'cancel *';
"""
# the lines that asked for a plan, but for those whose period the network hasn't, and the period that one asks for
ASKS_FOR_A_PLAN = "line GLOB 'reoptimise *' AND reply <> 'unknown'"
PERIOD = "CAST(substr(line, 12) AS INTEGER)"
LATER_TABLES = f"""
-- When the periods of a network begin, as far as that is known; the first began with it.
CREATE TABLE IF NOT EXISTS period (
    network INTEGER NOT NULL REFERENCES network,
    period INTEGER NOT NULL,
    begins INTEGER NOT NULL,
    PRIMARY KEY (network, period)
) WITHOUT ROWID;

-- When a network departs, if that is known.
CREATE TABLE IF NOT EXISTS departure (
    network INTEGER PRIMARY KEY REFERENCES network,
    departs INTEGER NOT NULL
);

-- The lines that asked for a plan, by their numbers and by their periods.
CREATE INDEX IF NOT EXISTS plan_by_number ON line (network, number) WHERE {ASKS_FOR_A_PLAN};
CREATE INDEX IF NOT EXISTS plan_by_period ON line (network, {PERIOD}) WHERE {ASKS_FOR_A_PLAN};
"""  # which a journal of an earlier release gets when it is next opened to be written


class Connection(sqlite3.Connection):
    """A connection to the tables, with what differs from other stores."""
    time = "strftime('%Y-%m-%dT%H:%M:%fZ', {} / 1000.0, 'unixepoch')"
    bytes_of = "CAST({} AS BLOB)"
    lines = LineConditions(ASKS_FOR_A_PLAN, PERIOD, "CROSS JOIN", "INDEXED BY plan_by_number",
                           "INDEXED BY plan_by_period")
    faults: tuple[type[Exception], ...] = (sqlite3.Error,)
    lost: tuple[type[Exception], ...] = (Busy,)
    first_head = "INSERT INTO head SELECT ?, 0, coalesce(max(epoch), 0) FROM tenure"
    lets_go: str | None = None  # the epoch is that of all networks, and each commit compares a network's rights

    @contextlib.contextmanager
    def change(self) -> Iterator[None]:
        """A change that happens as a whole or not at all."""
        self.execute("BEGIN IMMEDIATE")
        try:
            yield
            self.execute("COMMIT")
        finally:
            if self.in_transaction:
                self.execute("ROLLBACK")

    def rows_after(self, network: int, number: int, most: int | None = None) -> tuple[int, list[bytes]]:
        """The next rows of a network behind the one of a number, in pieces, and the number of the last."""
        beyond = "" if most is None else f" AND number <= {most}"
        rows = self.execute(f"SELECT number, {ROW} FROM line WHERE network = ? AND number > ?{beyond} "
                            "ORDER BY number LIMIT ?", [network, number, ROWS_AT_ONCE]).fetchall()
        return (rows[-1][0], [*pieces_of([text.encode() for _, text in rows])]) if rows else (number, [])

    def has(self, table: str) -> bool:
        """Whether there is a table of a name."""
        return bool(self.execute("SELECT * FROM sqlite_master WHERE name = ?", [table]).fetchone())

    def read_after(self, network: int, number: int, most: int | None = None) -> tuple[str, int, list[bytes]]:
        """The same, from the one past that a file has."""
        return ("", *self.rows_after(network, number, most))

    def version(self) -> int:
        """A number that is another one when another connection has written."""
        [version] = self.execute("PRAGMA data_version").fetchone()
        return int(version)

    def least(self) -> int:
        """The bytes that the file must have, once it has all that its log has."""
        [pages], [size] = (self.execute(f"PRAGMA {it}").fetchone() for it in ("page_count", "page_size"))
        return int(pages) * int(size)


def connected(path: str, is_to_write: bool = False) -> Connection:
    """A connection to the file at a path, which is there, whatever is in it."""
    if os.path.exists(path) and not os.path.isfile(path):  # a FIFO would wait
        raise Stop(f"{path} isn't a plain file")
    try:
        made = Connection(f"{Path(path).absolute().as_uri()}?mode={'rw' if is_to_write else 'ro'}", uri=True,
                          timeout=PATIENCE, isolation_level=None, check_same_thread=False)
        made.execute("PRAGMA foreign_keys = ON")
    except sqlite3.Error as fault:
        raise Stop(f"{path}: {fault}")
    return made


def opened(path: str, is_to_write: bool = False) -> Connection:
    """A connection to the journal at a path; a Stop for what is none, of which nothing is changed, and if it is to be
    written for a file of several names. The file is read by
    SQLite alone: a process that closes it otherwise would let go of the locks of all its connections."""
    if is_to_write:
        see_that_it_has_one_name(path)
    made = connected(path, is_to_write)
    try:
        [application] = made.execute("PRAGMA application_id").fetchone()
        [version] = made.execute("PRAGMA user_version").fetchone()
        if application != APPLICATION:
            raise NoJournal(f"{path} isn't a journal: `nrm-tools journal begin` makes one")
        if version != VERSION:
            raise Stop(f"{path} has tables of version {version}, and this is for version {VERSION}")
        made.execute("PRAGMA synchronous = FULL")
    except sqlite3.OperationalError as fault:  # as of a full disk: what is there isn't known
        made.close()
        raise Stop(f"{path}: {fault}")
    except sqlite3.DatabaseError as fault:
        made.close()
        raise NoJournal(f"{path} isn't a journal: {fault}")
    except Stop:
        made.close()
        raise
    if is_to_write:
        add_later_tables(path, made)
    return made


def add_later_tables(path: str, connection: sqlite3.Connection) -> None:
    """Has a journal of an earlier release get what was added since; where all is there nothing is written."""
    try:
        connection.executescript(LATER_TABLES)
    except sqlite3.Error as fault:
        connection.close()
        raise Stop(f"{path}: {fault}")


def using(path: str, is_to_write: bool = False) -> ContextManager[Connection]:
    """A connection to the journal at a path, closed at the end. What goes wrong with the file is a Stop."""
    return closed_at_the_end(opened(path, is_to_write), path)


@contextlib.contextmanager
def made(path: str) -> Iterator[Connection]:
    """A new and empty file, for its owner alone. What goes wrong is a Stop, and the file is taken away again."""
    if os.path.lexists(path):
        raise Stop(f"{path} is there already")
    for it in LOGS:
        if os.path.lexists(path + it):
            raise Stop(f"{path}{it} is there, the log of another file of this name: it would be taken for this one's")
    os.close(os.open(path, os.O_CREAT | os.O_EXCL | os.O_WRONLY, 0o600))
    connection = connected(path, is_to_write=True)
    try:
        yield connection
    except sqlite3.Error as fault:
        connection.close()
        os.unlink(path)
        raise Stop(f"{path}: {fault}")
    finally:
        connection.close()


def begin(path: str) -> None:
    """Makes a journal without a network."""
    with made(path) as connection:
        connection.execute("PRAGMA journal_mode = WAL")
        connection.executescript(f"BEGIN; {TABLES}{LATER_TABLES} PRAGMA application_id = {APPLICATION}; "
                                 f"PRAGMA user_version = {VERSION}; COMMIT")
