"""A connection to the tables in PostgreSQL."""
from __future__ import annotations

import contextlib
import re
from typing import Any, Iterator, Mapping, NamedTuple, Sequence

import psycopg
from psycopg.conninfo import make_conninfo
from psycopg.pq import ConnStatus, DiagnosticField, ExecStatus
from psycopg.pq.abc import PGresult

from nrm.desks_frames import MOST
from nrm.journal.postgres_addresses import Address
from nrm.journal.postgres_schema import ASKS_FOR_A_PLAN, PERIOD, TIME
from nrm.journal.stores import LineConditions, Rows, Values

ROWS_AT_ONCE = 10_000  # that are read in one piece
STALE = 5  # times that the version is asked for until it is another
NAMED = re.compile(r"(?<!:):([a-z]+)")
CANCELLED = re.compile("cancel+ing (the )?wait for synchronous replication")
# what tells of rows that were read whether they may have been lost since: the line of the database's past, and the
# start of its server. Rows that a primary alone had are lost with it, and another primary goes on without them
HISTORY = "substr(pg_walfile_name(pg_current_wal_lsn()), 1, 8) || ' ' || pg_postmaster_start_time()"
ROWS_AFTER = rf"""
SELECT string_agg(concat_ws(E'\t', number, desk, sequence, line, reply), E'\n' ORDER BY number), max(number), {HISTORY}
FROM (SELECT number, desk, sequence, line, reply FROM line WHERE network = %s AND number > %s AND number <= %s
      ORDER BY number LIMIT %s) AS read"""
MOST_LINES = 2**62
# after these another session is begun: the old one is lost, or was begun with a role or a search path by which it can't
# find or use a table, and has them as long as it is there
ANEW = psycopg.OperationalError, psycopg.ProgrammingError
# whether a commit waits for the disk of another machine: that is asked for as a session begins, but what stands between
# may drop it, and then the setting of the role or of the database counts. By `remote_write` another machine has the row
# in its memory alone
WAITS = ("current_setting('synchronous_standby_names') <> '' "
         "AND current_setting('synchronous_commit') IN ('on', 'remote_apply')")
TRUE = "t"


class Statement(NamedTuple):
    """A statement that is prepared by its name; `$1`, `$2` and so on stand for values."""
    name: str
    text: str


WAITING = Statement("waiting", f"SELECT {WAITS}")
WEAKNESS = f"""
SELECT {WAITS}, current_setting('synchronous_standby_names') = '', current_setting('synchronous_commit')"""


class NotReached(psycopg.OperationalError):
    """No connection could be made: nothing was carried out."""


class Weak(psycopg.OperationalError):
    """A commit is on the primary, and perhaps on no standby: it didn't wait for one, or its waiting was cancelled."""


def statement_of(text: str, values: Values) -> str:
    """A statement as psycopg takes it, in which `?`, or `:name`, stands for a value."""
    text = text.replace("%", "%%")
    return NAMED.sub(r"%(\1)s", text) if isinstance(values, Mapping) else text.replace("?", "%s")


class Link:
    """A connection that is made when it is needed, to whichever of the hosts takes rows, and anew when it was lost."""

    def __init__(self, address: Address, settings: str = "", is_alone: bool = False) -> None:
        self.address, self.settings, self.is_alone = address, settings, is_alone
        self.connection: psycopg.Connection[Any] | None = None
        self.is_weak = False
        self.prepared: set[bytes] = set()  # the statements that the connection has
        self.last = 0  # the host that was reached last

    def ask(self, statement: str, values: Values = ()) -> psycopg.Cursor[Any]:
        """Carries out a statement of psycopg's, as a transaction of its own if no change is under way. NotReached if it
        can't have been carried out; Weak, or another OperationalError, leave that open, and the connection is lost."""
        connection = self.reached()
        self.is_weak = False
        try:
            cursor = connection.execute(statement, values or None)
        except ANEW:
            self.close()
            raise
        self.see_that_it_is_safe()
        return cursor

    def commit(self, statement: Statement, *values: object) -> list[tuple[str, ...]]:
        """The rows, as texts, of a statement that changes something, and gives in its last column whether its commit
        waits for a standby. Weak if one wasn't waited for, unless the database is alone. Where the waiting is switched
        off those who wait go on with a success, and it shows in the next statement, before which a server reads its
        settings."""
        connection = self.reached()
        self.is_weak = False
        try:
            rows = self.rows(connection, statement, values)
            after = [] if self.is_alone else self.rows(connection, WAITING, ())
        except ANEW:
            self.close()
            raise
        if not self.is_alone:
            self.is_weak = self.is_weak or not all(it[-1] == TRUE for it in [*rows, *after])
        self.see_that_it_is_safe()
        return [it[:-1] for it in rows]

    def rows(self, connection: psycopg.Connection[Any], statement: Statement,
             values: Sequence[object]) -> list[tuple[str, ...]]:
        """The rows of a statement, as texts. Debian's psycopg is all in Python, and by its cursor a statement takes
        some 300 microseconds of a processor; by the calls of libpq, which it lends, some 50."""
        link, name = connection.pgconn, statement.name.encode()
        if name not in self.prepared:
            see_that_it_is_done(connection, link.prepare(name, statement.text.encode()))
            self.prepared.add(name)
        result = link.exec_prepared(name, [str(it).encode() for it in values])
        see_that_it_is_done(connection, result)
        return [tuple((result.get_value(row, column) or b"").decode() for column in range(result.nfields))
                for row in range(result.ntuples)]

    def see_that_it_is_safe(self) -> None:
        """Weak if the last commit waited for no standby, or its waiting was cancelled, which the database calls a
        success."""
        if self.is_weak:
            self.close()
            raise Weak("committed on the primary, and perhaps on no standby")

    def reached(self) -> psycopg.Connection[Any]:
        """The connection."""
        if self.connection and not self.connection.closed:
            return self.connection
        why = []
        count = len(self.address.hosts)
        for at in (*range(self.last, count), *range(self.last)):
            words = self.address.hosts[at]
            text = make_conninfo(**{**words, "options": f"{words['options']} {self.settings}".strip()})
            try:
                made: psycopg.Connection[Any] = psycopg.connect(text, autocommit=True)
            except psycopg.Error as fault:
                why.append(self.address.told(str(fault)))
                continue
            made.add_notice_handler(self.notice)
            self.connection, self.last, self.prepared = made, at, set()
            return made
        raise NotReached("; ".join(dict.fromkeys(why)))

    def weakness(self) -> str | None:
        """Why a commit waits for no other machine's disk, if it doesn't."""
        [(waits, is_for_none, commit)] = self.ask(WEAKNESS).fetchall()
        if waits:
            return None
        return "synchronous_standby_names is empty" if is_for_none else (
            f"synchronous_commit is {commit} in its sessions, though on was asked for")

    def notice(self, told: psycopg.errors.Diagnostic) -> None:
        """Hears a warning of the database."""
        self.is_weak = self.is_weak or bool(CANCELLED.search(told.message_primary or ""))

    def close(self) -> None:
        """Ends the connection."""
        if self.connection:
            with contextlib.suppress(psycopg.Error):
                self.connection.close()
        self.connection = None


class PostgresTables:
    """The tables, by a connection of its own."""
    time = TIME
    bytes_of = "convert_to(CAST({} AS text), 'UTF8')"
    lines = LineConditions(ASKS_FOR_A_PLAN, PERIOD)
    faults: tuple[type[Exception], ...] = (psycopg.Error,)
    lost: tuple[type[Exception], ...] = (psycopg.OperationalError,)
    first_head = "INSERT INTO head VALUES (?, 0, 0, NULL)"
    lets_go = "UPDATE head SET epoch = epoch + 1, server = NULL WHERE network = ?"

    def __init__(self, link: Link) -> None:
        self.link, self.asked = link, 0

    def execute(self, statement: str, values: Values = (), /) -> Rows:
        """Carries out a statement."""
        return self.link.ask(statement_of(statement, values) if values else statement, values)

    @contextlib.contextmanager
    def change(self) -> Iterator[None]:
        """A change that happens as a whole or not at all."""
        connection = self.link.reached()
        self.link.is_weak = False
        with connection.transaction():
            yield
        self.link.see_that_it_is_safe()

    def rows_after(self, network: int, number: int, most: int | None = None) -> tuple[int, list[bytes]]:
        """The next rows of a network behind the one of a number, in pieces, and the number of the last."""
        return self.read_after(network, number, most)[1:]

    def read_after(self, network: int, number: int, most: int | None = None) -> tuple[str, int, list[bytes]]:
        """The same, and before it which past of the database they were read from."""
        values: Sequence[Any] = [network, number, MOST_LINES if most is None else most, ROWS_AT_ONCE]
        [(text, last, history)] = self.link.ask(ROWS_AFTER, values).fetchall()
        return (history, last, [*cut(text.encode() + b"\n")]) if text is not None else (history, number, [])

    def has(self, table: str) -> bool:
        """Whether there is a table of a name."""
        return self.link.ask("SELECT to_regclass(%s) IS NOT NULL", [table]).fetchall() == [(True,)]

    def version(self) -> int:
        """A number that is another one each few times that it is asked for, since the database tells of no change."""
        self.asked += 1
        return self.asked // STALE

    def close(self) -> None:
        """Ends the connection."""
        self.link.close()


def see_that_it_is_done(connection: psycopg.Connection[Any], result: PGresult) -> None:
    """What went wrong with a statement, by the class that psycopg has for it: an OperationalError if the connection was
    lost."""
    if result.status in (ExecStatus.COMMAND_OK, ExecStatus.TUPLES_OK):
        return
    code = (result.error_field(DiagnosticField.SQLSTATE) or b"").decode()
    kind: type[psycopg.Error] = psycopg.OperationalError
    if code and connection.pgconn.status == ConnStatus.OK:
        try:
            kind = psycopg.errors.lookup(code)
        except KeyError:
            kind = psycopg.DatabaseError
    raise kind(result.error_message.decode(errors="replace").strip(), info=result)


def history_of(link: Link) -> str:
    """Which past of the database this is."""
    [(history,)] = link.ask(f"SELECT {HISTORY}").fetchall()
    return str(history)


def cut(rows: bytes) -> Iterator[bytes]:
    """Whole rows in pieces that a frame takes."""
    at = 0
    while at < len(rows):
        stop = rows.rindex(b"\n", at, at + MOST) + 1
        yield rows[at:stop]
        at = stop
