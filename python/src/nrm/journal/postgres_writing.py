"""The writing of rows into PostgreSQL: those that wait, of all networks, by one statement, which is one commit."""
from __future__ import annotations

import json
import time
from typing import Sequence

import psycopg

from nrm.journal.postgres_tables import STALE, WAITS, Link, NotReached, Statement
from nrm.journal.stores import Busy, Given, UnknownOutcome, now

PAUSE = 0.1  # the seconds before it is tried again to reach the database
# A network's count of lines rises, and its rows are there, if its epoch and its count are still those that the writer
# knows; else nothing of it happens. A row that isn't the next, or has other fields, has no number, which the table
# refuses.
WRITE = Statement("write", rf"""
WITH given AS (
    SELECT * FROM json_to_recordset($1::json)
        AS given (network integer, epoch integer, before bigint, count integer, told text)),
passed AS (
    UPDATE head SET lines = head.lines + given.count FROM given
    WHERE head.network = given.network AND head.epoch = given.epoch AND head.lines = given.before
    RETURNING head.network, head.epoch, given.before, given.told),
written AS (
    INSERT INTO line (network, epoch, at, number, desk, sequence, line, reply)
    SELECT network, epoch, $2::bigint,
        CASE WHEN split_part(entry, E'\t', 1) = (before + place)::text AND split_part(entry, E'\t', 6) = ''
            THEN before + place END,
        split_part(entry, E'\t', 2), split_part(entry, E'\t', 3)::bigint, split_part(entry, E'\t', 4),
        split_part(entry, E'\t', 5)
    FROM passed, unnest(string_to_array(rtrim(told, E'\n'), E'\n')) WITH ORDINALITY AS rows (entry, place))
SELECT network, {WAITS} FROM passed""")
HALT = Statement("halt", f"""
UPDATE network SET halted = $1 WHERE network = $2 AND halted IS NULL
    AND EXISTS (SELECT FROM head WHERE head.network = network.network AND epoch = $3) RETURNING {WAITS}""")


class PostgresWriter:
    """One server's writing, by a connection that nothing else uses."""
    is_quick = False

    def __init__(self, link: Link) -> None:
        self.link, self.epoch, self.looks = link, 0, 0

    def write(self, given: Sequence[Given]) -> dict[int, str | None]:
        """Writes the rows of several networks in one commit."""
        try:
            return self.put(given)
        except (psycopg.IntegrityError, psycopg.DataError) as why:
            if len(given) > 1:  # whose row it is: each by itself
                return {network: what for it in given for network, what in self.write([it]).items()}
            return self.refused(given[0], why)

    def put(self, given: Sequence[Given]) -> dict[int, str | None]:
        """Writes rows as one statement, and gives the networks that the fence didn't let through."""
        told = [{"network": it.network, "epoch": it.epoch, "before": it.before, "count": it.count(),
                 "told": it.rows.decode()} for it in given]
        passed = {int(network) for network, in self.asked(WRITE, json.dumps(told), now())}
        return {it.network: None for it in given if it.network not in passed}

    def refused(self, given: Given, why: psycopg.Error) -> dict[int, str | None]:
        """Halts a network of whose rows one is refused, if it is still this server's."""
        told = given.refused((why.diag.message_primary or str(why)).strip())
        self.asked(HALT, told, given.network, given.epoch)
        return {given.network: told}

    def asked(self, statement: Statement, *values: object) -> list[tuple[str, ...]]:
        """What a statement gives that changes something."""
        try:
            return self.link.commit(statement, *values)
        except NotReached as fault:
            time.sleep(PAUSE)
            raise Busy(str(fault))
        except psycopg.OperationalError as fault:
            raise UnknownOutcome(self.link.address.told(str(fault)))

    def look(self) -> None:
        """The database sees to its files."""

    def version(self) -> int:
        """Another number each few times, since the database tells of no change."""
        self.looks += 1
        return self.looks // STALE

    def is_still(self, given: Given) -> bool:
        """Only a commit tells."""
        return False

    def close(self) -> None:
        """Ends the writing."""
        self.link.close()
