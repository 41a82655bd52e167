"""What servers that share a journal tell each other through the database: who is alive, and whose each network is."""
from __future__ import annotations

import json
import time
from typing import Sequence

import psycopg

from nrm.journal.postgres_tables import WAITS, Link, NotReached, Statement, history_of
from nrm.journal.stores import Head, Member, Named, Replaced, SeenServers, UnknownOutcome, now

LOCKS = 1_853_188_454  # the kind of the locks that servers hold: one that has lost its lock is dead, or cut off
LEASE = 3.0  # seconds after which a server that isn't heard of has lost its networks
YOUNG = 5.0  # seconds for which a server that has begun takes no part, so that who comes and goes moves nothing
BEGIN = "INSERT INTO server (name, address, program) VALUES (%s, %s, %s) RETURNING server"
BEAT = """
UPDATE server SET seen = clock_timestamp(), leaving = %s WHERE server = %s
    AND NOT EXISTS (SELECT FROM server AS other WHERE other.name = %s AND other.server > %s) RETURNING server"""
LATER = "SELECT address FROM server WHERE name = %s AND server > %s ORDER BY server DESC LIMIT 1"
ALIVE = """
SELECT DISTINCT ON (name) server, name, address, program, leaving,
    clock_timestamp() < began + %s * interval '1 second',
    EXISTS (SELECT FROM pg_locks WHERE locktype = 'advisory' AND classid = %s AND objid = server)
FROM server WHERE seen > clock_timestamp() - %s * interval '1 second' ORDER BY name, server DESC"""
HEADS = """
SELECT coalesce(json_agg(json_build_array(network, name, mode, program, ended, halted, lines, epoch, server)
    ORDER BY name), '[]')::text, pg_total_relation_size('line')
FROM network JOIN head USING (network)"""
REPLACED = """
SELECT server FROM server WHERE server IN (SELECT server FROM head)
    AND EXISTS (SELECT FROM server AS other WHERE other.name = server.name AND other.server > server.server)"""
TAKE = Statement("take", f"""
WITH wanted AS (SELECT * FROM json_to_recordset($1::json) AS wanted (network integer, epoch integer)),
taken AS (
    UPDATE head SET epoch = head.epoch + 1, server = $2 FROM wanted
    WHERE head.network = wanted.network AND head.epoch = wanted.epoch
    RETURNING head.network, head.epoch, head.lines),
told AS (
    INSERT INTO tenure (network, epoch, began, program, server, first)
    SELECT network, epoch, $3::bigint, $4, $2, lines + 1 FROM taken)
SELECT network, epoch, lines, {WAITS} FROM taken""")
LEAVE = """
UPDATE head SET epoch = head.epoch + 1, server = NULL
FROM unnest(%s::integer[], %s::integer[]) AS owned (network, epoch)
WHERE head.network = owned.network AND head.epoch = owned.epoch"""
NO_MORE = "UPDATE server SET seen = '-infinity' WHERE server = %s"


class PostgresMembers:
    """A server among others. Heartbeats wait for no standby, since nothing that is told stands on them; takings do."""
    faults: tuple[type[Exception], ...] = (psycopg.Error,)

    def __init__(self, beats: Link, takes: Link, named: Named) -> None:
        self.beats, self.takes, self.named = beats, takes, named
        self.server = 0
        self.locked_on: object = None  # the connection that has the lock
        self.held: set[int] = set()  # servers whose locks were seen on this connection
        self.gone: set[int] = set()  # those of them that aren't held any more
        self.beaten_at = self.sure_from = 0.0

    def beat(self, is_leaving: bool) -> SeenServers:
        """Tells that this server is alive, and looks who else is and whose each network is."""
        self.tell(is_leaving)
        if self.beats.connection is not self.locked_on:
            self.locked_on, self.held, self.gone = self.beats.connection, set(), set()
            self.beats.ask("SELECT pg_try_advisory_lock(%s, %s)", [LOCKS, self.server])
        members = self.alive()
        at = time.monotonic()
        if at - self.beaten_at > LEASE / 2:
            self.sure_from = at + LEASE  # the others may have been as long without the database as this one
        self.beaten_at = at
        [(heads, size)] = self.beats.ask(HEADS).fetchall()
        return SeenServers(self.server, members, frozenset(self.gone | self.replaced()), at >= self.sure_from,
                           tuple(Head(*it) for it in json.loads(heads)), self.takes.weakness(), size)

    def tell(self, is_leaving: bool) -> None:
        """Says that this server is alive, as a new one if the database has lost it."""
        found = self.beats.ask(BEAT, [is_leaving, self.server, self.named.name, self.server]).fetchall()
        if found:
            return
        later = self.beats.ask(LATER, [self.named.name, self.server]).fetchall()
        if self.server and later:
            raise Replaced(self.named.name, later[0][0])
        [(self.server,)] = self.takes.ask(BEGIN, [self.named.name, self.named.address, self.named.program]).fetchall()
        self.locked_on = None

    def alive(self) -> tuple[Member, ...]:
        """The servers that were heard of within the lease, of each name the latest, but for those whose locks ended."""
        rows = self.beats.ask(ALIVE, [YOUNG, LOCKS, LEASE]).fetchall()
        holds = {server for server, *_, is_locked in rows if is_locked}
        self.gone = (self.gone | self.held - holds) - holds
        self.held |= holds
        return tuple(Member(*row[:-1]) for row in rows if row[0] not in self.gone or row[0] == self.server)

    def replaced(self) -> set[int]:
        """The servers that have networks, and of whose names there are later starts."""
        return {server for server, in self.beats.ask(REPLACED).fetchall()}

    def take(self, wanted: Sequence[tuple[int, int]]) -> dict[int, tuple[int, int]]:
        """Takes networks, each of which must still have an epoch, by one commit."""
        told = json.dumps([{"network": network, "epoch": epoch} for network, epoch in wanted])
        try:
            rows = self.takes.commit(TAKE, told, self.server, now(), self.named.program)
            return {int(network): (int(epoch), int(lines)) for network, epoch, lines in rows}
        except NotReached:
            return {}
        except psycopg.OperationalError as fault:
            raise UnknownOutcome(self.takes.address.told(str(fault)))

    def history(self) -> str:
        """The past of the database that the last taking is in."""
        return history_of(self.takes)

    def leave(self, owned: Sequence[tuple[int, int]]) -> None:
        """Gives networks up, each with its epoch, and is no more."""
        if owned:
            self.takes.ask(LEAVE, [[network for network, _ in owned], [epoch for _, epoch in owned]])
        self.beats.ask(NO_MORE, [self.server])

    def close(self) -> None:
        """Ends the connections."""
        self.beats.close()
        self.takes.close()
