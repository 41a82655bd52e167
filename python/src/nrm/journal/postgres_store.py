"""A journal in PostgreSQL: several servers answer for its networks, each for those that it has taken."""
from __future__ import annotations

import contextlib
from typing import ContextManager, Iterator

import psycopg

from nrm import Stop
from nrm.journal.postgres_addresses import address_of
from nrm.journal.postgres_members import PostgresMembers
from nrm.journal.postgres_schema import TABLES, VERSION
from nrm.journal.postgres_tables import Link, PostgresTables
from nrm.journal.postgres_writing import HALT, PostgresWriter
from nrm.journal.stores import Named, NoJournal

WITHOUT_WAITING = "-c synchronous_commit=off"  # for a standby, nor for a disk


class Postgres:
    """The journal at a URI."""
    is_shared = True

    def __init__(self, uri: str, is_alone: bool = False) -> None:
        self.address, self.is_alone = address_of(uri), is_alone
        self.place = self.address.shown

    def begin(self) -> None:
        """Makes the tables in a database that has none."""
        with self.tables() as tables:
            if tables.has("network"):
                raise Stop(f"{self.place} has a journal already")
            with tables.change():
                tables.execute(TABLES)

    def opened(self, is_to_write: bool = False) -> PostgresTables:
        """A connection to the tables."""
        made = PostgresTables(Link(self.address))
        try:
            if not made.has("version"):
                raise NoJournal(f"{self.place} has no journal: `nrm-tools journal begin` makes one")
            [version] = made.execute("SELECT version FROM version").fetchone()
        except psycopg.Error as fault:
            made.close()
            raise Stop(f"{self.place}: {self.address.told(str(fault))}") from None
        except Stop:
            made.close()
            raise
        if version != VERSION:
            made.close()
            raise Stop(f"{self.place} has tables of version {version}, and this is for version {VERSION}")
        return made

    @contextlib.contextmanager
    def tables(self) -> Iterator[PostgresTables]:
        """A connection to the database, whatever is in it. What goes wrong is a Stop."""
        made = PostgresTables(Link(self.address))
        try:
            yield made
        except psycopg.Error as fault:
            raise Stop(f"{self.place}: {self.address.told(str(fault))}") from None
        finally:
            made.close()

    def locked(self) -> ContextManager[None]:
        """It is for several servers."""
        return contextlib.nullcontext()

    def writer(self, program: str) -> PostgresWriter:
        """What writes the rows of a server."""
        return PostgresWriter(Link(self.address, is_alone=self.is_alone))

    def members(self, named: Named) -> PostgresMembers:
        """What this server tells others, and sees of them."""
        return PostgresMembers(Link(self.address, WITHOUT_WAITING), Link(self.address, is_alone=self.is_alone), named)

    def halt(self, network: int, epoch: int, why: str) -> None:
        """Has nobody answer for a network any more, if its epoch is still this one. If the connection is lost it may be
        tried again."""
        with contextlib.closing(Link(self.address, is_alone=self.is_alone)) as link:
            link.commit(HALT, why, network, epoch)

    def answer_by(self, network: int, program: str) -> None:
        """A network is taken by a server that has its program, and by no other."""
        raise NotImplementedError(f"{network} of {self.place} isn't answered by {program}")

    def size(self) -> int:
        """The bytes of the lines with their indexes."""
        with self.tables() as tables:
            [size] = tables.execute("SELECT pg_total_relation_size('line')").fetchone()
        return int(size)
