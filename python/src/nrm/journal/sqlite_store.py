"""A journal in an SQLite file: one server at a time answers for all its networks."""
from __future__ import annotations

import os
from typing import ContextManager

from nrm.journal import sqlite_tables as tables
from nrm.journal import sqlite_writing as writing
from nrm.journal.sqlite_files import LOG
from nrm.journal.stores import Members, Named


class Sqlite:
    """The journal at a path."""
    is_shared = False

    def __init__(self, path: str) -> None:
        self.place = path

    def begin(self) -> None:
        """Makes a journal without a network, for its owner alone."""
        tables.begin(self.place)

    def opened(self, is_to_write: bool = False) -> tables.Connection:
        """A connection to the tables."""
        return tables.opened(self.place, is_to_write)

    def locked(self) -> ContextManager[None]:
        """The journal, as this process's alone."""
        return writing.locked(self.place)

    def writer(self, program: str) -> writing.SqliteWriter:
        """What writes the rows of a server, which takes all networks by it."""
        return writing.SqliteWriter(self.place, program)

    def members(self, named: Named) -> Members:
        """There are no others."""
        raise NotImplementedError(f"{named.name} has {self.place} alone")

    def halt(self, network: int, epoch: int, why: str) -> None:
        """Has nobody answer for a network any more."""
        writing.halt(self.place, network, epoch, why)

    def answer_by(self, network: int, program: str) -> None:
        """Has a network without lines answered by another program than it began with."""
        writing.answer_by(self.place, network, program)

    def size(self) -> int:
        """The bytes of the file and of its log."""
        return sum(size_of(it) for it in (self.place, self.place + LOG))


def size_of(path: str) -> int:
    """The bytes of a file, and none if it isn't there."""
    try:
        return os.stat(path).st_size
    except OSError:
        return 0
