"""Which store a journal's name means: a URI of PostgreSQL, or else the path of an SQLite file."""
from __future__ import annotations

import os
import re
from typing import ContextManager

from nrm import Stop
from nrm.journal.sqlite_store import Sqlite
from nrm.journal.stores import Store, Tables, closed_at_the_end
from nrm.libraries import is_there, lacks

URI = re.compile("postgres(ql)?://")
DRIVER = "psycopg"


def store_of(journal: str, is_alone: bool = False) -> Store:
    """The store of a journal's name; a Stop if it is in PostgreSQL, and what asks that isn't installed. A database that
    waits for no other machine may be served if it is said to be alone."""
    if is_file(journal):
        return Sqlite(journal)
    if not is_there(DRIVER):
        raise Stop(f"a journal in PostgreSQL needs psycopg: {lacks([DRIVER])}")
    from nrm.journal.postgres_store import Postgres
    return Postgres(journal, is_alone)


def is_file(journal: str) -> bool:
    """Whether a journal's name is the path of a file."""
    return not URI.match(journal)


def shown(journal: str) -> str:
    """How a journal's name is told, without the password that may be in it."""
    return store_of(journal).place


def word_of(journal: str) -> str:
    """A journal's name as a word of a command, which takes it for no option, and finds it wherever it runs."""
    return os.path.abspath(journal) if is_file(journal) else journal


def using(journal: str, is_to_write: bool = False) -> ContextManager[Tables]:
    """A connection to the tables of a journal, closed at the end. What goes wrong with the store is a Stop."""
    store = store_of(journal)
    return closed_at_the_end(store.opened(is_to_write), store.place)
