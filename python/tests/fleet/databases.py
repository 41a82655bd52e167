"""A PostgreSQL server for tests: one of those that trials of a fleet have, by itself.

Nothing here loses power, so what is written isn't forced to the disk: a killed server finds it all the same.
"""
from __future__ import annotations

import contextlib
import os
import tempfile
import unittest
from pathlib import Path
from typing import Any

from databases import WANTING, Databases, free_ports, is_there  # of the folder tests at the top
from harness import needs, wait_for

NAME = "a"  # of the server
SETTINGS = {"synchronous_standby_names": "", "fsync": "off", "shared_buffers": "32MB"}


class Database:
    """A server, with a database `fleet` of the user `fleet`."""

    def __init__(self) -> None:
        self.place = tempfile.TemporaryDirectory(prefix="nrm-database-")
        os.chmod(self.place.name, 0o755)
        self.servers = Databases(Path(self.place.name) / "servers")
        self.servers.make(free_ports(1), settings=SETTINGS)
        self.uri = self.servers.uri()

    def start(self) -> None:
        self.servers.start(NAME)

    def kill(self) -> None:
        """As if its machine had stopped: all its processes end at one moment."""
        self.servers.kill(NAME)

    def renew(self) -> None:
        """Has the database be empty, whoever is at work with it."""
        self.ask("DROP DATABASE IF EXISTS fleet WITH (FORCE)", "postgres")
        self.ask("CREATE DATABASE fleet", "postgres")

    def connect(self, name: str = "fleet") -> Any:
        """A connection whose statements are each a transaction."""
        import psycopg
        return psycopg.connect(self.servers.uri(database=name), autocommit=True)

    def ask(self, statement: str, name: str = "fleet") -> list[tuple[Any, ...]]:
        """The rows that a statement gives."""
        with contextlib.closing(self.connect(name)) as connection:
            cursor = connection.execute(statement)
            return cursor.fetchall() if cursor.description else []

    def set(self, name: str, value: str) -> None:
        """Sets one of the server's settings, for all its sessions."""
        self.ask(f"ALTER SYSTEM SET {name} = '{value}'")
        self.ask("SELECT pg_reload_conf()")
        wait_for(lambda: self.ask(f"SHOW {name}") == [(value,)], "a setting")

    def close(self) -> None:
        """Ends it, and takes it away."""
        self.servers.end()
        self.place.cleanup()


@unittest.skipUnless(is_there(), WANTING)
@needs("psycopg")
class DatabaseTest(unittest.TestCase):
    """A test with a server of its class."""
    database: Database

    @classmethod
    def setUpClass(cls) -> None:
        super().setUpClass()
        cls.database = Database()
        cls.addClassCleanup(cls.database.close)
