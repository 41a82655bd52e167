"""What the database refuses to a server, for a moment or for long: a right, or the schema in which the tables are."""
from __future__ import annotations

import contextlib
import socket
from typing import Iterator

from fleet.fleets import FleetTest, Server
from nrm.server.fleet_owners import rank
from server.serves import ONE, PATIENT, all_told

FIRST = b"desk net D1 1\nbook LOC 1\n"
ROW = "INSERT INTO line VALUES (1, 1, 0, 1, 1, 'D0', 'book LOC 1', 'ok 1'); UPDATE head SET lines = 1"
OTHERS = "FROM pg_stat_activity WHERE datname = 'fleet' AND pid <> pg_backend_pid()"


class Refusals(FleetTest):
    def setUp(self) -> None:
        super().setUp()
        self.database.ask("DO $$ BEGIN CREATE ROLE clerk; EXCEPTION WHEN duplicate_object THEN NULL; END $$")
        self.database.ask("GRANT SELECT, INSERT, UPDATE ON ALL TABLES IN SCHEMA public TO clerk")
        self.uri_of_clerk = f"{self.database.uri}?options=-c%20role%3Dclerk"
        self.open("net")

    @contextlib.contextmanager
    def asking(self, server: Server) -> Iterator[list[bytes]]:
        """A client that sends lines and no more, and at the end what it was told."""
        told: list[bytes] = []
        with server.connect() as made:
            made.settimeout(PATIENT)
            made.sendall(FIRST)
            made.shutdown(socket.SHUT_WR)
            yield told
            told.append(all_told(made))

    def test_a_right_that_is_wanting_for_a_moment(self) -> None:
        """It is asked for again, until it is given back."""
        server = self.serve("one", uri=self.uri_of_clerk)
        server.wait_for("event=taken network=net")
        self.database.ask(ROW)
        self.database.ask("REVOKE SELECT ON line FROM clerk")
        with self.asking(server) as told:
            server.wait_for('event=database why="permission denied for table line"')
            self.database.ask("GRANT SELECT ON line TO clerk")
        self.assertEqual(told, [b"at 1\nok 2\n"])
        self.assertIsNone(server.process.poll())

    def test_a_right_that_is_wanting_for_long(self) -> None:
        """The server ends, and says why; another that has the right takes over."""
        one, two = sorted(("a", "b"), key=lambda it: rank("net", it), reverse=True)
        first, second = self.settled([self.serve(one, uri=self.uri_of_clerk), self.serve(two)])
        self.database.ask(ROW)
        self.database.ask("REVOKE SELECT ON line FROM clerk")
        with self.asking(first) as told:
            first.end(74, None)
        self.assertEqual(told, [b"closed journal\n"])
        self.want_in(first.told(), 'event=journal-fault why="postgresql://')
        self.want_in(first.told(), "permission denied for table line")
        self.assertNotIn("Traceback", first.told())
        self.assertEqual(second.answer(FIRST), b"at 1\nok 2\n")

    def test_a_schema_that_is_not_found_for_a_moment(self) -> None:
        """Sessions that were begun then don't find the tables later either, so others are begun."""
        server = self.serve("one")
        server.wait_for("event=taken network=net")
        self.database.ask("ALTER DATABASE fleet SET search_path = nowhere")
        self.database.ask(f"SELECT pg_terminate_backend(pid) {OTHERS}")
        server.wait_for('event=database why="relation \\"server\\" does not exist')
        with self.asking(server) as told:
            server.wait_for('event=database why="relation \\"network\\" does not exist')
            self.database.ask("ALTER DATABASE fleet RESET search_path")
        self.assertEqual(told, [b"at 1\nok 1\n"])
        self.assertIsNone(server.process.poll())

    def test_a_right_that_is_wanting_at_the_beginning(self) -> None:
        self.database.ask("REVOKE INSERT ON server, network FROM clerk")
        program = ["--program", *self.desks_program.words]
        self.stopped("serve", self.uri_of_clerk, "--listen", "127.0.0.1:0", *program,
                     says="permission denied for table server")
        self.stopped("journal", "open", self.uri_of_clerk, "late", "first", self.file("net.csv", ONE), *program,
                     says="permission denied for table network")
