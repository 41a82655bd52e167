"""What may be asked of a network that ends, is frozen or thaws while a server is at work: it counts from its commit on,
whoever is asking at that moment."""
from __future__ import annotations

import contextlib
import threading
from pathlib import Path
from typing import Iterator

from harness import SECONDS, wait_for
from nrm.desk import Denied, Desk
from nrm.journal.networks import end_network, freeze_network, network_in, open_network
from nrm.journal.sqlite_tables import using
from nrm.journal.sqlite_writing import SqliteWriter
from nrm.journal.stores import Given
from nrm.server.status_text import ask_status
from server.servers import answers
from server.serves import ONE, Serve, ServeTest, all_told, rows_in, talk

SEATS, LATER_SEATS = 250, 290  # of the aircraft that was planned, and of the one that comes
SOLD = "SELECT coalesce(sum(party), 0) FROM request WHERE booking IS NOT NULL"
ROW = b"%d\tD1\t%d\tbook LOC 1\tok %d\n"


class Asking(threading.Thread):
    """A desk that books a seat again and again until that is denied, or nothing is left, however the server fares."""

    def __init__(self, serve: Serve, network: str) -> None:
        super().__init__(daemon=True)
        self.serve, self.network = serve, network
        self.told: list[object] = []

    def run(self) -> None:
        with Desk(self.serve.path, "COUNTER-9", network=self.network) as desk:
            while not self.told or type(self.told[-1]).__name__ == "Sold":
                self.told.append(desk.book("LOC", 1))

    def has_sold(self) -> bool:
        """Whether it is at work."""
        return len(self.told) > 3


class Ending(ServeTest):
    @contextlib.contextmanager
    def asked(self, serve: Serve, network: str) -> Iterator[Asking]:
        """A desk that is at work, and that has ended at the end."""
        asking = Asking(serve, network)
        asking.start()
        wait_for(asking.has_sold, "a desk that sells")
        yield asking
        asking.join(SECONDS)
        self.assertFalse(asking.is_alive(), "the desk goes on")

    def lines(self, journal: Path) -> int:
        """How many lines the only network has."""
        [(lines,)] = rows_in(journal, "SELECT lines FROM head")
        return lines

    def test_nothing_is_written_behind_the_end(self) -> None:
        """And a desk goes on by itself, and hears that it is denied."""
        for change in end_network, freeze_network:
            with self.subTest(change.__name__):
                journal = self.journal("one", file=ONE.encode(), at=change.__name__)
                with self.served(journal) as serve, self.asked(serve, "one") as asking:
                    with using(str(journal), is_to_write=True) as connection:
                        change(connection, "one")
                    lines = self.lines(journal)
                    asking.join(SECONDS)
                    self.assertEqual(asking.told[-1], Denied())
                    self.assertEqual((self.lines(journal), len(asking.told)), (lines, lines + 1))

    def test_another_aircraft_sells_no_more_than_it_has(self) -> None:
        """While a desk goes on asking the network of the one that was planned."""
        for change in end_network, freeze_network:
            with self.subTest(change.__name__):
                file = ONE.replace("300", str(SEATS)).encode()
                journal = self.journal("one", file=file, at=change.__name__)
                with self.served(journal) as serve, self.asked(serve, "one") as asking:
                    with using(str(journal), is_to_write=True) as connection:
                        change(connection, "one")
                    [(sold,)] = rows_in(journal, SOLD)
                    with using(str(journal), is_to_write=True) as connection:
                        open_network(connection, "later", "first", ONE.replace("300", str(LATER_SEATS - sold)).encode(),
                                     self.desks_program.checksum())
                    told = talk(serve, b"desk later D1 1\n" + b"book LOC 1\n" * LATER_SEATS)
                    asking.join(SECONDS)
                    self.assertEqual(told.count(b"\nok "), LATER_SEATS - sold)
                    self.assertEqual(rows_in(journal, SOLD), [(LATER_SEATS,)])

    def test_what_a_frozen_network_answers(self) -> None:
        """Those that are there are told to come again. Bookings are cancelled and all is looked at; nothing is sold or
        planned, until it thaws."""
        journal = self.journal("one", mode="bid", file=ONE.encode())
        with self.served(journal) as serve, serve.connect() as client:
            self.assertEqual(answers(client, b"desk one D1 1\nbook LOC 1\nbook LOC 2\n", 3),
                             [b"at 1\n", b"ok 1\n", b"ok 2\n"])
            self.told("journal", "freeze", str(journal), "one")
            client.sendall(b"book LOC 1\n")
            self.assertEqual(all_told(client), b"closed wait\n")
            self.assertRegex(self.told("journal", "look", str(journal)),
                             r"^one bid, 2 lines, begun \S+, frozen 2\S+Z, program")
            self.assertEqual(talk(serve, b"desk one D1 3\nbook LOC 1\nreoptimise 1\nask LOC\ncancel 1\ncancel 1\n"),
                             b"at 3\ndenied\ndenied\nask LOC 297 leg AB\ncancelled 1 200\nunknown\n")
            self.told("journal", "thaw", str(journal), "one")
            self.assertRegex(self.answered(serve, b"desk one D1 9\nbook LOC 1\n"), rb"at 9\nok 3\n")
            self.stopped("journal", "thaw", str(journal), "one", says="one isn't frozen")
            self.told("journal", "end", str(journal), "one")
            for word in "freeze", "thaw":
                self.stopped("journal", word, str(journal), "one", says="one has ended, and can only be read")
            self.assertEqual(self.answered(serve, b"desk one D1 10\ncancel 2\nask LOC\n"),
                             b"at 10\ndenied\nask LOC 297 leg AB\n")
            self.assertRegex(self.told("journal", "look", str(journal)), r", ended 2\S+Z, program")

    def answered(self, serve: Serve, lines: bytes) -> bytes:
        """What a client is told that comes again where it is told to wait."""
        told = [b""]

        def is_answered() -> bool:
            told[0] = talk(serve, lines)
            return not told[0].endswith(b"closed wait\n")

        wait_for(is_answered, "an answer")
        return told[0]

    def test_a_look_behind_the_end_isnt_answered_by_who_may_still_sell(self) -> None:
        journal = self.journal("one", "two", file=ONE.encode())
        with self.served(journal) as serve, serve.connect() as client, serve.connect() as other:
            self.assertEqual(answers(client, b"desk one D1\nask LOC\n", 2), [b"at 1\n", b"ask LOC 300 leg AB\n"])
            self.assertEqual(answers(other, b"desk two D1\nask LOC\n", 2), [b"at 1\n", b"ask LOC 300 leg AB\n"])
            with using(str(journal), is_to_write=True) as connection:
                end_network(connection, "one")
            client.sendall(b"ask LOC\n")
            self.assertEqual(all_told(client), b"closed wait\n")
            self.assertEqual(talk(serve, b"desk one D1\nask LOC\nbook LOC 1\n"), b"at 1\nask LOC 300 leg AB\ndenied\n")
            self.assertEqual(answers(other, b"book LOC 1\n", 1), [b"ok 1\n"])
            self.assertEqual(serve.told().count("reason=wait"), 1)

    def test_the_end_is_seen_where_nobody_asks(self) -> None:
        journal = self.journal("one", file=ONE.encode())
        with self.served(journal) as serve, serve.connect() as client:
            self.assertEqual(answers(client, b"desk D1 1\nbook LOC 1\n", 2), [b"at 1\n", b"ok 1\n"])
            self.told("journal", "end", str(journal), "one")
            self.assertEqual(all_told(client), b"closed wait\n")
            wait_for(lambda: ask_status(serve.path, SECONDS).networks[0].state == "rests", "the end of the program")
            self.want_in(serve.told(), "event=ended network=one\n")

    def test_the_writing_lets_no_row_through_that_knows_nothing_of_it(self) -> None:
        """Those of other networks in the same commit are written, and what was ended isn't halted."""
        journal = self.journal("one", "two", file=ONE.encode())
        writer = SqliteWriter(str(journal), "p")
        self.addCleanup(writer.close)
        given = [Given(it, 1, 0, ROW % (1, 1, 1), writer.epoch) for it in (1, 2)]
        self.assertTrue(all(map(writer.is_still, given)))
        with using(str(journal), is_to_write=True) as connection:
            freeze_network(connection, "one")
            frozen = network_in(connection, "one").ended
            self.assertEqual([*map(writer.is_still, given)], [False, True])
            self.assertEqual(writer.write(given), {1: None})
            self.assertEqual(rows_in(journal, "SELECT network, number FROM line"), [(2, 1)])
            self.assertEqual(writer.write([Given(1, 1, 0, ROW % (1, 1, 1), writer.epoch, frozen)]), {})
            self.assertEqual(writer.write([Given(1, 1, 1, b"", writer.epoch)]), {1: None})
            end_network(connection, "one")
        self.assertEqual(writer.write([Given(1, 1, 1, ROW % (2, 2, 2), writer.epoch, frozen)]), {1: None})
        self.assertEqual(rows_in(journal, "SELECT halted FROM network"), [(None,), (None,)])
