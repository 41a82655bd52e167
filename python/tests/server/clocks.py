"""What the tests of the clock stand on: a journal with networks whose lines and times are put into it as they are
wanted, and in the place of a server what has the clock's clients come, and remembers what they ask."""
from __future__ import annotations

from pathlib import Path
from typing import Mapping, Sequence

from nrm.journal.network_times import Times, set_times
from nrm.journal.networks import open_network
from nrm.journal.sqlite_tables import begin, opened, using
from nrm.journal.sqlite_writing import SqliteWriter
from nrm.journal.stores import Opened
from nrm.server.clients import Client, ClientLimits, Reception
from nrm.server.clock import Clock
from nrm.server.counters import Counters
from nrm.server.event_log import shown, text_of
from nrm.server.loop import Loop
from nrm.server.own_client import Own
from nrm.server.tokens import Tokens
from server.servers import ServerTest

PLAN = b"value %d/1\nproduct LOC 1/1\nleg AB %d/1\nleg BC 7/2\n\n"
SECOND = 1000


class Events:
    """A log in the place of one, which keeps all that it is told."""

    def __init__(self) -> None:
        self.lines: list[str] = []

    def tell(self, event: str, **fields: object) -> None:
        self.lines.append(f"{event} {text_of({name: shown(it) for name, it in fields.items()})}")


class Arrivals:
    """In the place of those who have clients come; and the journal, and what else the clock needs of a server."""

    def __init__(self, path: Path) -> None:
        self.reader, self.writer = opened(str(path)), SqliteWriter(str(path), "p")
        self.loop, self.events = Loop(), Events()
        self.clients: set[Client] = set()
        self.in_writing: list[object] = []
        self.owning, self.answers = self, True
        self.sent: list[tuple[str, bytes, Own]] = []
        self.reception = Reception(self.loop, self.events, Counters(), ClientLimits(), Tokens(self.events.tell),
                                   self.enter, self.clients.discard, bytes)

    def enter(self, client: Client, network: str | None, data: bytes) -> None:
        assert network and isinstance(client, Own)
        self.sent.append((network, data, client))

    def is_answered(self, network: Opened) -> bool:
        return self.answers

    def may_read(self) -> bool:
        return True

    def close(self) -> None:
        self.reader.close()
        self.writer.close()


class ClockTest(ServerTest):
    """A test of a clock that begins at second 1,000."""
    count = 0  # of journals

    def begun(self, networks: Mapping[str, Times | None], every: int = 0, mode: str = "bid") -> None:
        self.count += 1
        self.path = self.folder / f"journal-{self.count}"
        begin(str(self.path))
        with using(str(self.path), is_to_write=True) as connection:
            for number, (name, times) in enumerate(networks.items(), 1):
                open_network(connection, name, mode, b"", "p")
                if times:
                    self.set(number, times)
            connection.execute("UPDATE network SET begun = ?", [1000 * SECOND])
        self.seconds, made = 1000.0, Arrivals(self.path)
        self.addCleanup(made.close)
        self.arrivals = made
        self.clock = Clock(made.loop, made.events, made.reader, made, made, every, lambda: self.seconds)

    def set(self, network: int, times: Times) -> None:
        """Sets times, as another process does."""
        with using(str(self.path), is_to_write=True) as connection, connection.change():
            set_times(connection, network, times)

    def row(self, line: str, reply: str, network: int = 1, desk: str = "D1") -> None:
        """Writes a line at this second, as the server does."""
        connection = self.arrivals.writer.connection
        [number] = connection.execute("SELECT lines + 1 FROM head WHERE network = ?", [network]).fetchone()
        connection.execute("INSERT INTO line VALUES (?, ?, 1, ?, ?, ?, ?, ?)",
                           [network, number, desk, number, int(SECOND * self.seconds), line, reply])
        connection.execute("UPDATE head SET lines = ? WHERE network = ?", [number, network])

    def at(self, seconds: float) -> list[tuple[str, int]]:
        """What is asked as the clock says so many seconds, one after it did so last: names, and periods."""
        self.seconds = seconds
        self.arrivals.loop.now += 1
        before = len(self.arrivals.sent)
        self.do(self.clock.look)
        return [(name, period_in(data)) for name, data, _ in self.arrivals.sent[before:]]

    def do(self, *calls: object) -> None:
        """Does something, and what is put off until then."""
        for call in calls:
            call()
        self.arrivals.loop.do_what_is_due()

    def told(self) -> list[str]:
        """What was told since this was asked last."""
        lines, self.arrivals.events.lines = self.arrivals.events.lines, []
        return lines

    def answer(self, reply: str = "optimised 5/1", why: str | None = None, whole: bool = True, at: int = -1) -> None:
        """Answers what was sent last, a third of a second later, or has it closed before the reply came."""
        name, data, own = self.arrivals.sent[at]
        own.put(b"at 1\n" + PLAN % (9, 4))
        if not why:
            if reply.startswith(("optimised", "overflow", "unknown")):
                [[network]] = self.arrivals.reader.execute("SELECT network FROM network WHERE name = ?", [name])
                self.row(f"reoptimise {period_in(data)}", reply, network, "CLOCK")
            self.arrivals.loop.now += 1 / 3
            own.put(reply.encode() + b"\n")
            own.put(PLAN % (5, 6) if whole else b"value 5/1\nproduct")
        self.do(lambda: own.finish(why))


def period_in(data: bytes) -> int:
    """The period of what is sent, which has a look before it and behind it."""
    words = data.split()
    assert words[:4] == [b"desk", b"CLOCK", b"plan", b"reoptimise"] and words[5:] == [b"plan"], data
    return int(words[4])


def times(departs: int, begins: Sequence[tuple[int, int]] = ()) -> Times:
    """Times in seconds."""
    return Times(SECOND * departs, tuple((period, SECOND * when) for period, when in begins))
