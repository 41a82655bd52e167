"""What a journal tells while a server writes it: its networks, lines of one, and a copy of all."""
from __future__ import annotations

from dataclasses import dataclass
from typing import Iterator

from nrm.journal.choosing_store import using
from nrm.journal.networks import known
from nrm.journal.sqlite_tables import made
from nrm.journal.sqlite_tables import using as using_file

PAGES_AT_ONCE = 1000  # of a copy, which goes on with the same state of the journal


@dataclass(frozen=True)
class WantedLines:
    """Which lines of a network are wanted: the one of a number, those of a desk, those of a booking; all if nothing is
    said."""
    number: int | None = None
    desk: str | None = None
    booking: int | None = None

    def condition(self) -> tuple[str, list[object]]:
        """The condition on a line, and its values."""
        parts: list[str] = []
        values: list[object] = []
        if self.number is not None:
            parts, values = ["number = ?"], [self.number]
        if self.desk is not None:
            parts, values = [*parts, "desk = ?"], [*values, self.desk]
        if self.booking is not None:
            parts = [*parts, "(reply = ? OR line = ?)"]
            values = [*values, f"ok {self.booking}", f"cancel {self.booking}"]
        return "".join(f" AND {it}" for it in parts), values


def summary(path: str) -> Iterator[str]:
    """Each network of a journal, with what became of it."""
    with using(path) as connection:
        time = connection.time
        rows = connection.execute(f"SELECT name, mode, lines, {time.format('begun')}, {time.format('abs(ended)')}, "
                                  "ended < 0, halted, program FROM network JOIN head USING (network) ORDER BY name")
        for name, mode, lines, begun, ended, is_frozen, halted, program in rows:
            became = "".join([f", {'frozen' if is_frozen else 'ended'} {ended}" if ended else "",
                              f", halted: {halted}" if halted else ""])
            yield f"{name} {mode}, {lines} lines, begun {begun}{became}, program {program}"


def lines_of(path: str, network: str, wanted: WantedLines) -> Iterator[str]:
    """Lines of a network, with who asked each and when, and the replies."""
    condition, values = wanted.condition()
    with using(path) as connection:
        number = known(connection, network).number
        time = connection.time.format("at")
        rows = connection.execute(f"SELECT number, {time}, desk, sequence, line, reply FROM line "
                                  f"WHERE network = ?{condition} ORDER BY number", [number, *values])
        for row in rows:
            yield "\t".join(map(str, row))


def copy(path: str, place: str) -> None:
    """Copies a journal to where nothing is, as it is at a moment, while others write it."""
    with using_file(path) as connection, made(place) as new:
        connection.execute("BEGIN")  # so that a line that is written meanwhile doesn't have it begin anew
        connection.execute("SELECT count(*) FROM network").fetchone()
        connection.backup(new, pages=PAGES_AT_ONCE)
        connection.execute("COMMIT")
