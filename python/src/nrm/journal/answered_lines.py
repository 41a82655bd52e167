"""A line of a journal as it was answered: who asked it and when, which line sold a booking and which gave it back, and
all lines and replies up to one, laid into files.
"""
from __future__ import annotations

from dataclasses import dataclass
from pathlib import Path

from nrm import Stop
from nrm.journal.stores import Opened, Tables

FIELDS = "desk", "sequence", "line", "reply"


@dataclass(frozen=True)
class AnsweredLine:
    """A line as the journal has it. The time is what the machine's clock said as the line was written."""
    number: int
    at: str
    desk: str
    sequence: str
    line: str
    reply: str


def line_in(connection: Tables, network: Opened, number: int) -> AnsweredLine:
    """The line of a number; a Stop if there is none, that says how many there are."""
    fields = ", ".join(connection.bytes_of.format(it) for it in FIELDS)
    row = connection.execute(f"SELECT number, {connection.time.format('at')}, {fields} FROM line WHERE network = ? AND "
                             "number = ?", [network.number, number]).fetchone()
    if row:
        found, at, *rest = row
        return AnsweredLine(found, str(at), *map(shown, rest))
    if number <= network.lines:
        raise taken_out(network, number)
    there_are = f"{network.lines} line{'' if network.lines == 1 else 's'}" if network.lines else "no lines yet"
    raise Stop(f"{network.name} has {there_are}, and no line {number}")


def shown(field: bytes) -> str:
    """A field as text. Somebody may have changed it, so what no terminal should be sent is written out."""
    return field.decode("latin-1").encode("unicode_escape").decode("ascii")


def ended_at(connection: Tables, network: Opened) -> str | None:
    """Since when a network is only looked at, if it is."""
    row = connection.execute(f"SELECT {connection.time.format('ended')} FROM network WHERE network = ? AND ended > 0",
                             [network.number]).fetchone()
    return str(row[0]) if row else None


def taken_out(network: Opened, number: int) -> Stop:
    """A Stop for a line that must have been there."""
    return Stop(f"{network.name} has {network.lines} lines, but line {number} isn't among them: somebody has removed "
                "it from the journal, and the lines after it can't be played again")


def sold_by(connection: Tables, network: Opened, booking: int) -> int:
    """The number of the line that sold a booking; a Stop if no line did."""
    [number] = connection.execute("SELECT min(number) FROM line WHERE network = ? AND reply = ?",
                                  [network.number, f"ok {booking}"]).fetchone()
    if number is None:
        [last] = connection.execute("SELECT max(CAST(substr(reply, 4) AS BIGINT)) FROM line WHERE network = ? AND "
                                    "substr(reply, 1, 3) = 'ok '", [network.number]).fetchone()
        raise Stop(f"no line of {network.name} sold a booking {booking}: "
                   + (f"the last that was sold has the number {last}" if last else "none was sold"))
    return int(number)


def given_back_by(connection: Tables, network: Opened, booking: int) -> AnsweredLine | None:
    """The line that cancelled a booking, if one did."""
    front = f"cancelled {booking} "
    [number] = connection.execute("SELECT min(number) FROM line WHERE network = ? AND line = ? AND "
                                  "substr(reply, 1, ?) = ?", [network.number, f"cancel {booking}", len(front), front],
                                  ).fetchone()
    return None if number is None else line_in(connection, network, number)


def lay(connection: Tables, network: Opened, number: int, stream: Path, replies: Path) -> None:
    """Writes the lines of a network up to one into a file, and their replies into another, as they are at one moment. A
    Stop where one is missing, or was changed such that it is no line."""
    line_bytes, reply_bytes = connection.bytes_of.format("line"), connection.bytes_of.format("reply")
    rows = connection.execute(f"SELECT number, {line_bytes}, {reply_bytes} FROM line WHERE network = ? AND "
                              "number BETWEEN 1 AND ? ORDER BY number", [network.number, number])
    last = 0
    with open(stream, "wb") as lines, open(replies, "wb") as answers:
        for found, line, reply in rows:
            last += 1
            if found != last:
                raise taken_out(network, last)
            if b"\n" in line + reply:
                raise Stop(f"line {found} of {network.name} has a line feed in it: somebody has changed it in the "
                           "journal")
            lines.write(line + b"\n")
            answers.write(reply + b"\n")
    if last < number:
        raise taken_out(network, last + 1)
