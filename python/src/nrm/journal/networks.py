"""The networks of a journal: how one is put into it, what it tells of each, and the rows of one as the program takes
them.
"""
from __future__ import annotations

import re
from typing import Iterator

from nrm import Stop
from nrm.journal.stores import Opened, Tables, now

NAME = re.compile(r"[a-z][a-z0-9._-]{0,39}")  # no desk has such a name
COLUMNS = "network, name, mode, program, ended, halted, lines, epoch"
MOST_NAMED = 20  # networks in a sentence


def opened_of(row: tuple[int, str, str, str, int | None, str | None, int, int]) -> Opened:
    """The network of a row of the columns."""
    return Opened(*row)


def networks_in(connection: Tables) -> list[Opened]:
    """All networks, by their names."""
    rows = connection.execute(f"SELECT {COLUMNS} FROM network JOIN head USING (network) ORDER BY name")
    return [opened_of(row) for row in rows]


def network_in(connection: Tables, name: str) -> Opened | None:
    """The network of a name."""
    row = connection.execute(f"SELECT {COLUMNS} FROM network JOIN head USING (network) WHERE name = ?",
                             [name]).fetchone()
    return opened_of(row) if row else None


def known(connection: Tables, name: str) -> Opened:
    """The network of a name; a Stop if there is none, that says which there are."""
    found = network_in(connection, name)
    if not found:
        names = [it.name for it in networks_in(connection)]
        rest = len(names) - MOST_NAMED
        more = f" and {rest} more, which `nrm-tools journal look` lists" if rest > 0 else ""
        raise Stop(f"the journal has no network {name}; it has {', '.join(names[:MOST_NAMED]) or 'none'}{more}")
    return found


def head_of(connection: Tables, network: int) -> tuple[int, int]:
    """Whose a network is, and how many lines it has."""
    row = connection.execute("SELECT epoch, lines FROM head WHERE network = ?", [network]).fetchone()
    return (int(row[0]), int(row[1])) if row else (0, 0)


def file_of(connection: Tables, network: int) -> bytes:
    """The network file, byte for byte."""
    [file] = connection.execute("SELECT file FROM network WHERE network = ?", [network]).fetchone()
    return bytes(file)


def see_that_it_is_free(connection: Tables, name: str) -> None:
    """A Stop for what is no name of a network, or is that of one which the journal has."""
    if not NAME.fullmatch(name):
        raise Stop(f"{name!r} isn't a name of a network, which is a small letter and then at most 39 of `a` to `z`, "
                   "`0` to `9`, `.`, `_` and `-`")
    if network_in(connection, name):
        raise Stop(f"the journal has a network {name} already")


def open_network(connection: Tables, name: str, mode: str, file: bytes, program: str) -> None:
    """Puts a network into a journal. If a server is at work it is that server's."""
    with connection.change():
        put_network(connection, name, mode, file, program)


def put_network(connection: Tables, name: str, mode: str, file: bytes, program: str) -> int:
    """Puts a network into a journal, within a change, and gives its number."""
    see_that_it_is_free(connection, name)
    connection.execute("INSERT INTO network (name, mode, file, program, begun) VALUES (?, ?, ?, ?, ?)",
                       [name, mode, file, program, now()])
    [number] = connection.execute("SELECT network FROM network WHERE name = ?", [name]).fetchone()
    connection.execute(connection.first_head, [number])
    return int(number)


def end_network(connection: Tables, name: str) -> None:
    """Has a network looked at alone from now on."""
    with connection.change():
        found = known(connection, name)
        if not found.is_ended:
            set_ended(connection, found, now())


def freeze_network(connection: Tables, name: str) -> None:
    """Has nothing booked in a network from now on; it is looked at, and bookings are cancelled."""
    with connection.change():
        found = going_on(connection, name)
        if not found.is_frozen:
            set_ended(connection, found, -now())


def thaw_network(connection: Tables, name: str) -> None:
    """Has a network that is frozen sell again."""
    with connection.change():
        found = going_on(connection, name)
        if not found.is_frozen:
            raise Stop(f"{name} isn't frozen")
        set_ended(connection, found, None)


def going_on(connection: Tables, name: str) -> Opened:
    """The network of a name; a Stop if it has ended, since that is for good."""
    found = known(connection, name)
    if found.is_ended:
        raise Stop(f"{name} has ended, and can only be read")
    return found


def set_ended(connection: Tables, network: Opened, ended: int | None) -> None:
    """Changes what may be asked of a network, within a change: no row is written behind it by who doesn't know of
    it."""
    connection.execute("UPDATE network SET ended = ? WHERE network = ?", [ended, network.number])
    if connection.lets_go:
        connection.execute(connection.lets_go, [network.number])


def rows_of(tables: Tables, network: int) -> Iterator[bytes]:
    """The rows of a network as the program takes them, in pieces of whole rows."""
    number, pieces = tables.rows_after(network, 0)
    while pieces:
        yield from pieces
        number, pieces = tables.rows_after(network, number)
