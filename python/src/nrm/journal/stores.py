"""What a store of rows is: connections to the tables, what writes, and what several servers see of each other."""
from __future__ import annotations

import contextlib
import time
from dataclasses import dataclass
from typing import Any, ContextManager, Iterator, Mapping, Protocol, Sequence, TypeVar, Union

from nrm import Stop

Values = Union[Sequence[Any], Mapping[str, Any]]
Reached = TypeVar("Reached", bound="Tables")


# What goes wrong


class NoJournal(Stop):
    """What is at a place is no journal."""


class Fenced(Stop):
    """Another server has the journal now."""


class Busy(Exception):
    """Nothing was written, since somebody else holds the journal, or it isn't reached: it can be tried again."""


class UnknownOutcome(Exception):
    """Nobody knows whether the rows were written: the connection broke within the commit, or the waiting for another
    machine's disk was cancelled."""


class Gone(Exception):
    """The files of a journal aren't those any more that were opened: what is written may be nowhere."""


class RefusedByStore(Exception):
    """Why the tables don't take a row."""


# The tables


def now() -> int:
    """The milliseconds since 1970 began, by the clock of this machine: the tables have all times so."""
    return time.time_ns() // 1_000_000


class Rows(Protocol):
    """What a statement gives."""

    @property
    def rowcount(self) -> int:
        """How many rows it gave or changed."""

    def fetchone(self) -> Any:
        """The next row, or None."""

    def fetchall(self) -> list[Any]:
        """All rows that are left."""

    def __iter__(self) -> Iterator[Any]:
        """The rows, one by one."""


class Tables(Protocol):
    """A connection to the tables of a journal. In a statement `?` stands for a value."""

    @property
    def time(self) -> str:
        """How the text of a time in milliseconds is written in a statement; `{}` stands for its column."""

    @property
    def bytes_of(self) -> str:
        """How the bytes of a field are written in a statement, whatever they are; `{}` stands for its column."""

    @property
    def lines(self) -> LineConditions:
        """How lines are told apart in a statement."""

    @property
    def first_head(self) -> str:
        """The statement that says of a new network, by number, that it has no lines, and whose it is."""

    @property
    def lets_go(self) -> str | None:
        """The statement, by number, by which no server has a network any more whose rights change; None where the
        writing itself compares them."""

    @property
    def faults(self) -> tuple[type[Exception], ...]:
        """What goes wrong with the store itself."""

    @property
    def lost(self) -> tuple[type[Exception], ...]:
        """What goes wrong with the connection alone, or is in the way for a while, so that a question may be asked
        again."""

    def execute(self, statement: str, values: Values = (), /) -> Rows:
        """Carries out a statement."""

    def change(self) -> ContextManager[None]:
        """A change that happens as a whole or not at all."""

    def rows_after(self, network: int, number: int, most: int | None = None) -> tuple[int, list[bytes]]:
        """The next rows of a network behind the one of a number, as its program takes them, in pieces that a frame
        takes, and the number of the last; none beyond `most`."""

    def read_after(self, network: int, number: int, most: int | None = None) -> tuple[str, int, list[bytes]]:
        """The same, and before it which past of the store they were read from: it is another one when rows that were
        read before may have been lost."""

    def has(self, table: str) -> bool:
        """Whether there is a table of a name: a journal of an earlier release may lack some."""

    def version(self) -> int:
        """A number that is another one when another connection may have written."""

    def close(self) -> None:
        """Ends the connection."""


@contextlib.contextmanager
def closed_at_the_end(tables: Reached, place: str) -> Iterator[Reached]:
    """A connection to the tables, closed at the end. What goes wrong with the store is a Stop that names its place."""
    try:
        yield tables
    except tables.faults as fault:
        raise Stop(f"{place}: {' '.join(str(fault).split()) or repr(fault)}")
    finally:
        tables.close()


@dataclass(frozen=True)
class LineConditions:
    """What a statement says of lines, as conditions and values that indexes have.

    asks_for_a_plan  the line asked for a plan of a period that the network has
    period           the period that such a line asks for
    by_number        behind `line`, the index of these by number, if it must be named; by_period likewise
    join             how tables are joined in the order in which they are written
    """
    asks_for_a_plan: str
    period: str
    join: str = "JOIN"
    by_number: str = ""
    by_period: str = ""


@dataclass(frozen=True)
class Opened:
    """A network of a journal, with the SHA-256 of its program, when it ended, why it is halted, its lines, and whose it
    is. `ended` is below 0 where it is frozen since then: it is looked at and its bookings are cancelled, but nothing is
    booked; an earlier release takes it for one that has ended."""
    number: int
    name: str
    mode: str
    program: str
    ended: int | None
    halted: str | None
    lines: int
    epoch: int

    @property
    def is_ended(self) -> bool:
        """Whether it is only looked at."""
        return (self.ended or 0) > 0

    @property
    def is_frozen(self) -> bool:
        """Whether it is looked at, and its bookings are cancelled, but nothing is booked."""
        return (self.ended or 0) < 0


# What writes


@dataclass(frozen=True)
class Given:
    """Rows that a program has given out: of which network, by which run of its program, behind how many lines, by which
    taking of the network, where each has its own, and `ended` as it was when the program began: what it may carry out
    hangs on that."""
    network: int
    run: int
    before: int
    rows: bytes
    epoch: int = 0
    ended: int | None = None

    def count(self) -> int:
        """How many rows they are."""
        return self.rows.count(b"\n")

    def refused(self, why: object) -> str:
        """What is told of them when the tables don't take one."""
        return f"a row of {self.before + 1} to {self.before + self.count()} is refused: {why}"


class Writer(Protocol):
    """One server's writing."""
    is_quick: bool  # whether few rows are written without keeping others waiting for long
    epoch: int  # of this start; where each network is taken by itself, the number of this start

    def write(self, given: Sequence[Given]) -> dict[int, str | None]:
        """Writes the rows of several networks in one commit. Gives why those of a network were refused, which halts it,
        or None for a network that another server has, or whose rights have changed since its program began. Busy if
        nothing was written and it can be tried again, UnknownOutcome if nobody knows, Fenced if another server has the
        whole journal."""

    def look(self) -> None:
        """Gone if what was written isn't where the journal's name says. Nothing is being written meanwhile."""

    def version(self) -> int:
        """A number that is another one when another process may have written the journal, and not this server."""

    def is_still(self, given: Given) -> bool:
        """Whether it is seen at once, without a commit, that a network is still this server's, and has the lines and
        the rights that its program knows."""

    def close(self) -> None:
        """Ends the writing."""


# Several servers

REPLACED = 78  # the status of a server whose name another has


@dataclass(frozen=True)
class Member:
    """A server that is alive: the number of its start, its name, where desks reach it, its program, and whether it is
    about to leave or has only just begun."""
    server: int
    name: str
    address: str
    program: str
    is_leaving: bool
    is_young: bool


@dataclass(frozen=True)
class Head(Opened):
    """A network as one that servers share: the number of the start of the server that has it, if it was taken."""
    server: int | None


@dataclass(frozen=True)
class SeenServers:
    """What a server sees of the others.

    server      itself, by the number of its start
    members     those alive, as far as that is known
    dead        servers that have died, whose networks nobody has
    is_sure     whether the others may be taken for dead: not soon after this server couldn't look itself
    heads       whose each network is
    weakness    why a commit waits for no other machine's disk, if it doesn't
    size        the bytes of the journal
    """
    server: int
    members: tuple[Member, ...]
    dead: frozenset[int]
    is_sure: bool
    heads: tuple[Head, ...]
    weakness: str | None
    size: int


@dataclass(frozen=True)
class Named:
    """How a server is known to others: its name, where desks reach it, and its program."""
    name: str
    address: str
    program: str


class Replaced(Stop):
    """Another start of a server has the name now. By the status a supervisor knows not to begin this one again: of two
    that are both begun again, each takes the name from the other, for ever."""

    def __init__(self, name: str, address: str) -> None:
        there = f", at {address}" if address else ""
        super().__init__(f"another server was started with the name {name}{there}: to start this one again, give it a "
                         "name of its own, or stop the other", REPLACED)


class Members(Protocol):
    """What servers that share a journal tell each other through it."""

    @property
    def faults(self) -> tuple[type[Exception], ...]:
        """What goes wrong with the store itself."""

    def beat(self, is_leaving: bool) -> SeenServers:
        """Tells that this server is alive, and looks who else is and whose each network is. Replaced if a later start
        has its name."""

    def take(self, wanted: Sequence[tuple[int, int]]) -> dict[int, tuple[int, int]]:
        """Takes networks, each of which must still have an epoch, by one commit. Gives the epoch and the lines of those
        that were taken; what is read afterwards can't be lost. UnknownOutcome if nobody knows."""

    def history(self) -> str:
        """The past of the store that the last taking is in, as `Tables.read_after` tells it."""

    def leave(self, owned: Sequence[tuple[int, int]]) -> None:
        """Gives networks up, each with its epoch, and is no more."""

    def close(self) -> None:
        """Ends the connection."""


class Store(Protocol):
    """A journal, wherever its rows are."""
    place: str  # as it is told, without a password
    is_shared: bool  # whether several servers may answer for its networks, each for some

    def begin(self) -> None:
        """Makes a journal without a network."""

    def opened(self, is_to_write: bool = False) -> Tables:
        """A connection to the tables; a Stop if there are none."""

    def locked(self) -> ContextManager[None]:
        """The journal, as this server's alone where it can't be shared; a Stop while another has it."""

    def writer(self, program: str) -> Writer:
        """What writes the rows of a server that answers by a program."""

    def members(self, named: Named) -> Members:
        """What this server tells others, and sees of them."""

    def halt(self, network: int, epoch: int, why: str) -> None:
        """Has nobody answer for a network any more, if its epoch is still this one. Busy as long as somebody else
        writes."""

    def answer_by(self, network: int, program: str) -> None:
        """Has a network without lines answered by another program than it began with. Busy likewise."""

    def size(self) -> int:
        """The bytes that the journal takes."""
