"""What a server of many desks answers to a line `status`: how it is written, read, and asked for.

The answer is lines of words with one space between each two, and an empty line behind them. A line is a kind, and
behind it pairs of a name and a value; no value has a space.
"""
from __future__ import annotations

import os
import re
import socket
import ssl
import time
from dataclasses import dataclass, fields
from typing import Callable, Mapping, Optional, Sequence, Tuple, Type, TypeVar, Union

ASKED = b"status\n"
END = b"\n\n"
TOLD_TOKEN = re.compile(rb"token [^\n]*\n")  # before it, to who gave one
PIECE = 65_536
MOST_BYTES = 64_000_000  # of an answer
MOST_SHOWN = 200  # characters of a strange line
STATES = ("rests", "waits", "begins", "answers", "ends", "follows")
UNFIT = "version"  # the state of a network that rests, and that no server here may answer for
Part = TypeVar("Part")
Path = Union[str, "os.PathLike[str]"]
Place = Union[Path, Tuple[str, int]]


class NoStatus(Exception):
    """Why there is no status: nobody listens, or answers in time, or the connection was closed."""


class StrangeStatus(NoStatus):
    """What came is no status: is that another program?"""


@dataclass(frozen=True)
class ServerStatus:
    """The server: its version, the SHA-256 of its program, when it began, its epoch, the bytes of its journal, how often
    the machine's clock jumped since it began, and whether it is about to end."""
    version: str
    program: str
    started: str
    epoch: int
    journal_bytes: int
    time_jumps: int
    stopping: bool


@dataclass(frozen=True)
class ClientStatus:
    """The clients: those that are there, how many may be, and, since the server began, how many came, were turned away,
    were dropped since they didn't take their replies, and the bytes from and to them."""
    now: int
    most: int
    ever: int
    turned_away: int
    unread: int
    bytes_in: int
    bytes_out: int


@dataclass(frozen=True)
class CommitStatus:
    """The commits: how many, the seconds of all and of the longest, the rows that they wrote, those that wait to be
    written now, and the commits that didn't write all that they were to."""
    count: int
    seconds: float
    longest: float
    rows: int
    waiting: int
    failed: int


@dataclass(frozen=True)
class ProgramStatus:
    """The programs: those that run, and how many have begun and ended."""
    now: int
    begun: int
    ended: int


@dataclass(frozen=True)
class NetworkStatus:
    """A network of the journal: its name, its mode, what its program does, or `version` if it hasn't ended and began
    with another program than the server has, the clients there, its lines, whether it is halted, and how often the
    reply was `memory`."""
    network: str
    mode: str
    state: str
    clients: int
    lines: int
    halted: bool
    memory: int


@dataclass(frozen=True)
class FleetStatus:
    """A server among several that share a journal: its name, where others reach it, how many servers it sees, the
    networks that it has now and follows now, and since it began, how many it has taken and lost, and how many clients
    it passed on."""
    name: str
    address: str
    servers: int
    owned: int
    followed: int
    taken: int
    lost: int
    passed: int


@dataclass(frozen=True)
class Share:
    """Whose a network is: the name of the server that has it, or `none`, the epoch of its taking, and whether this
    server follows it, and so would go on at once."""
    network: str
    owner: str
    epoch: int
    followed: bool


@dataclass(frozen=True)
class Status:
    """All that a server tells of itself; of others, and whose each network is, only where several share a journal.
    `closed` has why clients were closed, and how many for that; `commit_times`
    seconds, and how many commits took at most so long, as a histogram of Prometheus has them."""
    server: ServerStatus
    clients: ClientStatus
    closed: Mapping[str, int]
    commits: CommitStatus
    commit_times: Tuple[Tuple[float, int], ...]
    programs: ProgramStatus
    networks: Tuple[NetworkStatus, ...]
    fleet: Optional[FleetStatus] = None
    shares: Tuple[Share, ...] = ()

    def unfit(self) -> list[str]:
        """The networks that nobody answers for, since they began with another program."""
        return [it.network for it in self.networks if it.state == UNFIT]

    def text(self) -> str:
        """The answer, with the empty line at its end."""
        times = " ".join(f"{bound:g} {count}" for bound, count in self.commit_times)
        lines = [f"server {words_of(self.server)}", f"clients {words_of(self.clients)}",
                 *(f"closed {why} {count}" for why, count in sorted(self.closed.items())),
                 f"commits {words_of(self.commits)}", f"commit-times {times}", f"programs {words_of(self.programs)}",
                 *map(words_of, self.networks), *([f"fleet {words_of(self.fleet)}"] if self.fleet else []),
                 *(f"share {words_of(it)}" for it in self.shares)]
        return "\n".join([*lines, "", ""])


# How it is written


def words_of(part: object) -> str:
    """The pairs of a part."""
    return " ".join(f"{name.replace('_', '-')} {word_of(value)}" for name, value in vars(part).items())


def word_of(value: object) -> str:
    """A value as it is written."""
    if isinstance(value, bool):
        return "yes" if value else "no"
    return f"{value:.6f}" if isinstance(value, float) else str(value)


# How it is read


def status_of(text: str) -> Status:
    """The status that a text tells; StrangeStatus for what is none."""
    *lines, last, rest = text.split("\n") if text.endswith("\n\n") else ["", "no end", ""]
    if last or rest:
        raise StrangeStatus(f"it has no empty line at its end: {text[-MOST_SHOWN:]!r}")
    return StatusLines(lines).status()


class StatusLines:
    """The lines of an answer, by their kinds."""

    def __init__(self, lines: Sequence[str]) -> None:
        self.of_kind: dict[str, list[list[str]]] = {it: [] for it in KINDS}
        for line in lines:
            words = line.split(" ")
            if words[0] not in self.of_kind:
                raise StrangeStatus(f"a line of no known kind: {line[:MOST_SHOWN]!r}")
            self.of_kind[words[0]].append(words)

    def status(self) -> Status:
        """The status that they tell."""
        closed = [pairs_of(words[1:]) for words in self.of_kind["closed"]]
        return Status(part_of(ServerStatus, self.one("server")), part_of(ClientStatus, self.one("clients")),
                      {why: whole(count) for pairs in closed for why, count in pairs},
                      part_of(CommitStatus, self.one("commits")),
                      tuple((duration(bound), whole(count)) for bound, count in pairs_of(self.one("commit-times"))),
                      part_of(ProgramStatus, self.one("programs")),
                      tuple(part_of(NetworkStatus, words) for words in self.of_kind["network"]),
                      part_of(FleetStatus, self.one("fleet")) if self.of_kind["fleet"] else None,
                      tuple(part_of(Share, words[1:]) for words in self.of_kind["share"]))

    def one(self, kind: str) -> list[str]:
        """The words behind a kind of which there is one line."""
        found = self.of_kind[kind]
        if len(found) != 1:
            raise StrangeStatus(f"{len(found)} lines `{kind}`, and there is one")
        return found[0][1:]


KINDS = ("server", "clients", "closed", "commits", "commit-times", "programs", "network", "fleet", "share")


def pairs_of(words: Sequence[str]) -> list[tuple[str, str]]:
    """Words two by two."""
    if len(words) % 2 or "" in words:
        raise StrangeStatus(f"no pairs: {' '.join(words)[:MOST_SHOWN]!r}")
    return [*zip(words[::2], words[1::2])]


def part_of(kind: Type[Part], words: Sequence[str]) -> Part:
    """A part of the status, of the pairs that it has."""
    pairs, wanted = pairs_of(words), fields(kind)
    if [name for name, _ in pairs] != [it.name.replace("_", "-") for it in wanted]:
        raise StrangeStatus(f"other names than those of `{kind.__name__.lower()}`: {' '.join(words)[:MOST_SHOWN]!r}")
    return kind(*(READERS[str(it.type)](value) for it, (_, value) in zip(wanted, pairs)))


def whole(word: str) -> int:
    """A whole number."""
    if not re.fullmatch("[0-9]{1,18}", word):
        raise StrangeStatus(f"no number: {word[:MOST_SHOWN]!r}")
    return int(word)


def duration(word: str) -> float:
    """A number of seconds, or `inf`."""
    if not re.fullmatch(r"[0-9]{1,18}(\.[0-9]{1,9})?|inf", word):
        raise StrangeStatus(f"no number of seconds: {word[:MOST_SHOWN]!r}")
    return float(word)


def is_yes(word: str) -> bool:
    """Whether a word is `yes`, and not `no`."""
    if word not in ("yes", "no"):
        raise StrangeStatus(f"neither yes nor no: {word[:MOST_SHOWN]!r}")
    return word == "yes"


READERS: Mapping[str, Callable[[str], object]] = {"str": str, "int": whole, "float": duration, "bool": is_yes}


# How it is asked for


def ask_status(place: Place, seconds: float, token: str | None = None, tls: ssl.SSLContext | None = None) -> Status:
    """The status of the server at the path of a Unix socket, or at a pair of host and port, within some seconds; with
    the token of a desk that may look, and by TLS, where a port wants them."""
    return status_of(asked_text(place, seconds, token, tls))


def asked_text(place: Place, seconds: float, token: str | None = None, tls: ssl.SSLContext | None = None) -> str:
    """What a server answers, as it came."""
    deadline = time.monotonic() + seconds
    try:
        with connected(place, seconds, tls) as connection:
            connection.sendall((b"token %s\n" % token.encode() if token else b"") + ASKED)
            told = answer_of(connection, deadline)
            return (TOLD_TOKEN.sub(b"", told, 1) if token else told).decode("latin-1")
    except (OSError, OverflowError, UnicodeError) as why:
        raise NoStatus(f"no status of {shown(place)}: {getattr(why, 'strerror', None) or why}")


def connected(place: Place, seconds: float, tls: ssl.SSLContext | None) -> socket.socket:
    """A connection to a place."""
    if isinstance(place, tuple):
        plain = socket.create_connection(place, seconds)
        return tls.wrap_socket(plain, server_hostname=place[0]) if tls else plain
    made = socket.socket(socket.AF_UNIX)
    made.settimeout(seconds)
    try:
        made.connect(os.fspath(place))
    except OSError:
        made.close()
        raise
    return made


def answer_of(connection: socket.socket, deadline: float) -> bytes:
    """What comes up to the empty line."""
    told = b""
    while not told.endswith(END):
        left = deadline - time.monotonic()
        if left <= 0:
            raise socket.timeout("timed out")
        connection.settimeout(left)
        piece = connection.recv(PIECE)
        told += piece
        if not piece and (found := re.fullmatch(rb"(?:token [^\n]*\n)?(closed [^\n]*)\n", told)):
            raise NoStatus(f"the server says: {found[1].decode('latin-1')}")
        if not piece or len(told) > MOST_BYTES:
            raise StrangeStatus(f"no status came, but {told[:MOST_SHOWN]!r}")
    return told


def shown(place: Place) -> str:
    """A place as it is written."""
    return f"{place[0]}:{place[1]}" if isinstance(place, tuple) else os.fspath(place)
