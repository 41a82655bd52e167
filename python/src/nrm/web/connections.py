"""Connections to the server, one a desk, kept and used again, one line at a time each.

A desk that nobody asked in the name of for a minute goes; there are at most some hundreds, of which the one that was
left alone for longest makes room for one that the server has taken. Nothing is kept of one that it refused. Nothing is
tried twice under two numbers: the number of a line is said by who sends it.
"""
from __future__ import annotations

import contextlib
import secrets
import socket
import threading
import time
from dataclasses import dataclass, field
from typing import Iterator, NamedTuple

from nrm.desk import Desk, DeskError, Ended, Strange
from nrm.web.messages import PASSES, HttpRefusal

MOST, IDLE = 500, 60.0
LETTERS = "0123456789ABCDEFGHIJKLMNOPQRSTUVWXYZ"
MOST_ANSWER = 200
FOR_GOOD = {  # by the word with which the server turns a desk away: the status, and why
    "network": (404, "the journal has no network of this name"),
    "denied": (403, "the token is for a desk of another name"),
    "token": (401, "the server doesn't know the token, or requires one"),
    "sequence": (409, "the number was used for another line of this desk"),
    "old": (409, "the number is older than what the server holds of this desk"),
    "elsewhere": (409, "another connection is this desk now"),
    "halted": (503, "the network is halted, and nobody answers for it"),
    "version": (503, "the network began with another version of the program, and isn't answered by this one"),
}


class Who(NamedTuple):
    """In whose name something is asked."""
    network: str
    desk: str
    token: str | None = None


def own_desk() -> str:
    """A name for the desk of this process, such that no other process has it."""
    return "WEB-" + "".join(secrets.choice(LETTERS) for _ in range(8))


def desk_of_token(place: str, token: str, seconds: float) -> str:
    """The name of the desk that a token is for, as the server says it."""
    try:
        with socket.socket(socket.AF_UNIX) as connection:
            connection.settimeout(seconds)
            connection.connect(place)
            connection.sendall(b"token %s\n" % token.encode("ascii"))
            told = b""
            while not told.endswith(b"\n") and len(told) < MOST_ANSWER:
                piece = connection.recv(MOST_ANSWER)
                if not piece:
                    break
                told += piece
    except OSError as fault:
        raise HttpRefusal(503, "connection", f"the server can't be asked: {fault.strerror or fault}", PASSES)
    kind, _, name = told.decode("latin-1").strip().partition(" ")
    if kind != "token":
        raise HttpRefusal(401, "token", "the server doesn't know the token of this process")
    return name


@dataclass
class DeskConnection:
    """A desk with its connection, when it was used, and by how many just now."""
    lock: threading.Lock = field(default_factory=threading.Lock)
    desk: Desk | None = None
    used: float = 0.0
    users: int = 0


class Connections:
    """The desks in whose names somebody asks."""

    def __init__(self, place: str, seconds: float) -> None:
        self.place, self.seconds, self.most, self.idle = place, seconds, MOST, IDLE
        self.lock = threading.Lock()
        self.entries: dict[Who, DeskConnection] = {}

    def reply(self, who: Who, line: str, sequence: int | None = None) -> bytes:
        """The reply to a line of a desk; an HttpRefusal where there is none."""
        with self.entry(who) as entry:
            if not entry.lock.acquire(timeout=self.seconds):
                raise late("other lines of this desk are waiting before it")
            try:
                return self.asked(entry, who, line, sequence)
            except DeskError as fault:
                if entry.desk:
                    entry.desk.close()
                    entry.desk = None
                raise refusal_of(fault) from fault
            finally:
                entry.lock.release()

    def asked(self, entry: DeskConnection, who: Who, line: str, sequence: int | None) -> bytes:
        """The reply to a line, on the connection that is there if the line is the next one of it."""
        if entry.desk is None:
            desk = Desk(self.place, who.desk, who.network, sequence, self.seconds, who.token)
            with self.lock:
                is_room = self.has_room()
                entry.desk = desk if is_room else None
            if not is_room:
                desk.close()
                raise HttpRefusal(503, "desks", f"{self.most} desks are asked for already", PASSES)
            return desk.reply(line)
        if sequence is not None and entry.desk.sequence != sequence:
            entry.desk.close()
            entry.desk.sequence = sequence
        return entry.desk.reply(line)

    @contextlib.contextmanager
    def entry(self, who: Who) -> Iterator[DeskConnection]:
        """The place of a desk, which stays as long as it is used, and behind that as long as it has a connection."""
        with self.lock:
            entry = self.entries.pop(who, None) or DeskConnection()
            self.entries[who] = entry  # the last one now
            entry.users += 1
        try:
            yield entry
        finally:
            with self.lock:
                entry.users -= 1
                entry.used = time.monotonic()
                if not entry.users and entry.desk is None:
                    del self.entries[who]

    def has_room(self) -> bool:
        """Whether a further desk may have a connection, for which the one that was left alone for longest may go."""
        connected = [who for who, it in self.entries.items() if it.desk]
        if len(connected) < self.most:
            return True
        for who in connected:
            if not self.entries[who].users:
                self.leave(who)
                return True
        return False

    def leave(self, who: Who) -> None:
        """Ends the connection of a desk that nobody uses."""
        entry = self.entries.pop(who)
        if entry.desk:
            entry.desk.close()

    def sweep(self) -> None:
        """Leaves those that nobody used for a while."""
        before = time.monotonic() - self.idle
        with self.lock:
            for who in [who for who, it in self.entries.items() if not it.users and it.used < before]:
                self.leave(who)

    def end(self) -> None:
        """Ends all that nobody uses."""
        self.idle = 0
        self.sweep()


def refusal_of(fault: DeskError) -> HttpRefusal:
    """What a desk's error is in HTTP."""
    if isinstance(fault, Ended):
        word = str(fault)
        status, why = FOR_GOOD.get(word, (503, "the server has closed the desk's connection with this word"))
        return HttpRefusal(status, word, why, (("WWW-Authenticate", "Bearer"),) if status == 401 else ())
    if isinstance(fault, Strange):
        return HttpRefusal(502, "strange", "what listens on the socket doesn't answer as `nrm-tools serve` does")
    why = str(fault.__cause__ or fault)
    if why == "timed out":
        return late("no answer came in time")
    word = why[len("closed "):].partition(" ")[0] if why.startswith("closed ") else "connection"
    return HttpRefusal(503, word, f"the server can't answer now: {why}; the same request may be sent again", PASSES)


def late(why: str) -> HttpRefusal:
    """An HttpRefusal for what took too long."""
    return HttpRefusal(504, "late", f"{why}; the same request may be sent again", PASSES)
