"""A desk in Python: asks a controller for seats, gives its answers as values, and leaves none of its lines unknown.

With the package installed, or its folder on Python's path, as by `PYTHONPATH=python/src`:

    from nrm.desk import Desk, Sold
    with Desk("/run/nrm/desks", "COUNTER-7") as desk:
        if desk.available("HJ-Q") >= 2:
            answer = desk.book("HJ-Q", 2)
            if isinstance(answer, Sold): ..

`Desk(path, name)` asks the controllers of `nrm-tools serve` through its Unix socket, or through TCP if it is given a
pair of host and port, in the name of a desk; where the journal has several networks, `network` names one. `token` is
the desk's token, where the server asks for one, and `tls` has a port speak TLS, which checks the server's name:

    Desk(("seats.example", 7443), "COUNTER-7", token=token, tls=ssl.create_default_context())

Where several servers share the networks, any of them will do, and a list has those that are tried one after the other:

    Desk([("10.0.0.1", 7800), ("10.0.0.2", 7800)], "COUNTER-7", network="hub-0612")

Each line has a number of the desk's own, so one that was sent and not answered is sent again by itself on a new
connection, and carried out once. What one is asked for that has no such meaning, as a party of 0, is a ValueError, and
nothing is sent. The answers:

    book          Sold, NoLeg, NoFare, Unknown        cancel      Cancelled, Unknown
    reoptimise    Optimised, Overflow, Unknown        leg         Leg, Unknown
    plan          Plan                                hindsight   Hindsight, Overflow
    ask_for       Available, Unknown                  available   a number

Each can also be Memory, and Denied; then nothing has changed. Money is in whole currency units; values, prices and
bounds are exact fractions, `fractions.Fraction`. If no answer comes in time the call is Late, the line stands in
`desk.pending`, and `desk.again()` gets its reply, whenever that is. Whoever may be killed keeps `desk.sequence`, the
number of the next line, and the line before it asks, and begins with that number again.
"""
from __future__ import annotations

import os
import re
import socket
import ssl
import time
from typing import List, Tuple, Type, Union, cast

from nrm.limits import LAST_BOOKING, LAST_PERIOD, MOST_PARTY
from nrm.network import NAME
from nrm.replies import (Answer, Available, Cancelled, Denied, Hindsight, Leg, Memory, NoAnswer, NoFare, NoLeg,
                         Optimised, Overflow, Plan, Sold, Unknown, answer_of)

__all__ = ["Answer", "Available", "Cancelled", "Denied", "Desk", "DeskError", "Ended", "Hindsight", "Late", "Leg",
           "Memory", "NoFare", "NoLeg", "Optimised", "Overflow", "Plan", "Sold", "Strange", "Unknown"]
SECONDS = 10.0
PIECE = 65_536
PAUSE = 0.05  # the seconds before a desk tries again to connect
MOST_SHOWN = 200  # characters of a strange reply
LAST_SEQUENCE = 999_999_999_999_999
TOKEN = re.compile(r"[!-~]{1,900}")
HAS_MORE = re.compile(rb"value |leg [^ ]+ seats \d+ authorised \d+ sold [1-9]")  # up to an empty line
PASSES = re.compile(r"clients|half|idle|journal|stopping|memory|gone|wait|program \d+")  # so the desk comes again
MOVED = re.compile(r"moved (\S+):(\d{1,5})")  # the server that has its network
Path = Union[str, "os.PathLike[str]"]
Place = Union[Path, Tuple[str, int]]
Places = Union[Place, List[Place]]


# What goes wrong


class DeskError(Exception):
    """Why a desk has no answer."""


class Late(DeskError):
    """The answer didn't come in time, or there was no connection: `again` asks for it."""


class Ended(DeskError):
    """The desk was turned away for a reason that doesn't pass, which is told: `sequence`, since the number was used for
    another line, `elsewhere`, since another connection is this desk now, `token`, since it has none that may come,
    `denied`, since its token is another desk's, `network`, `halted` and so on."""


class Strange(DeskError):
    """What came is no answer to the line: is that another program?"""


class Lost(Exception):
    """The connection is no more, and another may do."""


class Moved(Lost):
    """Another server has the network, and it was told where."""

    def __init__(self, host: str, port: int) -> None:
        super().__init__(f"closed moved {host}:{port}")
        self.place = host.strip("[]"), port


# The desk


class Desk:
    """A desk of a name, which asks one line at a time.

    place      the path of a Unix socket, or a pair of host and port; or a list of such, of which any will do
    name       of the desk: 1 to 12 of `A` to `Z`, `0` to `9` and `-`; it is for one connection at a time
    network    the name of the network, where there are several
    sequence   the number of the first line; else it is the one behind the last that the journal has of this desk
    seconds    how long an answer may take, with all tries, before it is Late
    token      by which the server knows the desk; without `tls` a port has it as anybody on the way can read it
    tls        what a port's certificate is checked by, and its name, as `ssl.create_default_context()` makes it
    """

    def __init__(self, place: Places, name: str, network: str | None = None, sequence: int | None = None,
                 seconds: float = SECONDS, token: str | None = None, tls: ssl.SSLContext | None = None) -> None:
        self.places = [*place] if isinstance(place, list) else [place]
        if not self.places:
            raise ValueError("no place is given")
        self.place, self.name, self.network, self.seconds = self.places[0], a_name(name), network, seconds
        self.tried = 0  # of the places
        if tls and not all(isinstance(it, tuple) for it in self.places):
            raise ValueError("tls is for a pair of host and port")
        if token is not None and not TOKEN.fullmatch(token):
            raise ValueError("the token has a character that no token has, or none")
        self.token, self.tls = token, tls
        self.pending: str | None = None
        self.socket: socket.socket | None = None
        self.left = b""
        self.sequence = 0 if sequence is None else a_number(sequence, 1, LAST_SEQUENCE)
        self._tried(b"", time.monotonic() + seconds)

    def __enter__(self) -> Desk:
        return self

    def __exit__(self, *_: object) -> None:
        self.close()

    def close(self) -> None:
        """Ends the connection. A further line makes another."""
        if self.socket:
            self.socket.close()
            self.socket = None

    # What is asked

    def book(self, product: str, party: int) -> Sold | NoLeg | NoFare | Unknown | Memory | Denied:
        """Asks for seats for a party, 1 to 999, on each leg of a product."""
        line = f"book {a_name(product)} {a_number(party, 1, MOST_PARTY)}"
        answer = self.ask(line, Sold, NoLeg, NoFare, Unknown, Memory, Denied)
        return cast(Union[Sold, NoLeg, NoFare, Unknown, Memory, Denied], answer)

    def cancel(self, number: int) -> Cancelled | Unknown | Memory | Denied:
        """Gives back the seats of a booking."""
        line = f"cancel {a_number(number, 0, LAST_BOOKING)}"
        return cast(Union[Cancelled, Unknown, Memory, Denied], self.ask(line, Cancelled, Unknown, Memory, Denied))

    def reoptimise(self, period: int) -> Optimised | Overflow | Unknown | Memory | Denied:
        """Has a plan made for the seats left and the demand from a period on, 1 to 99."""
        line = f"reoptimise {a_number(period, 1, LAST_PERIOD)}"
        answer = self.ask(line, Optimised, Overflow, Unknown, Memory, Denied)
        return cast(Union[Optimised, Overflow, Unknown, Memory, Denied], answer)

    def leg(self, name: str) -> Leg | Unknown | Denied:
        """The seats of a leg."""
        return cast(Union[Leg, Unknown, Denied], self.ask(f"leg {a_name(name)}", Leg, Unknown, Denied))

    def plan(self) -> Plan | Denied:
        """The plan in force."""
        return cast(Union[Plan, Denied], self.ask("plan", Plan, Denied))

    def hindsight(self) -> Hindsight | Overflow | Memory | Denied:
        """What the requests so far could have earned."""
        return cast(Union[Hindsight, Overflow, Memory, Denied],
                    self.ask("hindsight", Hindsight, Overflow, Memory, Denied))

    def ask_for(self, product: str) -> Available | Unknown | Denied:
        """The largest party of which a `book` would be sold now, and what bounds it. Nothing is booked, and hindsight
        remembers nothing; others who ask meanwhile can change it."""
        return cast(Union[Available, Unknown, Denied], self.ask(f"ask {a_name(product)}", Available, Unknown, Denied))

    def available(self, product: str) -> int:
        """The largest party, at most 999, of which a `book` would be sold now, and 0 if none would be; a KeyError for a
        product that the network hasn't."""
        answer = self.ask_for(product)
        if isinstance(answer, Unknown):
            raise KeyError(product)
        return answer.party if isinstance(answer, Available) else 0

    def ask(self, line: str, *forms: Type[object]) -> Answer:
        """The answer to a line, of one of some forms; with no forms, of any."""
        return answer_to(line, self.reply(line), forms)

    def again(self) -> Answer:
        """The answer to the line that was Late."""
        if self.pending is None:
            raise ValueError("no line is without its answer")
        return answer_to(self.pending, self._reply(self.pending), ())

    def reply(self, line: str) -> bytes:
        """The reply to a line, as the program writes it."""
        if "\n" in line:
            raise ValueError("a line feed in a line")
        if self.pending is not None:
            raise ValueError(f"{self.pending!r} is still without its answer: `again` asks for it")
        self.pending = line
        return self._reply(line)

    # How

    def _reply(self, line: str) -> bytes:
        """The reply to a line, which is sent until it comes."""
        reply = self._tried(line.encode("latin-1") + b"\n", time.monotonic() + self.seconds)
        self.pending = None
        self.sequence += 1
        return reply

    def _tried(self, line: bytes, deadline: float) -> bytes:
        """The reply to a line, or to none, on this connection or a next one. Late tells what went wrong first, since
        what goes wrong last is that time is over."""
        first: Lost | None = None
        while True:
            try:
                if not self.socket:
                    self._connect(deadline)
                return self._asked(line, deadline) if line else b""
            except Lost as why:
                first = first or why
                self.close()
                self._turn(why)
                if time.monotonic() + PAUSE > deadline:
                    raise Late(f"{self.place}: no answer in {self.seconds:g} seconds: {first}") from first
                time.sleep(PAUSE)
            except DeskError:
                self.close()
                raise

    def _turn(self, why: Lost) -> None:
        """Goes to the place that was told, or else to the next of those that were given."""
        if isinstance(why, Moved):
            self.place = why.place
        else:
            self.tried += 1
            self.place = self.places[self.tried % len(self.places)]

    def _connect(self, deadline: float) -> None:
        """Connects, and greets with the number of the next line."""
        self.left = b""
        is_path = not isinstance(self.place, tuple)
        self.socket = socket.socket(socket.AF_UNIX) if is_path else None
        try:
            if self.socket:
                self.socket.settimeout(until(deadline))
                self.socket.connect(os.fspath(cast(Path, self.place)))
            else:
                self.socket = self._port(deadline)
        except ssl.SSLCertVerificationError as why:
            raise Strange(f"the server's certificate: {why.verify_message}")
        except (OSError, OverflowError, UnicodeError) as why:
            raise Lost(getattr(why, "strerror", None) or str(why))
        self._give_token(deadline)
        words = ["desk", *([self.network] if self.network else []), self.name,
                 *([str(self.sequence)] if self.sequence else [])]
        told = self._asked(" ".join(words).encode() + b"\n", deadline)
        if told == b"denied\n":
            raise Ended("denied")
        found = re.fullmatch(rb"at ([1-9][0-9]{0,14})\n", told)
        if not found or self.sequence not in (0, int(found[1])):
            raise Strange(f"{told[:MOST_SHOWN]!r} to a greeting")
        self.sequence = int(found[1])

    def _port(self, deadline: float) -> socket.socket:
        """A connection to a port, by TLS if it is to be."""
        host, port = cast(Tuple[str, int], self.place)
        made = socket.create_connection((host, port), until(deadline))
        try:
            return self.tls.wrap_socket(made, server_hostname=host) if self.tls else made
        except BaseException:
            made.close()
            raise

    def _give_token(self, deadline: float) -> None:
        """Says by the token which desk this is, if there is one."""
        if self.token is None:
            return
        told = self._asked(f"token {self.token}\n".encode(), deadline)
        if not told.startswith(b"token "):
            raise Strange(f"{told[:MOST_SHOWN]!r} to a token")

    def _asked(self, line: bytes, deadline: float) -> bytes:
        """The reply to a line that is sent on this connection."""
        assert self.socket
        try:
            self.socket.settimeout(until(deadline))
            self.socket.sendall(line)
        except OSError:
            pass  # what is still to be heard tells why
        while (reply := self._line(deadline)) == b"\n":
            pass  # what may end the text before
        if HAS_MORE.match(reply):
            while (more := self._line(deadline)) != b"\n":
                reply += more
        return reply

    def _line(self, deadline: float) -> bytes:
        """The next line that comes."""
        assert self.socket
        while b"\n" not in self.left:
            try:
                self.socket.settimeout(until(deadline))
                piece = self.socket.recv(PIECE)
            except OSError as why:
                raise Lost(str(why))
            if not piece:
                raise Lost("the connection has ended")
            self.left += piece
        line, _, self.left = self.left.partition(b"\n")
        if line.startswith(b"closed "):
            reason = line[7:].decode("latin-1")
            if moved := MOVED.fullmatch(reason):
                raise Moved(moved[1], int(moved[2]))
            raise Lost(f"closed {reason}") if PASSES.fullmatch(reason) else Ended(reason)
        return line + b"\n"


def until(deadline: float) -> float:
    """The seconds that are left."""
    return max(0.001, deadline - time.monotonic())


def answer_to(line: str, reply: bytes, forms: Tuple[Type[object], ...]) -> Answer:
    """The answer that a reply to a line means."""
    try:
        answer = answer_of(reply)
    except NoAnswer as fault:
        raise Strange(str(fault))
    if forms and not isinstance(answer, forms):
        raise Strange(f"{answer} to {line!r}")
    return answer


def a_name(text: str) -> str:
    """The text, if it is a name of a product, a leg or a desk."""
    if not NAME.fullmatch(text):
        raise ValueError(f"{text!r} is no name")
    return text


def a_number(number: int, least: int, most: int) -> int:
    """The number, if it is whole and within the range of a line."""
    if not isinstance(number, int) or isinstance(number, bool) or not least <= number <= most:
        raise ValueError(f"{number!r} is no whole number from {least} to {most}")
    return number
