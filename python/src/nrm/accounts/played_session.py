"""A session up to a line, played again: what stands before that line, the line, its reply, and the plans in force.

Seats are added up here from the lines and the replies, and not taken from an account; lines and replies pass one by
one, and what stands is all that is held.
"""
from __future__ import annotations

import itertools
import os
from dataclasses import dataclass
from typing import Iterator, Mapping

from nrm import Stop
from nrm.network import Network
from nrm.program import Program, Stream, unanswered
from nrm.replies import Cancelled, NoAnswer, Optimised, Plan, Sold, answer_of, replies_of

PUT_IN = 6  # replies at the end: to an empty line and `plan`, to an empty line and the line itself, and as at first


@dataclass(frozen=True)
class SoldBooking:
    """A booking: the line that made it, what that asked for, its product and its party."""
    line: int
    asked: str
    product: str
    party: int


@dataclass(frozen=True)
class Planned:
    """What made the plan in force: a line, 0 for the opening; its period; and the seats that each leg had left then."""
    line: int
    period: int
    left: Mapping[str, int]


@dataclass(frozen=True)
class Differing:
    """A line whose reply was kept otherwise than it comes now."""
    line: int
    kept: str
    reply: str


class SessionState:
    """What stands behind the lines so far."""

    def __init__(self, network: Network) -> None:
        self.network, self.last_booking = network, 0
        self.sales: dict[int, SoldBooking] = {}
        self.sold = {leg: 0 for leg in network.legs}
        self.planned = Planned(0, 1, self.left())
        self.differing: Differing | None = None

    def left(self) -> dict[str, int]:
        """The seats of each leg that are left."""
        return {name: leg.authorised - self.sold[name] for name, leg in self.network.legs.items()}

    def take(self, number: int, asked: str, reply: bytes) -> None:
        """Goes on behind a line and its reply."""
        if not reply.startswith((b"ok ", b"cancelled ", b"optimised ")):
            return
        answer = answer_of(reply)
        if isinstance(answer, Sold):
            _, product, party = asked.split(" ")
            self.sales[answer.number] = SoldBooking(number, asked, product, int(party))
            self.move(product, int(party))
            self.last_booking = answer.number
        elif isinstance(answer, Cancelled):
            sale = self.sales.pop(answer.number)
            self.move(sale.product, -sale.party)
        else:
            self.planned = Planned(number, int(asked.split(" ")[1]), self.left())

    def move(self, product: str, party: int) -> None:
        """Counts seats as sold, or as left again."""
        for leg in self.network.products[product].legs:
            self.sold[leg] += party

    def compare(self, number: int, reply: bytes, kept: bytes | None) -> None:
        """Notes the first line whose reply was kept otherwise."""
        if kept is not None and kept != reply and self.differing is None:
            self.differing = Differing(number, text_of_kept(kept), text_of_line(reply))


@dataclass(frozen=True)
class PlayedLine:
    """A line and its reply, the reply that was kept of it if replies were kept, what stands before it, the first line
    before it whose kept reply is another, and the plans in force before it and behind it."""
    network: Network
    mode: str
    number: int
    line: str
    reply: str
    kept: str | None
    sales: Mapping[int, SoldBooking]
    sold: Mapping[str, int]
    last_booking: int
    planned: Planned
    differing: Differing | None
    plan: str
    plan_behind: str

    @classmethod
    def played(cls, path: str, mode: str, stream: str, number: int, program: Program,
               replies: str | None = None) -> PlayedLine:
        """The course of a session up to a line of the file of a stream, by a run with a line `plan` before it and
        after. A file of replies has the one that was kept of each line."""
        standing = SessionState(Network.read(path))
        run = Stream(program, mode, path, with_plans(stream, number))
        try:
            told = replies_of(run.output)
            line, kept = gone_through(standing, stream, replies, number, told)
            plan, reply, plan_behind = with_reply(run, told)
        finally:
            run.kill()
            run.output.close()
        return cls(standing.network, mode, number, line, reply, kept, standing.sales, standing.sold,
                   standing.last_booking, standing.planned, standing.differing, plan, plan_behind)

    @property
    def asked(self) -> str:
        """What the line asks for."""
        return self.line.rstrip("\r")

    def left(self) -> dict[str, int]:
        """The seats of each leg that are left before the line."""
        return {name: leg.authorised - self.sold[name] for name, leg in self.network.legs.items()}

    def plan_in_force(self) -> Plan:
        """The plan in force before the line."""
        plan = answer_of(self.plan.encode("latin-1"))
        if not isinstance(plan, Plan):
            raise Stop("the reply to the line `plan` isn't a plan: is it another program?")
        return plan

    def plan_made(self) -> Planned:
        """The plan that the line made, which asks for one."""
        return Planned(self.number, int(self.asked.split(" ")[1]), self.left())

    def optimised(self) -> bool:
        """Whether the line made a plan of a linear program."""
        answer = answer_of(self.reply.encode("latin-1")) if self.reply.startswith("optimised ") else None
        return isinstance(answer, Optimised) and answer.value is not None


def text_of_line(line: bytes) -> str:
    """A line, or the lines of a reply, as text without the last line feed."""
    return (line[:-1] if line.endswith(b"\n") else line).decode("latin-1")


def text_of_kept(reply: bytes) -> str:
    """A reply that was kept: somebody may have changed it, so what no terminal should be sent is written out."""
    return text_of_line(reply).encode("unicode_escape").decode("ascii")


def gone_through(standing: SessionState, stream: str, replies: str | None, number: int,
                 told: Iterator[bytes]) -> tuple[str, str | None]:
    """Goes through the lines before one, with what each is told. Gives that line, and the reply that was kept of it."""
    with open(stream, "rb") as lines, open(replies or os.devnull, "rb") as file:
        kept: Iterator[bytes | None] = iter(file) if replies else itertools.repeat(None)
        for at, (line, reply, before) in enumerate(zip(itertools.islice(lines, number - 1), told, kept), 1):
            standing.take(at, text_of_line(line).rstrip("\r"), reply)
            standing.compare(at, reply, before)
        last = next(kept, None)
        return text_of_line(next(lines, b"")), None if last is None else text_of_kept(last)


def with_reply(run: Stream, told: Iterator[bytes]) -> list[str]:
    """The plan before a line, its reply, and the plan behind it."""
    put_in = list(itertools.islice(told, PUT_IN + 1))
    if len(put_in) < PUT_IN and (status := run.wait()):
        raise unanswered(run.mode, run.network, status, b"".join(put_in[-1:]))
    if len(put_in) != PUT_IN or {*put_in[::2]} != {b"bad\n"}:
        raise NoAnswer(f"{len(put_in)} replies instead of {PUT_IN}")
    return [text_of_line(it) for it in put_in[1::2]]


def with_plans(stream: str, number: int) -> Iterator[bytes]:
    """The lines of a file up to one, with a line `plan` before that and after; an empty line is told by its reply."""
    with open(stream, "rb") as lines:
        yield from itertools.islice(lines, number - 1)
        yield b"\nplan\n\n" + next(lines, b"").rstrip(b"\n") + b"\n\nplan\n"
