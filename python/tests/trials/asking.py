"""A desk of the crowd: it books, cancels and looks, sends again what has no reply, and writes down what it was told.
And what is around desks, as far as each trial has it."""
from __future__ import annotations

import asyncio
import random
import re
import time
from typing import Sequence, Tuple

from nrm.network import Network
from trials.judging import LOOKS, Case, Heard, Told

MOVED = "closed moved "
TOO_LONG = 300.0  # for a desk to have its replies, while servers are killed sooner than they have begun all programs
PATIENCE = 5.0  # of a desk, before it connects anew; each time it waits for twice as long
Streams = Tuple[asyncio.StreamReader, asyncio.StreamWriter]
ENDED = re.compile("closed (sequence|old|network|elsewhere|long|window)")  # as no desk of a crowd may be turned away


class Around:
    """What is around the desks of a crowd: the servers, and what happens to them."""
    final = ENDED
    seed: int
    pause: float
    leaves = 0.0  # how often a desk leaves when it has its replies, and comes again

    def __init__(self) -> None:
        self.askers: list[Asker] = []
        self.told: list[str] = []
        self.may_ask = asyncio.Event()
        self.changed: str | None = None  # the network that is to be halted
        self.is_over = False

    def now(self) -> float:
        """The time by which is judged what came first."""
        return time.monotonic()

    async def connected(self, place: str) -> Streams:
        """A connection to a server: to the one at a place, if one is named."""
        raise NotImplementedError

    def begun(self, cases: Sequence[Case], count: int) -> list[asyncio.Future[None]]:
        """So many desks that have begun to ask, at networks in turn, each until it is over."""
        self.askers = [Asker(self, cases[at % len(cases)], at) for at in range(count)]
        return [asyncio.ensure_future(desk.run()) for desk in self.askers]


class Lost(Exception):
    """A connection that is no more."""


class Asker:
    """A desk that asks some lines ahead, and sends again what has no reply."""

    def __init__(self, crowd: Around, case: Case, number: int) -> None:
        self.crowd, self.case, self.draw = crowd, case, random.Random(crowd.seed * 1000 + number)
        self.network = Network.read(str(case.path))
        self.heard = Heard(case.name, f"D{number}")
        self.sequence, self.retries, self.longest = 1, 0, 0.0
        self.is_asking = False
        self.mine: list[int] = []
        self.streams: Streams | None = None
        self.place = ""  # where this desk was sent

    async def run(self) -> None:
        while not self.crowd.is_over:
            await self.crowd.may_ask.wait()
            self.is_asking = True
            await self.ask([self.line() for _ in range(self.draw.choices([1, 2, 5, 60], [60, 20, 20, 1])[0])])
            self.is_asking = False
            if self.crowd.leaves and self.draw.random() < self.crowd.leaves:
                self.leave()
            await asyncio.sleep(self.draw.expovariate(1 / self.crowd.pause) if self.crowd.pause else 0)
        self.close()

    async def ask(self, lines: Sequence[str]) -> None:
        """Asks some lines, and writes down the replies."""
        self.heard.sent.update(enumerate(lines, self.sequence))
        asked = self.crowd.now()
        replies = await self.replies_to(lines)
        told = self.crowd.now()
        self.longest = max(self.longest, told - asked)
        for at, (line, reply) in enumerate(zip(lines, replies)):
            it = Told(asked, told, self.sequence + at, line, reply)
            (self.heard.looks if line.startswith(LOOKS) else self.heard.replies).append(it)
            self.mine += [int(reply[3:])] if reply.startswith("ok ") else []
        self.sequence += len(lines)

    def line(self) -> str:
        kind = self.draw.random()
        if kind < 0.55 or not self.mine:
            return f"book {self.draw.choice(list(self.network.products))} {self.draw.randint(1, 4)}"
        if kind < 0.87:
            return f"cancel {self.mine.pop(self.draw.randrange(len(self.mine)))}"
        if kind < 0.88:
            return f"reoptimise {self.draw.randint(1, 2)}"
        if kind < 0.89:
            return "hindsight"
        if kind < 0.95:
            return f"leg {self.draw.choice(list(self.network.legs))}"
        return f"ask {self.draw.choice(list(self.network.products))}"

    async def replies_to(self, lines: Sequence[str]) -> list[str]:
        """The replies to some lines, which are sent until all have one."""
        began, patience = time.monotonic(), PATIENCE
        while True:
            try:
                return await asyncio.wait_for(self.tried(lines), patience)
            except (OSError, Lost, asyncio.TimeoutError, asyncio.IncompleteReadError) as why:
                patience *= 2 if isinstance(why, asyncio.TimeoutError) else 1
                self.retries += 1
                self.close()
            if time.monotonic() - began > TOO_LONG:
                raise AssertionError(f"{self.heard.desk} of {self.case.name} has no replies in {TOO_LONG} seconds")
            await asyncio.sleep(self.draw.uniform(0.02, 0.2))

    async def tried(self, lines: Sequence[str]) -> list[str]:
        if not self.streams:
            place, self.place = self.place, ""
            self.streams = await self.crowd.connected(place)
            greeting = f"desk {self.case.name} {self.heard.desk} {self.sequence}\n"
            self.streams[1].write(greeting.encode())
            told = await self.next()
            if told != f"at {self.sequence}":
                raise AssertionError(f"{told!r} to {greeting!r}")
        self.streams[1].write("".join(f"{it}\n" for it in lines).encode())
        return [await self.next() for _ in lines]

    async def next(self) -> str:
        """The next reply."""
        assert self.streams
        told = await reply_from(self.streams[0])
        if self.crowd.final.fullmatch(told) or told == "closed halted" and self.crowd.changed != self.case.name:
            raise AssertionError(f"{self.heard.desk} of {self.case.name} at {self.sequence}: {told}")
        if told.startswith("closed "):
            self.place = told[len(MOVED):] if told.startswith(MOVED) else ""
            raise Lost(told)
        return told

    def drop(self) -> None:
        """Loses the connection, whatever is asked."""
        if self.streams:
            self.streams[1].transport.abort()

    def leave(self) -> None:
        """Leaves, and half of the time in the middle of a line."""
        if self.streams and self.draw.random() < 0.5:
            self.streams[1].write(self.line().encode()[:-1])
        self.close()

    def close(self) -> None:
        if self.streams:
            self.streams[1].close()
        self.streams = None


async def reply_from(reader: asyncio.StreamReader) -> str:
    """The next reply, of a text the first line."""
    told = ""
    while not told:
        told = (await reader.readuntil(b"\n")).decode()[:-1]
    if re.match(r"leg .* sold [1-9]", told):
        await reader.readuntil(b"\n\n")
    return told
