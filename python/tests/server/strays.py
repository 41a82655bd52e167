"""Those who come and go all the time beside the desks of a crowd, so that places are used again and again: each is
closed in some way, or leaves, and sends more meanwhile, which is never to be carried out.

    long      its line is too long                      elsewhere  it comes again while it is there
    sequence  another line has its number               half       it leaves in the middle of a line
    looks     it leaves without hearing its replies     denied     it sends lines that would change something

All but `sequence` come by a token that may look alone. What one is told that it must not be told is noted.
"""
from __future__ import annotations

import asyncio
import contextlib
import random
from typing import Sequence

from nrm.network import Network
from trials.asking import Around, Streams
from trials.judging import Case, Heard

KINDS = ("long", "elsewhere", "sequence", "half", "looks", "denied")
TOO_LONG = b"x" * 1001
MEANWHILE = 6  # lines that are sent behind what closes it
BETWEEN = 0.0007  # seconds between them, in which those before are held by the server
PATIENCE = 5.0
AT_ONCE = 0.05  # seconds at the most between two connections


class Stray:
    """One that comes and goes, at networks in turn."""

    def __init__(self, crowd: Around, cases: Sequence[Case], number: int, token: str) -> None:
        self.crowd, self.cases, self.draw = crowd, cases, random.Random(crowd.seed * 100_000 + number)
        self.networks = {it.name: Network.read(str(it.path)) for it in cases}
        self.name, self.token, self.came = f"S{number}", token, 0
        self.heard = {it.name: Heard(it.name, self.name) for it in cases}
        self.has_row: set[str] = set()  # networks in which its first line is carried out

    async def run(self) -> None:
        """Comes again and again, until it is over."""
        while not self.crowd.is_over:
            await self.crowd.may_ask.wait()
            case = self.draw.choice(self.cases)
            with contextlib.suppress(OSError, asyncio.TimeoutError, asyncio.IncompleteReadError):
                await asyncio.wait_for(self.come(self.draw.choice(KINDS), case), PATIENCE)
                self.came += 1
            await asyncio.sleep(self.draw.uniform(0, AT_ONCE))

    async def come(self, kind: str, case: Case) -> None:
        """Comes to a network, and is closed in some way."""
        async with contextlib.AsyncExitStack() as opened:
            streams = await self.connected(opened, case, "" if kind == "sequence" else self.token)
            await getattr(self, kind)(opened, case, streams)

    async def connected(self, opened: contextlib.AsyncExitStack, case: Case, token: str) -> Streams:
        """A connection on which it is greeted."""
        reader, writer = await self.crowd.connected("")
        opened.callback(writer.transport.abort if self.draw.random() < 0.5 else writer.close)
        front, answers = (f"token {token}\n", [f"token {self.name}"]) if token else ("", [])
        writer.write(f"{front}desk {case.name} {self.name} 1\n".encode())
        for wanted in [*answers, "at 1"]:
            self.see(case, "its greeting", (await reader.readuntil(b"\n")).decode()[:-1], wanted)
        return reader, writer

    def see(self, case: Case, line: str, told: str, *wanted: str) -> None:
        """Notes what it must not be told. It may be closed at any time, as all are."""
        if told.startswith("closed "):
            raise ConnectionError(told)
        if told not in wanted:
            self.crowd.told.append(f"{self.name} of {case.name} was told {told!r} to {line}")
            raise ConnectionError(told)

    def change(self, case: Case) -> str:
        """A line that would change something."""
        if self.draw.random() < 0.5:
            return f"cancel {self.draw.randint(1, 200)}"
        return f"book {self.draw.choice(list(self.networks[case.name].products))} 1"

    async def send_meanwhile(self, case: Case, streams: Streams) -> None:
        """Sends lines behind what closes it."""
        for _ in range(MEANWHILE):
            await asyncio.sleep(BETWEEN)
            if streams[1].transport.is_closing():
                return
            streams[1].write(f"{self.change(case)}\n".encode())

    async def long(self, _: contextlib.AsyncExitStack, case: Case, streams: Streams) -> None:
        streams[1].write(TOO_LONG + b"\n")
        await self.send_meanwhile(case, streams)

    async def elsewhere(self, opened: contextlib.AsyncExitStack, case: Case, streams: Streams) -> None:
        await self.connected(opened, case, self.token)
        await self.send_meanwhile(case, streams)

    async def sequence(self, _: contextlib.AsyncExitStack, case: Case, streams: Streams) -> None:
        """Its first line has a row from the first time on, and is another then."""
        line = f"book {next(iter(self.networks[case.name].products))}"
        if case.name not in self.has_row:
            self.heard[case.name].sent[1] = f"{line} 1"
            streams[1].write(f"{line} 1\n".encode())
            if not (await streams[0].readuntil(b"\n")).startswith(b"closed "):
                self.has_row.add(case.name)
            return
        streams[1].write(f"{line} 2\n".encode())
        await self.send_meanwhile(case, streams)

    async def half(self, _: contextlib.AsyncExitStack, case: Case, streams: Streams) -> None:
        streams[1].write(self.change(case).encode()[:self.draw.randint(1, 10)])

    async def looks(self, _: contextlib.AsyncExitStack, case: Case, streams: Streams) -> None:
        legs = list(self.networks[case.name].legs)
        streams[1].write("".join(f"leg {it}\n" for it in legs).encode())
        await asyncio.sleep(self.draw.uniform(0, BETWEEN))

    async def denied(self, _: contextlib.AsyncExitStack, case: Case, streams: Streams) -> None:
        for _ in range(self.draw.randint(1, 3)):
            line = self.change(case)
            streams[1].write(f"{line}\n".encode())
            self.see(case, line, (await streams[0].readuntil(b"\n")).decode()[:-1], "denied")
