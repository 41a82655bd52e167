"""What goes wrong around the crowd of a fleet: servers are killed and stopped, and the primary of the database is
killed, while its standbys are behind or not."""
from __future__ import annotations

import argparse
import asyncio
import random
import re
import signal
from collections import Counter

from databases import Databases  # of the folder tests at the top
from fleet.standing import LEASE, Fleet
from trials.asking import Around, Streams
from trials.rounds import in_thread

BEHIND = 0.4  # seconds by which the standbys are behind when the primary is lost
# as no desk may be turned away. A greeting that a server got and didn't pass on while it was stopped may come to the
# owner when the desk has long connected anew by another server: then that later connection is closed with `elsewhere`
ENDED_HERE = re.compile("closed (sequence|old|network|long|window)")
AGAIN = 0.5  # seconds before a server that has ended by itself is begun anew


class Troubles(Around):
    """The servers of a fleet and of its database, and what happens to both while desks ask."""
    final = ENDED_HERE

    def __init__(self, fleet: Fleet, databases: Databases, asked: argparse.Namespace, draw: random.Random,
                 events: Counter[str]) -> None:
        super().__init__()
        self.fleet, self.databases, self.asked, self.draw, self.events = fleet, databases, asked, draw, events
        self.pause = asked.pause
        self.may_trouble = asyncio.Event()
        self.may_ask.set()
        self.is_down: set[int] = set()  # the servers that were killed and are to stay so for now

    async def connected(self, place: str) -> Streams:
        """A connection to a server: to the one where a desk was sent, or to any."""
        if place:
            host, _, port = place.rpartition(":")
            return await asyncio.open_connection(host, int(port))
        it = self.draw.choice([*self.fleet.servers.values()])
        return await asyncio.open_connection(it.address, it.port)

    def begin(self) -> None:
        """Begins all servers. The last sends desks on, and the others pass them on."""
        for at in range(self.asked.servers):
            self.start(at, is_awaited=True)

    def start(self, at: int, is_awaited: bool = False) -> None:
        """Begins a server."""
        options = ["--send-on"] if at == self.asked.servers - 1 and at else []
        self.fleet.start(at, *options, is_awaited=is_awaited)

    async def keep_servers(self) -> None:
        """Begins servers anew that have ended by themselves, as what watches over them does."""
        while True:
            for at, it in self.fleet.servers.items():
                if not it.is_there() and at not in self.is_down:
                    self.events[f"ended with {it.process.returncode}"] += 1
                    await asyncio.sleep(AGAIN)
                    self.start(at)
            await asyncio.sleep(0.1)

    async def trouble_servers(self) -> None:
        """Kills and stops servers at random moments."""
        await self.may_trouble.wait()
        wanted = ["kills"] * self.asked.kills + ["stops"] * self.asked.stops
        self.draw.shuffle(wanted)
        for what in wanted:
            await asyncio.sleep(self.draw.expovariate(1 / self.asked.between))
            at = self.draw.randrange(self.asked.servers)
            await (self.kill(at) if what == "kills" else self.stop(at))
            self.events[what] += 1
            if self.events[what] % 20 == 0:
                print(f"{dict(self.events)}, {sum(len(it.heard.replies) for it in self.askers)} replies", flush=True)

    async def kill(self, at: int) -> None:
        """Kills a server, and begins it anew at once or after a while."""
        self.is_down.add(at)
        self.fleet.servers[at].process.kill()
        await in_thread(self.fleet.servers[at].process.wait)
        await asyncio.sleep(self.draw.choice([0, 0.3, 1.5 * LEASE]))
        self.start(at)
        self.is_down.discard(at)

    async def stop(self, at: int) -> None:
        """Stops a server, for less than its lease or for more, and lets it go on."""
        process = self.fleet.servers[at].process
        process.send_signal(signal.SIGSTOP)
        await asyncio.sleep(LEASE * self.draw.choice([0.5, 2, 3]))
        process.send_signal(signal.SIGCONT)

    async def trouble_databases(self) -> None:
        """Kills the primary, promotes the standby that has more, and makes a standby of what was killed."""
        await self.may_trouble.wait()
        for number in range(self.asked.failovers):
            await asyncio.sleep(self.draw.uniform(3, 8))
            await in_thread(self.databases.wait_until_whole)
            primary = await in_thread(self.databases.primary)
            if number % 2 == 0:
                self.databases.hold(primary)
                await asyncio.sleep(BEHIND)
                self.events["standbys behind"] += 1
            self.databases.kill(primary)
            await asyncio.sleep(self.draw.choice([0, 0.5, 3]))
            await in_thread(self.databases.promote)
            await asyncio.sleep(self.draw.choice([0.2, 2]))
            await in_thread(self.databases.rejoin)
            self.events["failovers"] += 1
