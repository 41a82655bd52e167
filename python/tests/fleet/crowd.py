"""A fleet in trouble: desks book, cancel and look at many networks, while servers are killed and stopped and the
database's primary is killed with all its processes; then all is judged.

    python3 -m fleet.crowd FOLDER [--networks N] [--desks N] [--servers N] [--kills N] [--stops N]
        [--failovers N] [--rounds N] [--pause SECONDS] [--between SECONDS] [--seed N]

FOLDER is made anew, with three database servers, a journal and its networks. What a desk is told it writes down. At
random moments, as many times as --kills says, a server is killed and begun anew, as many as --stops one is stopped for
up to three leases and goes on, and as many as --failovers the primary is killed, every other time while its standbys
are behind, the standby that has more is promoted, and the old primary comes back. After the last trouble each desk must
have its replies; then the journal is judged:

    no network is halted, and the files are those that were opened;
    the lines of each network are numbered without a gap;
    no line of a desk is there twice, and those of each stand in the order in which it sent them;
    each reply that a desk got is in the journal, under its number, with its line;
    `nrm run` over the lines of a network gives exactly the replies;
    no leg has more seats sold than are authorised, counted anew;
    each look is true of a moment between its question and its answer;
    each desk has its replies.

--rounds has that done several times, each with a next seed. What doesn't hold is told, and the last line counts it.
"""
from __future__ import annotations

import argparse
import asyncio
import sys
import time
from typing import Any, Sequence

import databases  # of the folder tests at the top
from fleet.standing import Fleet, free_ports
from fleet.troubles import Troubles
from harness import program, wait_for
from trials import rounds
from trials.asking import TOO_LONG
from trials.judging import faults_of
from trials.rounds import Trial, in_thread, made_cases, see_that_none_failed, told_of, watched

USUAL = {"networks": 20, "desks": 200, "servers": 3, "kills": 100, "stops": 20, "failovers": 10, "rounds": 1,
         "pause": 0.2, "between": 2.0, "seed": 1}
ASKED = """SELECT pid FROM pg_stat_activity WHERE datname = current_database() AND backend_type = 'client backend'
           AND pid <> pg_backend_pid()"""
CALM = 2.0  # seconds in which nothing goes wrong yet


class Crowd(rounds.Crowd):
    """The databases, the servers, the desks, and what happens to them."""

    def __init__(self, asked: argparse.Namespace, seed: int) -> None:
        super().__init__(asked, seed)
        self.folder.chmod(0o755)
        self.databases = databases.Databases(self.folder / "databases")
        self.cases = made_cases(self.draw, self.folder, asked.networks)

    async def run(self) -> list[str]:
        """All from the making of the databases to their end; gives what doesn't hold."""
        try:
            await in_thread(lambda: self.databases.make(free_ports(3)))
            fleet = await in_thread(self.fleet)
            return await self.tried(fleet)
        finally:
            self.databases.end()

    def fleet(self) -> Fleet:
        """A journal with its networks."""
        made = Fleet(self.folder, self.databases.uri(), self.asked.servers)
        for it in self.cases:
            made.open(*it)
        return made

    async def tried(self, fleet: Fleet) -> list[str]:
        """All from the first line to the last trouble; gives what doesn't hold."""
        it, began = Troubles(fleet, self.databases, self.asked, self.draw, self.events), time.monotonic()
        it.seed = self.seed
        try:
            await in_thread(it.begin)
            running = it.begun(self.cases, self.asked.desks)
            tasks = [asyncio.ensure_future(some) for some in (it.trouble_servers(), it.trouble_databases(),
                                                              it.keep_servers())]
            await self.until_over(it, running, tasks)
            await in_thread(lambda: self.end(fleet))
            faults = [*it.told]
            faults += await in_thread(lambda: faults_of(fleet.rows, self.cases, [desk.heard for desk in it.askers],
                                                        program()))
            await in_thread(lambda: self.report(fleet, it, time.monotonic() - began))
            return faults
        finally:
            fleet.end()

    def end(self, fleet: Fleet) -> None:
        """Ends the servers, and waits until the database has done what they asked for last."""
        fleet.end()
        wait_for(lambda: not fleet.rows(ASKED), "the end of what the servers asked for")

    async def until_over(self, it: Troubles, running: Sequence[asyncio.Future[None]],
                         tasks: Sequence[asyncio.Future[None]]) -> None:
        """Waits for the last trouble, and then for the replies of all desks."""
        async with watched(it, [*running, *tasks], databases.Fault):
            await asyncio.sleep(CALM)
            it.may_trouble.set()
            while not all(some.done() for some in tasks[:2]):
                see_that_none_failed([*running, *tasks])
                await asyncio.sleep(0.2)
            see_that_none_failed(tasks)
            it.is_over = True
            await asyncio.wait_for(asyncio.gather(*running), TOO_LONG)

    def report(self, fleet: Fleet, it: Troubles, seconds: float) -> None:
        lines, takings, starts = (fleet.value(f"SELECT count(*) FROM {it}") for it in ("line", "tenure", "server"))
        events: dict[str, Any] = dict(sorted(self.events.items()))
        print(f"seed {self.seed}: {seconds:.0f} s, {lines} lines in {len(self.cases)} networks, {told_of(it.askers)}, "
              f"{takings} takings by {starts} starts of servers, troubles {events}", flush=True)


TRIAL = Trial(__doc__, USUAL, Crowd)

if __name__ == "__main__":
    sys.exit(TRIAL.main(sys.argv[1:]))
