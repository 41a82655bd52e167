"""A crowd in trouble: desks book, cancel and look at many networks, while servers and programs are killed and worse.

    python3 -m server.crowd FOLDER [--networks N] [--desks N] [--kills N] [--troubles N] [--copies N]
        [--rounds N] [--pause SECONDS] [--between SECONDS] [--seed N] [--places N] [--strays N] [--only KIND,KIND..]

FOLDER is made anew, with a journal and its networks. What a desk is told it writes down. At random moments, as many
times as --kills says, the server is killed, or a program, or both, and the troubles of the head of `troubles.py` come,
of each kind as many. Meanwhile the journal is copied. After the last trouble each desk must have its replies; then the
journal and the copies are judged. --rounds has that done several times, each with a next seed and a journal of its own.
--places has a program hold so few clients, so that desks leave after nearly each reply and others have their places,
and --strays so many more come who are closed in all ways, as the head of `strays.py` says. --only names the kinds, by
which mistakes are tried. What doesn't hold is told, and the last line counts it.
"""
from __future__ import annotations

import argparse
import asyncio
import sys
import time
from typing import Sequence

import preload  # of the folder tests at the top
from harness import program
from server.serves import PATIENT, rows_in
from server.strays import Stray
from server.troubles import KILLS, OTHERS, PERIODS, WITH_LIBRARY, Troubles
from trials import rounds
from trials.asking import TOO_LONG
from trials.judging import CLOCK, faults_of, faults_of_copies
from trials.rounds import Trial, made_cases, see_that_none_failed, told_of, watched

USUAL = {"networks": 20, "desks": 200, "kills": 6, "troubles": 11, "copies": 5, "rounds": 1, "pause": 0.5,
         "between": 1.0, "seed": 1, "places": 0, "strays": 0, "only": ""}


class Crowd(rounds.Crowd):
    """The desks, and what happens to them."""

    def __init__(self, asked: argparse.Namespace, seed: int) -> None:
        super().__init__(asked, seed)
        cases = made_cases(self.draw, self.folder, asked.networks, PERIODS)
        self.troubles = Troubles(self.folder, cases, self.draw, asked.places, asked.strays)
        self.troubles.seed, self.troubles.pause = seed, asked.pause
        self.strays = [Stray(self.troubles, cases, at, token) for at, token in enumerate(self.troubles.tokens)]
        self.troubles.heard += [heard for it in self.strays for heard in it.heard.values()]

    async def run(self) -> list[str]:
        """All from the first line to the last trouble; gives what doesn't hold."""
        it, began = self.troubles, time.monotonic()
        it.may_ask.set()
        running = it.running = it.begun(it.cases, self.asked.desks)
        copying = asyncio.ensure_future(self.copy_now_and_then())
        straying = [asyncio.ensure_future(stray.run()) for stray in self.strays]
        try:
            async with watched(it, [*running, copying, *straying]):
                await self.until_each_has_lines(running)
                for kind in self.kinds():
                    await asyncio.sleep(self.draw.expovariate(1 / self.asked.between))
                    await it.trouble(kind)
                    self.events[kind] += 1
                    see_that_none_failed([*running, *straying])
                    if it.told:
                        break
                await self.until_copied(copying, running)
                it.is_over = True
                await asyncio.wait_for(asyncio.gather(*running, *straying), TOO_LONG)
                it.server.end()
        finally:
            it.server.__exit__()
        self.report(time.monotonic() - began)
        heard = [*[desk.heard for desk in it.askers], *it.heard]
        return [*it.told, *faults_of(it.rows, it.cases, heard, program()),
                *faults_of_copies(it.rows, it.copies, it.cases, heard, program())]

    def kinds(self) -> list[str]:
        """The kills and the other troubles, of each kind as many as of others, in any order."""
        only = self.asked.only.split(",") if self.asked.only else [*KILLS, *OTHERS]
        there = [it for it in only if preload.is_there() or it not in WITH_LIBRARY]
        some = []
        for kinds, count in (KILLS, self.asked.kills), (OTHERS, self.asked.troubles):
            wanted = [it for it in kinds if it in there]
            some += (wanted * count)[:count]
        self.draw.shuffle(some)
        return some

    async def copy_now_and_then(self) -> None:
        """Copies are begun at random moments, from the first trouble to the last."""
        count = self.asked.copies
        if count:
            pause = self.asked.between * max(1, (self.asked.kills + self.asked.troubles) / count)
            for _ in range(count):
                await asyncio.sleep(self.draw.expovariate(1 / pause))
                await self.troubles.copy()

    async def until_copied(self, copying: asyncio.Future[None], running: Sequence[asyncio.Future[None]]) -> None:
        """Waits for the last copy, while the desks go on."""
        while not copying.done() and not self.troubles.told:
            see_that_none_failed(running)
            await asyncio.sleep(0.1)
        if copying.done():
            copying.result()

    async def until_each_has_lines(self, running: Sequence[asyncio.Future[None]]) -> None:
        """Waits until each network has a line, so that none may be answered by another version."""
        deadline = time.monotonic() + PATIENT
        while rows_in(self.troubles.journal, "SELECT * FROM head WHERE lines = 0"):
            see_that_none_failed(running)
            if time.monotonic() > deadline:
                raise AssertionError("not each network has lines")
            await asyncio.sleep(0.1)

    def report(self, seconds: float) -> None:
        it = self.troubles
        [[lines, tenures, plans]] = rows_in(
            it.journal, "SELECT (SELECT count(*) FROM line), (SELECT count(*) FROM tenure), "
                        f"(SELECT count(*) FROM line WHERE desk = '{CLOCK}')")
        print(f"seed {self.seed}: {seconds:.0f} s, {lines} lines in {len(it.cases)} networks, {told_of(it.askers)}, "
              f"{plans} plans of the clock, {tenures} servers, {len(it.copies)} copies, "
              f"{sum(stray.came for stray in self.strays)} times that strays came, "
              f"troubles {dict(sorted(self.events.items()))}", flush=True)


TRIAL = Trial(__doc__, USUAL, Crowd)

if __name__ == "__main__":
    sys.exit(TRIAL.main(sys.argv[1:]))
