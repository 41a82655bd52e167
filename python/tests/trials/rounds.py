"""Rounds of a trial: small networks that fill up, the words of the command line, desks that are watched, and what is
told of each round."""
from __future__ import annotations

import argparse
import asyncio
import contextlib
import random
import shutil
from collections import Counter
from dataclasses import dataclass
from pathlib import Path
from typing import AsyncIterator, Callable, Mapping, Sequence, TypeVar

from nrm.replies import MODES
from trials.asking import TOO_LONG, Around, Asker
from trials.judging import Case

MOST_SHOWN = 200  # faults of a round
Given = TypeVar("Given")


def made_network(draw: random.Random, path: Path, periods: int) -> None:
    """A network of a hub, so small that it fills up: legs to it and from it, and products over it."""
    to, away = [f"I{n}" for n in range(draw.randint(1, 4))], [f"O{n}" for n in range(draw.randint(1, 4))]
    rows = [f"periods,2,{periods},2"]
    rows += [f"leg,{leg},{seats},{seats + draw.randint(-3, 20)},500,250" for leg in to + away
             for seats in [draw.randint(40, 200)]]
    products = [(leg, leg) for leg in to + away] + [(f"{a}-{b}", f"{a},{b}") for a in to for b in away]
    rows += [f"product,{name},{draw.randint(90, 900)},{legs}" for name, legs in products]
    rows += [f"demand,{name},{history},{','.join(str(draw.randint(0, 30)) for _ in range(periods))}"
             for name, _ in products for history in (1, 2)]
    path.write_text("\n".join(rows) + "\n")


def made_cases(draw: random.Random, folder: Path, count: int, periods: int = 2) -> list[Case]:
    """Networks with their files in a folder, of all modes in turn, with so many periods."""
    cases = [Case(f"net-{at}", MODES[at % len(MODES)], folder / f"net-{at}.csv") for at in range(count)]
    for it in cases:
        made_network(draw, it.path, periods)
    return cases


def words_of(manual: str | None, usual: Mapping[str, object], given: Sequence[str]) -> argparse.Namespace:
    """The words of a trial: its folder, and options with what they are if nothing is said."""
    words = argparse.ArgumentParser(description=manual, formatter_class=argparse.RawDescriptionHelpFormatter)
    words.add_argument("folder")
    for name, value in usual.items():
        words.add_argument(f"--{name}", type=type(value), default=value)
    return words.parse_args(given)


class Crowd:
    """A round of a trial, in a folder that is made anew: the desks, and what happens to them."""

    def __init__(self, asked: argparse.Namespace, seed: int) -> None:
        self.asked, self.seed, self.folder = asked, seed, Path(asked.folder).resolve()
        shutil.rmtree(self.folder, ignore_errors=True)
        self.folder.mkdir(parents=True)
        self.draw, self.events = random.Random(seed), Counter[str]()

    async def run(self) -> list[str]:
        """All from the first line to the last trouble; gives what doesn't hold."""
        raise NotImplementedError


@dataclass(frozen=True)
class Trial:
    """A trial: its manual, its options with what they are if nothing is said, and its rounds."""
    manual: str | None
    usual: Mapping[str, object]
    crowd: type[Crowd]

    def judged(self, *given: object) -> list[str]:
        """What doesn't hold after as many rounds as the words ask for, each with a seed of its own."""
        asked = words_of(self.manual, self.usual, [*map(str, given)])
        found: list[str] = []
        for seed in range(asked.seed, asked.seed + asked.rounds):
            faults = asyncio.run(self.crowd(asked, seed).run())
            for it in faults[:MOST_SHOWN]:
                print(f"FAULT seed {seed}: {it}", flush=True)
            print(f"seed {seed}: {len(faults)} faults", flush=True)
            found += [f"seed {seed}: {it}" for it in faults]
        return found

    def main(self, given: Sequence[str]) -> int:
        """The trial as a command; gives its status."""
        told = self.judged(*given)
        print(f"{len(told)} faults")
        return bool(told)


@contextlib.asynccontextmanager
async def watched(around: Around, tasks: Sequence[asyncio.Future[None]], *faults: type[Exception],
                  ) -> AsyncIterator[None]:
    """Notes what must not be, if that comes up, and ends the desks and all else that is at work."""
    try:
        yield
    except (AssertionError, asyncio.TimeoutError, *faults) as fault:
        around.told.append(str(fault) or f"a desk has no replies in {TOO_LONG} seconds")
    finally:
        around.is_over = True  # for a desk that got its reply just when it was to end
        for it in tasks:
            it.cancel()
        await asyncio.gather(*tasks, return_exceptions=True)


def see_that_none_failed(running: Sequence[asyncio.Future[None]]) -> None:
    """Raises what a desk has found that must not be."""
    for it in running:
        if it.done():
            it.result()


def told_of(askers: Sequence[Asker]) -> str:
    """What desks got, in words."""
    replies, looks = sum(len(it.heard.replies) for it in askers), sum(len(it.heard.looks) for it in askers)
    return (f"{replies} replies and {looks} looks that {len(askers)} desks got, {sum(it.retries for it in askers)} "
            f"times sent again, the longest wait {max(it.longest for it in askers):.1f} s")


async def in_thread(call: Callable[[], Given]) -> Given:
    """What a call gives that waits, while the desks go on."""
    return await asyncio.get_running_loop().run_in_executor(None, call)
