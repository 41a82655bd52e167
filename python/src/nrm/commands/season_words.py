"""The words by which commands draw, play and search seasons: what is drawn, where it runs, and Dask, which that takes.
"""
from __future__ import annotations

import argparse
import functools
import importlib.util
import re
from fractions import Fraction
from typing import TYPE_CHECKING, Callable, ContextManager, Sequence

from nrm import Stop, bytes_in
from nrm.commands import running
from nrm.commands.running import refused_word, tell
from nrm.libraries import lacks
from nrm.network import MOST_DIGITS, number
from nrm.program import Program
from nrm.seasons.drawing import DEMANDS, LARGEST_PARTY, ORDERS, Settings

if TYPE_CHECKING:
    from nrm.seasons.search_trials import Trials  # which needs Dask

MOST_SEASONS = 10_000_000
SHARE = "a number from 0 to 1, such as 0.05"
EXACT = re.compile(r"[0-9]+\.?[0-9]*|\.[0-9]+")
PATIENCE, MOST_PATIENCE = 300, 1_000_000  # seconds


def read_parties(text: str) -> tuple[tuple[int, float], ...]:
    """Sizes of parties and their weights."""
    wanted = f"a list of sizes from 1 to {LARGEST_PARTY}, each with its weight, such as 1:80,2:15,4:5"
    try:
        pairs = tuple((number(size), number(weight)) for size, weight in (it.split(":") for it in text.split(",")))
    except ValueError:
        raise refused_word(text, wanted)
    sizes, weights = zip(*pairs)
    if not (1 <= min(sizes) and max(sizes) <= LARGEST_PARTY and 0 <= min(weights) and 0 < max(weights)):
        raise refused_word(text, wanted)
    return pairs


def probability(text: str) -> float:
    """A number from 0 to 1."""
    try:
        found = float(text)
    except ValueError:
        found = -1.0
    if not 0 <= found <= 1:
        raise refused_word(text, SHARE)
    return found


def exact_probability(text: str) -> Fraction:
    """A number from 0 to 1 as it is written, with digits and a point alone."""
    if len(text) > MOST_DIGITS or not EXACT.fullmatch(text) or Fraction(text) > 1:
        raise refused_word(text, SHARE)
    return Fraction(text)


def at_least(least: int, most: int = MOST_SEASONS) -> Callable[[str], int]:
    """A reader of whole numbers within two limits, by default those of seasons."""
    return running.at_least(least, most)


def add_drawing(words: argparse.ArgumentParser) -> None:
    """The options for how seasons are drawn, but for departures."""
    words.add_argument("--seed", type=at_least(0, 2 ** 63), default=1)
    words.add_argument("--demand", choices=DEMANDS, default=DEMANDS[0])
    words.add_argument("--order", choices=ORDERS, default=ORDERS[0])
    words.add_argument("--parties", type=read_parties, default=((1, 1),), metavar="SIZE:WEIGHT,...")
    words.add_argument("--cancel", type=probability, default=0.0, metavar="P")


def add_search(words: argparse.ArgumentParser) -> None:
    """The options for a search by seasons."""
    words.add_argument("--seasons", type=at_least(2), default=400, metavar="N")
    words.add_argument("--check", type=at_least(2), default=1000, metavar="N")
    words.add_argument("--sweeps", type=at_least(1), default=3, metavar="K")


def add_workers(words: argparse.ArgumentParser) -> None:
    """The options for where seasons are played."""
    where = words.add_mutually_exclusive_group()
    where.add_argument("--workers", type=at_least(1, 1024), metavar="N")
    where.add_argument("--cluster", metavar="ADDRESS")
    words.add_argument("--tls", nargs=3, metavar=("CA", "CERTIFICATE", "KEY"))
    words.add_argument("--patience", type=at_least(1, MOST_PATIENCE), default=PATIENCE, metavar="SECONDS")


def see_workers(words: argparse.ArgumentParser, asked: argparse.Namespace) -> None:
    """Refuses keys without a scheduler that takes them."""
    if asked.tls and not (asked.cluster or "").startswith("tls://"):
        words.error("--tls can be used with --cluster tls://ADDRESS only")


def see_dask(name: str, given: Sequence[str]) -> None:
    """Sees that there is Dask for a command of some name, or goes on under Debian's Python if that one has it."""
    running.see_libraries(name, given, "distributed")
    if not importlib.util.find_spec("distributed"):
        raise Stop(lacks(["distributed"]))


def trials_of(name: str, asked: argparse.Namespace, settings: Settings, program: Program,
              path: str | None) -> ContextManager[Trials]:
    """The trials that the words of a command of some name ask for, kept in the file at a path."""
    from nrm.seasons.cluster import Workers
    from nrm.seasons.search_trials import Lengths, trials  # here, since Dask takes a second
    workers = Workers(asked.workers, asked.cluster, asked.tls, asked.patience, functools.partial(tell, name))
    return trials(bytes_in(asked.network), settings, program, asked.program or program.words, workers,
                  Lengths(asked.seasons, asked.check), path)
