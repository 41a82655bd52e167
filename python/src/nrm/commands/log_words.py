"""The words with which a log is read and cut into histories and periods: the same for each command that takes a log."""
from __future__ import annotations

import argparse
from typing import Callable, Iterable, Iterator, Mapping, Sequence

from nrm import Stop, said
from nrm.commands.running import whole_number
from nrm.limits import MOST_HISTORIES, MOST_PRODUCTS
from nrm.records.dates import WEEKDAYS
from nrm.records.log_demand import Demand, cuts_of
from nrm.records.log_requests import Columns, Request, requests_in


def add_log(words: argparse.ArgumentParser) -> None:
    """The words for a log, its columns, histories, periods and names."""
    words.add_argument("log")
    words.add_argument("--departs", metavar="COLUMN", required=True)
    words.add_argument("--booked", metavar="COLUMN", required=True)
    words.add_argument("--product", metavar="COLUMN", required=True, nargs="+")
    words.add_argument("--seats", metavar="COLUMN")
    words.add_argument("--cuts", metavar="DAYS", required=True, type=cuts_of)
    words.add_argument("--without", metavar=("COLUMN", "TEXT"), nargs="+", action="append", default=[])
    words.add_argument("--network", metavar="FILE")
    words.add_argument("--names", metavar="FILE")
    words.add_argument("--same", metavar="TRAIN", nargs="+", action="append", default=[])
    words.add_argument("--weekday", choices=WEEKDAYS)
    words.add_argument("--last", metavar="N", type=whole_number)
    words.add_argument("--dates", choices=["dmy", "mdy"])
    words.add_argument("--multiline", action="store_true")


def see_limits(asked: argparse.Namespace) -> None:
    """A Stop for words that are out of their limits."""
    if asked.last is not None and not 1 <= asked.last <= MOST_HISTORIES:
        raise Stop(f"--last {asked.last}: a network file takes 1 to {MOST_HISTORIES} histories")
    if any(len(it) < 2 for it in asked.same):
        raise Stop("--same needs at least two names of a train, the present one last")
    if any(len(it) < 2 for it in asked.without):
        raise Stop("--without needs a column and at least one text, such as --without status cancelled")


def requests_of(asked: argparse.Namespace, tell: Callable[[str], None]) -> list[Request]:
    """The requests of the log that the words name. Tells what was read."""
    columns = Columns(asked.departs, asked.booked, asked.product, asked.seats, asked.without, same=asked.same)
    return requests_in(asked.log, columns, asked.dates, asked.multiline, tell)


def demand_of(asked: argparse.Namespace, requests: list[Request]) -> Demand:
    """The demand of requests, in the histories and periods that the words say."""
    return Demand(requests, asked.cuts, asked.weekday, asked.last)


def names_told(names: Mapping[str, str], legs: Iterable[str], products: Sequence[str],
               path: str | None) -> Iterator[str]:
    """Which names were made, or how many if a list at a path has them, and if there are too many for one file."""
    if len(products) > MOST_PRODUCTS:
        yield (f"a network file takes at most {MOST_PRODUCTS} products: once it has legs and fares, `nrm-tools split` "
               "splits it into files")
    made = [text for text in [*legs, *products] if names[text] != text]
    if path:
        yield f"{len(made)} name{' was' if len(made) == 1 else 's were'} made; {said(path)} lists what they stand for"
    else:
        yield from (f"{names[text]} stands for {text!r}" for text in made)
