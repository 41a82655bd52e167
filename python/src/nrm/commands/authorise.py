"""Searches for the authorised seats of all legs that earn most in drawn seasons, and compares them with simple rules.

    nrm-tools authorise NETWORK --show P --denied-cost C [--mode MODE] [--seasons N] [--check N] [--sweeps K]
                        [--service P] [--together [LEG...]]... [--out FOLDER] [--seed S] [--demand HOW] [--order HOW]
                        [--parties SIZE:WEIGHT,...] [--cancel P]
                        [--workers N | --cluster ADDRESS [--tls CA CERTIFICATE KEY]] [--patience SECONDS]
                        [--names FILE] [--program WORD...]

Each booked seat is taken with probability P, and each seat taken beyond the physical ones of a leg costs C. Earnings
are the revenue and what was withheld, less that cost. Seasons are drawn and played as by `nrm-tools simulate`, with the
same options, under `davn` or under --mode.

THE SEARCH starts with the seats of each leg divided by P, rounded down. Then it goes from leg to leg, and moves the
authorised seats by 4, 2 and 1, up and down, as long as that earns more in --seasons (400). Each later sweep over the
legs moves them by 2 and 1. The search ends when a sweep moves nothing, or after --sweeps (3). All numbers are tried on
the same requests, in the same order, and the same of them come.

THE JUDGEMENT. The search picks what does well in its own seasons, so its result looks better there than it is.
Therefore it is played in other seasons, --check (1000), beside the numbers of the file and those of the rules. The
output says what each earns, how much more than the first rule that is, with its error, and by how much the seasons of
the search flatter it.

THE RULES treat each leg by itself, and as full. The simple rule divides the seats by the share that comes. The service
level is the largest number with which more come than there are seats in at most --service (0.05) of departures. The
marginal rule is the largest number of which the last seat earns as much as it costs: the mean fare of a seat on the
leg, where a product of several legs leaves each an equal part, is at least C times the chance that its customer comes
and finds no seat.

LEGS WITH ONE NUMBER. --together without a LEG gives all legs the same authorised seats, as a train has. --together T1-*
does this for the legs whose names fit the pattern (quote it), and may be used several times. These legs must all have
the same number of physical seats.

WHAT IS WRITTEN. Tables go to standard output, progress to standard error. With --out FOLDER there are also summary.txt,
tries.jsonl with what each season earned by each number that was tried, and NAME-authorised.csv, the network of version
2 with the authorised seats that were found. A run that was interrupted, by Ctrl-C or otherwise, continues from
tries.jsonl if you run the same command again. It needs Dask, as `nrm-tools simulate --help` says, and its result
doesn't depend on where it runs.
"""
from __future__ import annotations

import argparse
import os
from pathlib import Path
from typing import Sequence

from nrm import bytes_in, make_folder, said
from nrm.commands.running import add_names, add_program, parser
from nrm.commands.season_words import (add_drawing, add_search, add_workers, at_least, exact_probability, see_dask,
                                       see_workers, trials_of)
from nrm.network import Network, text_of
from nrm.pages.heads import lines_of, made_of
from nrm.program import Program
from nrm.records.name_lists import texts_in
from nrm.replies import MODES
from nrm.seasons.drawing import Settings
from nrm.seasons.overbooking_rules import Boarding, by_rules
from nrm.seasons.search_authorised import FOUND, NAMES, OF_FILE, SIMPLE, Search, rows_with, tables, units_of
from nrm.writing_files import Output

TRIES = "tries.jsonl"


def run(given: Sequence[str]) -> int:
    """It searches, judges, tells, and writes what was found."""
    asked = words_of(given)
    see_dask("authorise", given)
    network, texts, program = Network.read(asked.network), texts_in(asked.names), Program.found(asked.program)
    program.lines("print", asked.network)  # it takes the network, and is there
    units = units_of(network, asked.together)
    rules = by_rules(network, units, Boarding(asked.show, asked.denied_cost, asked.service))
    if asked.out is not None:
        make_folder(asked.out)
    path = None if asked.out is None else os.path.join(asked.out, TRIES)
    with trials_of("authorise", asked, settings_of(asked), program, path) as trials:
        found = Search(network, units, trials.seen, trials.line).from_seats(rules["simple"], asked.sweeps)
        choices = {OF_FILE: {name: leg.authorised for name, leg in network.legs.items()},
                   **{NAMES[rule]: seats for rule, seats in rules.items()}, FOUND: found}
        judged = trials.judged({it: rows_with(network, seats) for it, seats in choices.items()}, FOUND, SIMPLE)
    shown = [it.text() for it in tables(network, units, choices, judged, texts)]
    made = lines_of(made_of({"network": {asked.network: bytes_in(asked.network)}}, program, asked.seed))
    summary = "\n".join([*judged.sentences(), "", *made, "", *shown])
    print(summary, end="")
    if asked.out is not None:
        new = os.path.join(asked.out, f"{Path(asked.network).stem}-authorised.csv")
        with Output() as output:
            print("\n" + said(output.add(os.path.join(asked.out, "summary.txt"), summary)))
            print(said(output.add(new, text_of(rows_with(network, found)))))
    return 0


def words_of(given: Sequence[str]) -> argparse.Namespace:
    """What the words ask for."""
    words = parser("authorise", __doc__)
    words.add_argument("network")
    words.add_argument("--show", type=exact_probability, required=True, metavar="P")
    words.add_argument("--denied-cost", type=at_least(0, 2 ** 31), required=True, metavar="C")
    words.add_argument("--service", type=exact_probability, default="0.05", metavar="P")
    words.add_argument("--mode", choices=MODES, default="davn")
    words.add_argument("--together", nargs="*", action="append", default=[], metavar="LEG")
    words.add_argument("--out", metavar="FOLDER")
    add_search(words)
    add_drawing(words)
    add_workers(words)
    add_names(words)
    add_program(words)
    asked = words.parse_args(given)
    see_workers(words, asked)
    if not asked.show:
        words.error("--show must be above 0: if nobody comes, no number of authorised seats is too large")
    return asked


def settings_of(asked: argparse.Namespace) -> Settings:
    """How seasons are drawn and played."""
    return Settings(seed=asked.seed, modes=(asked.mode,), demand=asked.demand, order=asked.order, parties=asked.parties,
                    cancel=asked.cancel, show=float(asked.show), denied_cost=asked.denied_cost)
