"""Averages bid prices over the histories, certifies those of each history, and compares what they would earn.

    nrm-tools averaged NETWORK [--out FOLDER] [--seasons N] [--seed S] [--demand HOW] [--order HOW]
                       [--parties SIZE:WEIGHT,...] [--leave-out] [--names FILE] [--program WORD...]

The bid prices of `nrm plan bid` are those of the mean of the histories, as if that demand were sure to come. Here each
history has a linear program of its own, with all authorised seats, and the mean of their prices is printed beside the
plan's prices. So a leg that is scarce in only some of the histories has a price. This is randomised linear programming
(Talluri and van Ryzin, chapter 3). With --out FOLDER there are history-H.csv, the network with this history alone, and
history-H.txt, the certificate of its prices, which `nrm check` has found optimal.

With --seasons N seasons are drawn as by `nrm-tools simulate`, and the same requests are sold in the three modes and by
the averaged prices. These are computed again at the start of each period, from the seats left and the demand to come in
each history. `nrm` doesn't have this control. It is played as a desk could play it: a request whose fare is below the
prices of its legs isn't sent, and the others are sent to `nrm run first`, which sells them while there are seats.
--leave-out makes all plans, and the mean, without the history that is played. All is played in one process, with as
many plans a season as there are histories times periods; `nrm-tools simulate --averaged` plays the same on all
processors.
"""
from __future__ import annotations

import argparse
import functools
import os
import tempfile
from typing import Sequence

from nrm import Stop, bytes_in, make_folder, said
from nrm.commands.running import asked_with_texts, parser, tell
from nrm.commands.season_words import add_drawing, at_least
from nrm.network import Network
from nrm.pages.heads import lines_of, made_of
from nrm.program import Program
from nrm.replies import MODES, plan_of
from nrm.seasons.averaged_prices import AVERAGED, Averaged
from nrm.seasons.averaged_tables import Compared, beside_plan, prices_table
from nrm.seasons.drawing import Settings
from nrm.seasons.playing import Player
from nrm.seasons.search_fields import ProgressLine
from nrm.writing_files import Output


def run(given: Sequence[str]) -> int:
    """It tells the prices, and what they would earn if that is asked for."""
    words = parser("averaged", __doc__)
    words.add_argument("network")
    words.add_argument("--out", metavar="FOLDER")
    words.add_argument("--seasons", type=at_least(2), metavar="N")
    words.add_argument("--leave-out", action="store_true")
    add_drawing(words)
    asked, texts = asked_with_texts(words, given)
    if asked.cancel:
        words.error("--cancel can't be used with averaged prices")
    if asked.leave_out and asked.demand != "histories":
        words.error("--leave-out can be used with --demand histories only: the others don't play a single history")
    network, program = Network.read(asked.network), Program.found(asked.program)
    plan = program.told(plan_of, "plan", "bid", asked.network)
    if asked.leave_out and network.histories < 2:
        raise Stop(f"{said(asked.network)} has one history, and --leave-out needs two: one to play and one to know")
    with tempfile.TemporaryDirectory() as folder:
        averaged = Averaged(network, program, folder)
        mean = averaged.of(1, averaged.full)
        compared = compare(asked, program, folder) if asked.seasons else None
    print(*([compared.verdict()] if compared else []), beside_plan(plan.prices, mean, network.histories), "", sep="\n")
    seed = asked.seed if compared else None
    print(*lines_of(made_of({"network": {asked.network: bytes_in(asked.network)}}, program, seed)), sep="\n")
    for table in [prices_table(plan.prices, averaged.opening), *(compared.tables() if compared else [])]:
        table.with_texts(texts).show()
    if asked.out is not None:
        certify(network, program, asked.out)
    return 0


def certify(network: Network, program: Program, folder: str) -> None:
    """Writes each history's file and its certificate."""
    make_folder(folder)
    with tempfile.TemporaryDirectory() as spare, Output() as output:
        averaged, paths = Averaged(network, program, spare), list[str]()
        for history in range(1, network.histories + 1):
            paths += [output.add(os.path.join(folder, os.path.basename(it)), bytes_in(it))
                      for it in averaged.certified(history)]
        last = os.path.basename(paths[-1])
        print(f"\n{said(paths[1])} to {last}: each certificate is optimal for the file beside it")


def compare(asked: argparse.Namespace, program: Program, folder: str) -> Compared:
    """Plays seasons in all ways."""
    settings = Settings(seed=asked.seed, modes=(*MODES, AVERAGED), demand=asked.demand, order=asked.order,
                        parties=asked.parties, leave_out=asked.leave_out)
    line = ProgressLine(functools.partial(tell, "averaged"))
    compared = Compared(Player(bytes_in(asked.network), settings, program, folder))
    for number in range(asked.seasons):
        compared.play(number)
        line.say(f"{number + 1:,} of {asked.seasons:,} seasons")
    line.end(f"{asked.seasons:,} seasons")
    return compared
