"""Plays past seasons again: what each mode would have earned in them, without knowing them.

    nrm-tools replay NETWORK [--seed NUMBER] [--program WORD...]

Each history in turn is taken out of NETWORK and becomes the season: its requests, for one seat each, in the order of
the periods and shuffled within each period by the seed, with a line `reoptimise` at the start of each period but the
first. `nrm` answers them in the three modes on the network of the other histories. The output says which mode earns
most, and prints the bound of hindsight of each history and how much of it each mode earns. Nothing is cancelled, so
nothing is withheld. `nrm-tools simulate --leave-out` plays the same seasons many times, each in another order.
"""
from __future__ import annotations

import tempfile
from dataclasses import dataclass
from fractions import Fraction
from typing import Sequence

from nrm import Stop, bytes_in, said
from nrm.commands.running import add_program, parser, whole_number
from nrm.network import Network
from nrm.pages.heads import lines_of, made_of
from nrm.program import Program
from nrm.replies import MODES
from nrm.seasons.drawing import Settings
from nrm.seasons.playing import Player, replayed
from nrm.seasons.results import per_cent

LINE = "{:>8}{:>12}" + "{:>12}{:>8}" * len(MODES)


def run(given: Sequence[str]) -> int:
    """Plays each history, and prints what they say together and a line for each and for all."""
    words = parser("replay", __doc__)
    words.add_argument("network")
    words.add_argument("--seed", type=whole_number, default=1)
    add_program(words)
    asked = words.parse_args(given)
    if Network.read(asked.network).histories < 2:
        raise Stop(f"replay needs two histories, one to play and one to know, and {said(asked.network)} has one")
    program, source = Program.found(asked.program), bytes_in(asked.network)
    with tempfile.TemporaryDirectory() as folder:
        player = Player(source, Settings(seed=asked.seed, leave_out=True), program, folder)
        histories = [Played(str(history), bound, revenues) for history, bound, revenues in replayed(player)]
    total = Played("all", sum((it.bound for it in histories), Fraction(0)),
                   [sum(it) for it in zip(*(it.revenues for it in histories))])
    print(verdict(total, histories), "", *lines_of(made_of({"network": {asked.network: source}}, program, asked.seed)),
          "", LINE.format("history", "bound", *[it for mode in MODES for it in (mode, "")]).rstrip(), sep="\n")
    for it in (*histories, total):
        print(LINE.format(it.name, f"{float(it.bound):,.0f}", *[text for revenue in it.revenues for text in (
            f"{revenue:,}", it.share(revenue))]))
    return 0


@dataclass(frozen=True)
class Played:
    """A history that was played, or all: its bound, and the revenue of each mode."""
    name: str
    bound: Fraction
    revenues: Sequence[int]

    def share(self, revenue: int) -> str:
        """The share of the bound that a revenue is."""
        return per_cent(revenue, float(self.bound))


def verdict(total: Played, histories: Sequence[Played]) -> str:
    """What the histories say together, the mode that earns most first."""
    order = sorted(range(len(MODES)), key=lambda at: -total.revenues[at])
    best, second, *_ = order
    most, texts = total.revenues[best], [f"{MODES[at]} {total.revenues[at]:,}, {total.share(total.revenues[at])}"
                                         for at in order[1:]]
    ahead = sum(it.revenues[best] > it.revenues[second] for it in histories)
    return (f"In {len(histories)} histories {MODES[best]} earns {most:,}, {total.share(most)} of the bound; "
            f"{'; '.join(texts)}. {MODES[best]} is ahead of {MODES[second]} in {ahead} of {len(histories)}.")
