"""Finds thresholds for the legs: from the fares, from the adjusted fares, or by a search that plays seasons.

    nrm-tools thresholds NETWORK GROUPS [--adjusted gaps|cost] [--out FILE] [--pictures FOLDER] [--names FILE]
                         [--program WORD...]
    nrm-tools thresholds NETWORK GROUPS --search [--seasons N] [--check N] [--sweeps K] [--tries FILE] [--out FILE]
                         [--seed S] [--demand HOW] [--order HOW] [--parties SIZE:WEIGHT,...] [--cancel P]
                         [--workers N | --cluster ADDRESS [--tls CA CERTIFICATE KEY]] [--patience SECONDS]
                         [--names FILE] [--program WORD...]

For each leg that a product uses, `nrm cuts` divides the fares on it into at most GROUPS groups, 1 to 10, so that the
seats asked for are as close to the centres of their groups as they can be: the cost is the sum, over the seats of all
histories, of the distance of the fare from the centre. The output says how many buckets that makes, and has for each
leg the cuts, the centres, the cost, and the cost of each seat. A cut is the least fare of its group, and as a threshold
of the leg it ends a bucket there. NETWORK's own thresholds don't matter.

WHICH FARES. A product of several legs has its whole fare on each of them. Its bucket, though, depends on what it brings
the leg: its fare less the bid prices of the other legs. --adjusted uses these adjusted fares, by the opening plan:
`gaps` separates them at the GROUPS - 1 largest gaps, and `cost` as `nrm cuts` would divide them. Each cut is then
halfway between two fares, since prices change with each plan. Adjusted fares count in whole numbers, rounded down, and
at least as 1.

THE SEARCH. --search plays seasons as `nrm-tools simulate` draws them, under `davn`. First it tries rules on all legs in
the same --seasons (400): the thresholds of the file, those from the fares, and both kinds from adjusted fares, each
with 2 to GROUPS groups. It starts from the rule that earns most, goes from leg to leg, and gives each leg the
thresholds of the rule that earns most there, until --sweeps (3) are done or one changes nothing. The result is judged
in other seasons, --check (1000), beside each rule with GROUPS groups, and the file. --tries keeps what was tried in
FILE, so that a run that was interrupted continues if you run the same command again. It needs Dask, as `nrm-tools
simulate --help` says.

With --out the network is written to FILE, with the cuts as the thresholds of the legs and all other rows as they are. A
leg that no product uses keeps its thresholds. `nrm run davn FILE` then uses them, and `nrm-tools replay FILE` says what
they would have earned.

With --pictures the fares of each leg are drawn with their cuts and centres, as thresholds.png and thresholds.svg in
FOLDER. This needs matplotlib (Debian's python3-matplotlib): without it the fares are printed in a table.
"""
from __future__ import annotations

import argparse
from typing import Mapping, Sequence

from nrm import bytes_in, said
from nrm.commands.running import asked_with_texts, at_least, lacking, parser, see_libraries
from nrm.commands.season_words import add_drawing, add_search, add_workers, see_dask, see_workers, trials_of
from nrm.legs.adjusted_thresholds import WAYS, adjusted_groupings
from nrm.legs.fare_groupings import Grouping, groupings, table_of, verdict
from nrm.limits import MOST_GROUPS
from nrm.network import Network, fields_in, text_of, with_thresholds
from nrm.pages.heads import lines_of, made_of
from nrm.pages.tables import with_text
from nrm.program import Program
from nrm.seasons.drawing import Settings
from nrm.seasons.search_thresholds import (FOUND, OF_FILE, ThresholdSearch, proposed, rows_of_thresholds,
                                           table_of_thresholds)
from nrm.writing_files import Output

RULES = {None: "of least cost by the fares", "cost": "of least cost by adjusted fares of the opening plan",
         "gaps": "at the largest gaps of adjusted fares of the opening plan"}


def run(given: Sequence[str]) -> int:
    """It prints the groups, or what is found, and writes or draws them if that is asked for."""
    words = parser("thresholds", __doc__)
    words.add_argument("network")
    words.add_argument("groups", type=at_least(1, MOST_GROUPS), metavar="GROUPS")
    words.add_argument("--adjusted", choices=WAYS)
    words.add_argument("--out", metavar="FILE")
    words.add_argument("--pictures", metavar="FOLDER")
    words.add_argument("--search", action="store_true")
    words.add_argument("--tries", metavar="FILE")
    add_search(words)
    add_drawing(words)
    add_workers(words)
    asked, texts = asked_with_texts(words, given)
    see_workers(words, asked)
    if asked.pictures is not None:
        see_libraries("thresholds", given, "matplotlib")
    if asked.search and (asked.adjusted or asked.pictures is not None):
        words.error("--search can't be used with --adjusted or --pictures: it tries all rules and draws nothing")
    if asked.search:
        see_dask("thresholds", given)
    network = Network.read(asked.network)
    with Output() as output:
        if asked.out is not None:
            output.see(asked.out)
        found = (searched(asked, network, texts) if asked.search else by_a_rule(asked, network, texts, output))
        if asked.out is not None:
            output.add(asked.out, text_of(with_thresholds(fields_in(asked.network), found)))
            print(f"\n{said(asked.out)}")
    return 0


def by_a_rule(asked: argparse.Namespace, network: Network, texts: Mapping[str, str],
              output: Output) -> Mapping[str, Sequence[int]]:
    """The thresholds of each leg that a product uses by the rule that is asked for, which are told or drawn too."""
    program = Program.found(asked.program)
    found = list(adjusted_groupings(asked.network, network, asked.adjusted, asked.groups, program) if asked.adjusted
                 else groupings(asked.network, network, asked.groups, program))
    print(verdict(asked.network, found, RULES[asked.adjusted]), "", *made_lines(asked, program), sep="\n")
    table_of(found, asked.groups).with_texts(texts).show()
    unused = [leg for leg in network.legs if leg not in {it.leg for it in found}]
    if unused:
        print(f"\nno product uses {', '.join(with_text(it, texts) for it in unused)}")
    if asked.pictures is not None:
        draw(found, asked.pictures, texts, output)
    return {it.leg: it.cuts.thresholds for it in found}


def searched(asked: argparse.Namespace, network: Network, texts: Mapping[str, str]) -> Mapping[str, Sequence[int]]:
    """The thresholds that are found by seasons, which are told too."""
    program = Program.found(asked.program)
    program.lines("print", asked.network)  # it takes the network, and is there
    settings = Settings(seed=asked.seed, modes=("davn",), demand=asked.demand, order=asked.order,
                        parties=asked.parties, cancel=asked.cancel)
    rules = dict(proposed(asked.network, network, asked.groups, program))
    with trials_of("thresholds", asked, settings, program, asked.tries) as trials:
        search = ThresholdSearch(network, rules, trials.seen, trials.line)
        best = search.best_rule()
        found = search.from_rule(best, asked.sweeps)
        choices = {it: rules[it] for it in rules if it in (OF_FILE, best) or it.endswith(f" {asked.groups}")}
        choices[FOUND] = found
        rows = {it: rows_of_thresholds(network, one) for it, one in choices.items()}
        judged = trials.judged(rows, FOUND, OF_FILE)
        beside_best = trials.judged(rows, FOUND, best)
    print(*judged.sentences(), f"Of the rules on all legs at once {best} earned most in the search.", sep="\n")
    if best != OF_FILE:
        print(*beside_best.sentences(), sep="\n")
    print("", *made_lines(asked, program, asked.seed), sep="\n")
    table_of_thresholds(choices, texts).show()
    judged.table("thresholds").show()
    return found


def made_lines(asked: argparse.Namespace, program: Program, seed: int | None = None) -> list[str]:
    """What the thresholds were made of."""
    return lines_of(made_of({"network": {asked.network: bytes_in(asked.network)}}, program, seed))


def draw(found: Sequence[Grouping], folder: str, texts: Mapping[str, str], output: Output) -> None:
    """Draws the fares, or tells them where there is no matplotlib."""
    if lacking("thresholds", "matplotlib"):
        for it in found:
            it.table(texts).show()
        return
    from nrm.legs import leg_pictures as pictures
    from nrm.pages.figures import written
    print()
    for path in written([("thresholds", lambda: pictures.thresholds(found, texts))], folder, output):
        print(said(path))
