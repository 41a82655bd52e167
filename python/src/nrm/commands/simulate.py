"""Plays many seasons in the three modes on the same requests: what each earns, how they differ, and how sure that is.

    nrm-tools simulate NETWORK... --seasons N [--seed S] [--out FOLDER] [--modes MODE...] [--demand HOW] [--order HOW]
                       [--parties SIZE:WEIGHT,...] [--cancel P] [--show P --denied-cost C] [--leave-out] [--averaged]
                       [--workers N | --cluster ADDRESS [--tls CA CERTIFICATE KEY]] [--patience SECONDS]
                       [--names FILE] [--program WORD...]

For each NETWORK and season it draws requests, with a line `reoptimise` at the start of each period but the first, and
`nrm` answers them in each mode. The output first says in a sentence which mode, or network, earns most, by how much,
and how sure that is. Below are the revenue of each mode with its standard error and its share of the bound of
hindsight; the difference of each two modes on the same requests, with its 95 per cent interval; the load of each leg;
and the share of the requests for each product that was refused.

SEVERAL NETWORKS are played on the same draws, whatever differs in them, and compared in each mode season by season:
what each earns less than the one that earns most and, if there are at most six, the difference of each two. The
intervals beside the most are wider the more networks there are, so that those of all pairs hold at once in 95 of 100
runs or more. What truly earns most is then the one marked so, or one whose interval reaches 0. If the networks differ
only in seats, thresholds or refunds, their seasons are those that each has by itself. If they differ in more, the
history is the same, and each product's requests are drawn by its name: a product that has the same name and demand in
two networks asks for the same there.

HOW A SEASON IS DRAWN. --demand histories takes the requests of one history, all equally likely (the default);
independent draws a history for each product apart; poisson draws numbers about the mean of the histories, for each
product and period apart. --order is mixed within a period (the default), or low-first, by fare. With --parties
1:80,2:15,4:5, of 100 requests 80 are for one seat, 15 for two and 5 for four; the seats asked for stay the same, so the
last party of a product in a period may be smaller. With --cancel 0.1 each booking is cancelled with this probability,
at a line drawn from those after it. With --show 0.9 each seat booked at the end is taken with this probability; those
taken beyond the physical seats of a leg are denied boardings, at --denied-cost each. With --leave-out plans are made
without the history that is played. The same --seed gives the same seasons.

BESIDE THE MODES --averaged plays bid prices that are averaged over the histories, a control that `nrm` doesn't have: a
desk computes them again at the start of each period, sends only requests whose fare is at least the prices of their
legs, and `nrm run first` sells these. `nrm-tools averaged` says more about them. They take as many plans a season as
there are histories times periods, and can't be used with --cancel.

JOINED LEGS. If the list of --names says that a leg was joined at some stops, and histories ask for more seats of it
than it has, the first sentence says that the amounts are of another train than the one that ran.

WHERE IT RUNS. It needs Dask (Debian's python3-distributed, for /usr/bin/python3: if the Python that runs this has no
Dask and that one has, the command of a checkout continues under that one). It starts as many processes on this machine
as there are processors, or --workers. They communicate by TLS, with keys that are made for the run and stay in memory
(this needs Debian's python3-cryptography), so no other account of the machine can use them. With --cluster it uses the
workers of the Dask scheduler at ADDRESS, each of which must be able to run the words of --program. A scheduler without
TLS runs anything for anybody who reaches it, there and on the machine of each client: so use tls://ADDRESS, and give
with --tls the PEM files of the authority's certificate, of your certificate and of your key. The workers are sent these
tools. A worker whose program or tools differ from those of this machine in a byte is refused, with both checksums. If
no seasons come back, because a worker was suspended or lost, it says so after 30 seconds, and ends the run after
--patience, by default 300. The results don't depend on where it runs.

WHAT IS WRITTEN. The summary goes to standard output, progress to standard error. With --out FOLDER there are also
summary.txt, simulate.html with the same and the pictures, each picture as SVG, and for each network NAME-seasons.csv
with a row for each season and mode. The pictures need matplotlib (Debian's python3-matplotlib), the page jinja2
(python3-jinja2); it reports what it can't make, and writes the rest. A run that was interrupted, by Ctrl-C or
otherwise, has kept the seasons that were done, and the same command continues from there, also with more seasons.
Without --out nothing is kept.
"""
from __future__ import annotations

import argparse
import functools
import os
import re
import tempfile
from pathlib import Path
from typing import Iterator, Sequence

from nrm import Stop, make_folder, said
from nrm.commands.running import add_names, add_program, lacking, parser, tell
from nrm.commands.season_words import add_drawing, add_workers, at_least, probability, see_dask, see_workers
from nrm.network import Network
from nrm.pages.heads import lines_of, made_of
from nrm.pages.tables import told_of
from nrm.program import Program
from nrm.records.name_lists import texts_in
from nrm.replies import MODES
from nrm.seasons.averaged_prices import AVERAGED
from nrm.seasons.comparing_page import SeasonPicture, about, page, pictures
from nrm.seasons.comparing_tables import Study
from nrm.seasons.coupled import together
from nrm.seasons.drawing import Settings
from nrm.seasons.results import Results
from nrm.seasons.rows import Seasons, check_same
from nrm.seasons.verdicts import verdict
from nrm.writing_files import Output


def run(given: Sequence[str]) -> int:
    """Plays the seasons that aren't there yet, and tells what all of them say."""
    asked = words_of(given)
    see_dask("simulate", given)
    settings = together(settings_of(asked), [Network.read(it) for it in asked.networks])
    with tempfile.TemporaryDirectory() as spare:
        folder = asked.out or spare
        make_folder(folder)
        named = zip(names_of(asked.networks), asked.networks)
        studies = [Seasons(name, path, settings, asked.seasons, folder) for name, path in named]
        program = Program.found(asked.program)
        for path in asked.networks:
            program.lines("print", path)  # it takes the network, and is there
        check_same(folder, settings, studies)
        for it in studies:
            it.go_on()
        if any(len(it.rows) < asked.seasons for it in studies):
            play(asked, studies, settings, asked.program or program.words)
        show(asked, settings, studies, program)
    return 0


# What is asked for


def words_of(given: Sequence[str]) -> argparse.Namespace:
    """What the words ask for."""
    words = parser("simulate", __doc__)
    words.add_argument("networks", nargs="+", metavar="NETWORK")
    words.add_argument("--seasons", type=at_least(1), required=True, metavar="N")
    words.add_argument("--out", metavar="FOLDER")
    words.add_argument("--modes", nargs="+", choices=MODES, default=MODES)
    add_drawing(words)
    words.add_argument("--show", type=probability, metavar="P")
    words.add_argument("--denied-cost", type=at_least(0, 2 ** 31), metavar="C")
    words.add_argument("--leave-out", action="store_true")
    words.add_argument("--averaged", action="store_true")
    add_workers(words)
    add_names(words)
    add_program(words)
    asked = words.parse_args(given)
    see_workers(words, asked)
    if (asked.show is None) != (asked.denied_cost is None):
        words.error("--show and --denied-cost must be given together")
    if asked.leave_out and asked.demand != "histories":
        words.error("--leave-out can be used with --demand histories only: the others don't play a single history")
    if asked.averaged and asked.cancel:
        words.error("--cancel can't be used with --averaged")
    return asked


def settings_of(asked: argparse.Namespace) -> Settings:
    """The settings that are asked for; modes in their usual order, and behind them averaged prices."""
    modes = (*(it for it in MODES if it in asked.modes), *([AVERAGED] if asked.averaged else []))
    return Settings(seed=asked.seed, modes=modes, demand=asked.demand, order=asked.order, parties=asked.parties,
                    cancel=asked.cancel, show=asked.show, denied_cost=asked.denied_cost or 0, leave_out=asked.leave_out)


def names_of(paths: Sequence[str]) -> list[str]:
    """A name for each path: that of the file without its ending, or the whole path if two files have one name."""
    stems = [said(Path(it).stem) for it in paths]
    names = [stem if stems.count(stem) == 1 else re.sub(r"[^\w.-]+", "-", str(Path(path).with_suffix(""))).strip("-.")
             for stem, path in zip(stems, paths)]
    if len(set(names)) < len(names):
        raise Stop(f"two networks have the same name: {max(names, key=names.count)}")
    return names


# How it is played and told


def play(asked: argparse.Namespace, studies: Sequence[Seasons], settings: Settings, words: Sequence[str]) -> None:
    """Has the workers that are asked for play."""
    from nrm.seasons.cluster import Workers, simulate  # here, since Dask takes a second
    on_the_way = functools.partial(tell, "simulate")
    simulate(studies, settings, words, Workers(asked.workers, asked.cluster, asked.tls, asked.patience, on_the_way))


def show(asked: argparse.Namespace, settings: Settings, studies: Sequence[Seasons], program: Program) -> None:
    """Tells the summary, and writes the page and the pictures."""
    results = {it.name: Results.read(it.whole) for it in studies}
    study = Study({it.name: it.network for it in studies}, settings, results, texts_in(asked.names))
    networks = {path: it.source for path, it in zip(asked.networks, studies)}
    made = made_of({"networks" if len(networks) > 1 else "network": networks}, program, settings.seed)
    tables, left_out = told_of(study.tables())
    first, sentences = verdict(study), [*about(asked.seasons, settings, results), *left_out]
    summary = "\n".join([first, "", *lines_of(made), "", *sentences, "", *(it.text() for it in tables)])
    print(summary, end="")
    if not asked.out:
        return
    missing = lacking("simulate", "matplotlib", "jinja2")
    shown = list(pictures(study)) if "matplotlib" not in missing else []
    with Output() as output:
        print("\n" + said(output.add(os.path.join(asked.out, "summary.txt"), summary)))
        paths = list(drawn(shown, asked.out, output)) if shown else []
        if "jinja2" not in missing:
            svgs = {Path(it).stem: output.text(it) for it in paths}
            print(said(output.add(os.path.join(asked.out, "simulate.html"),
                                  page(first, made, sentences, tables, shown, svgs))))
        print(*map(said, [*paths, *(it.whole for it in studies)]), sep="\n")


def drawn(shown: Sequence[SeasonPicture], folder: str, output: Output) -> Iterator[str]:
    """Draws pictures, and gives the paths of their files."""
    from nrm.pages.figures import written
    yield from written([(it.name, it.draw) for it in shown], folder, output, kinds=["svg"])
