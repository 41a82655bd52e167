"""The account of a line, asked for and checked: `nrm_why` found and run, its text read, its rule done again beside a
session, and the certificate of the plan that decided checked in two ways.

Nothing here builds.
"""
from __future__ import annotations

import dataclasses
import os
import shlex
import shutil
import stat
import subprocess
import sys
import tempfile
from dataclasses import dataclass
from pathlib import Path
from typing import Iterator, Mapping, Sequence

from nrm import Stop, bytes_in
from nrm.accounts.played_session import PlayedLine
from nrm.accounts.reading import Account, Optimisation, RequestAccount, account_of
from nrm.accounts.rule_steps import Step, steps_of
from nrm.network import Network, text_of
from nrm.program import TOP, Program, built_in, ended, is_checkout, is_program, program_behind
from nrm.replies import NoAnswer

NAME, WORDS_OF = "nrm_why", "NRM_WHY"
OF_SQLITE = b"SQLite format 3\0"  # how a file of SQLite begins
ABSENT = 10  # the status where the stream has fewer lines
AUDIT = Path(__file__).resolve().parents[1] / "audit.py"  # the auditor's script, which is run and never imported


@dataclass(frozen=True)
class Why:
    """An account, the session up to its line, and the steps of its rule."""
    account: Account
    course: PlayedLine
    steps: tuple[Step, ...]

    @property
    def holds(self) -> bool:
        """Whether every step holds."""
        return all(it.holds for it in self.steps)


@dataclass(frozen=True)
class LineOfStream:
    """Where a line stands: the network file, the mode, the file of the stream, and the number from 1."""
    network: str
    mode: str
    stream: str
    number: int

    def why(self, words: Sequence[str], program: Program, replies: str | None = None) -> Why:
        """The account of the line by the program of some words, beside a session of `nrm`, and beside the replies that
        were kept of the lines if a file has them."""
        if stat.S_ISFIFO(os.stat(self.stream).st_mode):
            raise Stop(f"{self.stream} isn't a plain file")
        if is_of_sqlite(self.network):
            raise Stop(f"{self.network} is an SQLite file, not a network file: for a line of a journal give three "
                       "words, JOURNAL NETWORK NUMBER")
        account = self.account(words)
        try:
            course = PlayedLine.played(self.network, self.mode, self.stream, self.number, program, replies)
        except (LookupError, ValueError) as what:
            raise Stop(f"the replies to {self.stream} don't fit its lines: {what}; is it another program?")
        try:
            steps = [*steps_of(account, course), *certificate_steps(account, course, program)]
        except (LookupError, ValueError) as what:
            raise Stop(f"what `{NAME}` wrote is of another line or another network: {what}")
        return Why(account, course, tuple(steps))

    def account(self, words: Sequence[str]) -> Account:
        """The account, as the program of some words writes it."""
        asked = [self.mode, self.network, str(self.number)]
        with open(self.stream, "rb") as stream:
            done = subprocess.run([*words, *asked], stdin=stream, stdout=subprocess.PIPE)
        text = done.stdout.decode("latin-1")
        if done.returncode == ABSENT:
            raise Stop(f"{self.stream} has no line {self.number}")
        if done.returncode:
            raise ended(" ".join([NAME, *asked]), done.returncode, text.rstrip("\n").rpartition("\n")[2])
        try:
            return account_of(text)
        except NoAnswer as what:
            raise Stop(f"what `{' '.join([NAME, *asked])}` wrote isn't an account: {what}; is it another program?")


def is_of_sqlite(path: str) -> bool:
    """Whether a file is one of SQLite, as a journal is."""
    return os.path.isfile(path) and bytes_in(path, len(OF_SQLITE)) == OF_SQLITE


def found(words: Sequence[str] | None, program: Program) -> tuple[str, ...]:
    """The words that run `nrm_why`: those given, else those of NRM_WHY, else the program of this file's checkout or the
    one beside `nrm`."""
    given = list(words or shlex.split(os.environ.get(WORDS_OF, "")))
    if given:
        there = shutil.which(given[0])
        behind = program_behind(os.path.abspath(there)) if there else None
        if not there or not behind:
            raise Stop(f"there is no program {given[0]}" if not there else
                       f"{given[0]} has no built program that fits its sources, and nothing is built here")
        return (behind, *given[1:])
    built = built_in(TOP, NAME) if is_checkout(TOP) else None
    beside = Path(shutil.which(program.words[0]) or program.words[0]).resolve().with_name(NAME)
    if not built and is_program(beside):
        built = beside
    if not built:
        raise Stop(f"there is no `{NAME}` that fits the sources, nor one beside `nrm`, and nothing is built here: "
                   f"--why or {WORDS_OF} names the one to run")
    return str(built),


# The certificate of the plan that decided


def certificate_steps(account: Account, course: PlayedLine, program: Program) -> Iterator[Step]:
    """The certificate of the plan that decided, or that the line made, by `nrm check` and by the auditor's script: that
    of the network with the seats left when it was made and the demand from its period on."""
    if course.mode == "first":
        return
    if isinstance(account.reasons, RequestAccount):
        plan, planned = course.plan, course.planned
    elif isinstance(account.reasons, Optimisation) and course.optimised():
        plan, planned = course.plan_behind, course.plan_made()
        yield Step("the value of the plan that is in force after the line is the one that was answered",
                   plan.split("\n")[0].split(" ")[1:] == course.reply.split(" ")[1:])
    else:
        return
    made, period = planned.line, planned.period
    where = f"the seats left at line {made} and the demand from period {period} on" if made else "the opening"
    for who, is_optimal in checked(later(course.network, planned.left, period), plan, program).items():
        yield Step(f"the certificate of the plan is optimal for {where}, by {who}", is_optimal)


def later(network: Network, left: Mapping[str, int], period: int) -> Network:
    """The network whose opening plan is the plan of some seats left and a period."""
    legs = {name: dataclasses.replace(leg, authorised=left[name]) for name, leg in network.legs.items()}
    products = {name: dataclasses.replace(it, demand={
        history: tuple(0 if at < period else seats for at, seats in enumerate(demand, 1))
        for history, demand in it.demand.items()}) for name, it in network.products.items()}
    return dataclasses.replace(network, version=2, legs=legs, products=products)


def checked(network: Network, plan: str, program: Program) -> dict[str, bool]:
    """Whether `nrm check` and the auditor's script say that a plan of a network is optimal, its nests left out."""
    with tempfile.TemporaryDirectory() as folder:
        files = [str(Path(folder, "network.csv")), str(Path(folder, "certificate.txt"))]
        lines = [f"{it}\n" for it in plan.split("\n") if not it.startswith(("nest ", "protect "))]
        for path, text in zip(files, (text_of(network.rows()), "".join(lines))):
            Path(path).write_text(text, encoding="latin-1")
        ways = {"`nrm check`": [*program.words, "check"], "the auditor's script": [sys.executable, str(AUDIT)]}
        return {who: says_optimal([*words, *files]) for who, words in ways.items()}


def says_optimal(words: Sequence[str]) -> bool:
    """Whether a run of some words ends with the line `optimal` and status 0."""
    done = subprocess.run(words, stdin=subprocess.DEVNULL, stdout=subprocess.PIPE, stderr=subprocess.PIPE)
    return done.returncode == 0 and done.stdout.splitlines()[-1:] == [b"optimal"]
