"""A search with its workers: the seasons that it sees, others to judge by, and what was tried, all played by Dask.

It needs Dask: who begins one asks for `distributed` first.
"""
from __future__ import annotations

import contextlib
import os
from dataclasses import dataclass
from typing import Callable, Iterator, Mapping, Sequence

from nrm.program import Program
from nrm.seasons import cluster
from nrm.seasons.drawing import Settings
from nrm.seasons.rows import maker
from nrm.seasons.search_fields import Earned, Field, Play, ProgressLine, Rows, Tried, Tries, made_by
from nrm.seasons.search_judging import Judged

TASKS_OF_A_WORKER, TASKS_OF_A_CLUSTER = 2, 64  # of the seasons of a try


@dataclass(frozen=True)
class Lengths:
    """How many seasons the search sees, and by how many it is judged."""
    seen: int
    judged: int


class Trials:
    """The seasons that a search sees, and others to judge by."""

    def __init__(self, play: Play, tries: Tries, lengths: Lengths, tell: Callable[[str], None]) -> None:
        self.seen = Field(play, tries, range(lengths.seen))
        self.unseen = Field(play, tries, range(lengths.seen, lengths.seen + lengths.judged))
        self.line, self.is_judged = ProgressLine(tell), False

    def judged(self, choices: Mapping[str, Rows], found: str, base: str) -> Judged:
        """What each of some choices earns in the other seasons, beside one of them."""
        unseen: dict[str, list[Earned]] = {}
        for number, (name, rows) in enumerate(choices.items(), 1):
            self.line.say(f"judged in {len(self.unseen.numbers):,} other seasons: {number} of {len(choices)}")
            unseen[name] = self.unseen.of(rows)
        if not self.is_judged:
            self.line.end(f"judged in {len(self.unseen.numbers):,} other seasons")
        self.is_judged = True
        return Judged(found, base, unseen, self.seen.of(choices[found]), self.seen.of(choices[base]))


@contextlib.contextmanager
def trials(source: bytes, settings: Settings, program: Program, words: Sequence[str], workers: cluster.Workers,
           lengths: Lengths, path: str | None) -> Iterator[Trials]:
    """Trials on a network file's bytes with the program that some words run, kept in the file at a path."""
    tries = Tries(path, made_by(settings, source, maker(program).program))
    if tries.known:
        workers.tell(f"{len(tries.known)} tries are there already")
    local = TASKS_OF_A_WORKER * (workers.count or len(os.sched_getaffinity(0)))
    tasks = TASKS_OF_A_CLUSTER if workers.address else local
    with contextlib.ExitStack() as stack:
        begun: list[cluster.Play] = []

        def play(text: str, numbers: range) -> Sequence[Earned]:
            if not begun:  # nobody is started where all is there already
                begun.append(stack.enter_context(cluster.players(settings, words, workers)))
            tried = Tried(text, settings, numbers, tasks)
            begun[0]([tried], lambda _: None)
            return tried.earned()

        yield Trials(play, tries, lengths, workers.tell)
