"""Network files tried on the same seasons, and what each season earned by each; what was tried is kept in a file.

Who plays is given, so that nothing here needs Dask.
"""
from __future__ import annotations

import dataclasses
import hashlib
import json
import os
import sys
import time
from typing import Callable, Iterator, Mapping, NamedTuple, Sequence

from nrm import Stop, bytes_in, said
from nrm.network import text_of
from nrm.seasons.drawing import Settings, network_in
from nrm.seasons.rows import Batch, heads
from nrm.writing_files import Output, opened

SECONDS_BETWEEN_LINES = 20  # where standard error is no terminal
Rows = Sequence[Sequence[object]]


class Earned(NamedTuple):
    """What a season earned in currency units, and how many boardings were denied; 0 where departures aren't played."""
    earned: int
    denied: int


class Tried:
    """A network file that is played in some seasons, in one mode, and what they earn."""

    def __init__(self, text: str, settings: Settings, numbers: range, tasks: int) -> None:
        self.source, self.numbers, self.count = text.encode(), numbers, tasks
        columns = heads(network_in(self.source)[0], settings)
        self.columns = [columns.index(it) for it in ("season", "earned", "denied") if it in columns]
        self.found: dict[int, Earned] = {}

    def tasks(self) -> Iterator[list[int]]:
        """The numbers of the seasons, in so many tasks, or in one each if they are fewer."""
        yield from (list(it) for at in range(self.count) if (it := self.numbers[at::self.count]))

    def keep(self, batch: Batch) -> None:
        """Keeps what the seasons of a task earned."""
        for line in batch.rows.splitlines():
            fields = line.split(",")
            number, *amounts = (int(fields[it]) for it in self.columns)
            self.found[number] = Earned(*amounts, *[0] * (len(Earned._fields) - len(amounts)))

    def earned(self) -> list[Earned]:
        """What each season earned, in their order."""
        return [self.found[it] for it in self.numbers]


Play = Callable[[str, range], Sequence[Earned]]  # what each season of some numbers earns on a network file's text


class Tries:
    """What was earned by each network file that was tried, by its text and the seasons: kept in a file, a line each.

    The first line says by what it was made. A run that was cut reads the rest, so it needn't play these again.
    """

    def __init__(self, path: str | None, made_by: Mapping[str, object]) -> None:
        self.path, self.known = path, dict[tuple[str, int, int], list[Earned]]()
        if path is None:
            return
        head = json.loads(json.dumps(made_by))
        if os.path.exists(path):
            self.read(path, head)
        lines = [json.dumps(head) + "\n", *(self.line(*key, earned) for key, earned in self.known.items())]
        with Output() as output:
            output.add(path, "".join(lines), "ascii")

    def read(self, path: str, head: Mapping[str, object]) -> None:
        """Takes the lines of a file; one that was cut at its end is left out."""
        try:
            before, *lines = bytes_in(path).decode().split("\n")[:-1]
            known = json.loads(before)
            differ = [it for it in head if known[it] != head[it]]
            for line in lines:
                it = json.loads(line)
                self.known[it["file"], it["first"], len(it["earned"])] = [
                    Earned(*pair) for pair in zip(it["earned"], it["denied"])]
        except (ValueError, LookupError, TypeError):
            raise Stop(f"{said(path)} isn't what a search writes")
        if differ:
            raise Stop(f"{said(path)} has tries of another run, which differs in: "
                       f"{', '.join(differ).replace('_', '-')}")

    @staticmethod
    def line(file: str, first: int, _: int, earned: Sequence[Earned]) -> str:
        """The line of a network file that was tried."""
        columns = {"earned": [it.earned for it in earned], "denied": [it.denied for it in earned]}
        return json.dumps({"file": file, "first": first, **columns}) + "\n"

    def of(self, text: str, numbers: range, play: Play) -> list[Earned]:
        """What seasons earn on a network file's text: as it is known, or as it is played now, and kept."""
        key = hashlib.sha256(text.encode()).hexdigest(), numbers.start, len(numbers)
        if key not in self.known:
            self.known[key] = list(play(text, numbers))
            if self.path is not None:
                with opened(self.path, "ab") as file:
                    file.write(self.line(*key, self.known[key]).encode("ascii"))
        return self.known[key]


def made_by(settings: Settings, source: bytes, program: str | None) -> dict[str, object]:
    """What tries depend on: the settings, the bytes of the network file, and the checksum of the program."""
    return {**dataclasses.asdict(settings), "network": hashlib.sha256(source).hexdigest(), "program": program}


class Field:
    """Some seasons, the same for each network file that is tried on them."""

    def __init__(self, play: Play, tries: Tries, numbers: range) -> None:
        self.play, self.tries, self.numbers = play, tries, numbers
        self.texts: set[str] = set()

    def of(self, rows: Rows) -> list[Earned]:
        """What each season earns on a network file of these rows."""
        text = text_of(rows)
        self.texts.add(text)
        return self.tries.of(text, self.numbers, self.play)

    def sum(self, rows: Rows) -> int:
        """What all seasons earn on it together."""
        return sum(it.earned for it in self.of(rows))


class ProgressLine:
    """How far a search is, on one line of a terminal, or else in a line now and then."""

    def __init__(self, tell: Callable[[str], None]) -> None:
        self.tell, self.begun, self.told, self.is_bar = tell, time.monotonic(), time.monotonic(), sys.stderr.isatty()

    def say(self, text: str) -> None:
        """Says how far it is."""
        now = time.monotonic()
        if self.is_bar:
            print(f"\r{text}, {now - self.begun:.0f} s\x1b[K", end="", file=sys.stderr, flush=True)
        elif now - self.told > SECONDS_BETWEEN_LINES:
            self.told = now
            self.tell(f"{text}, {now - self.begun:.0f} s")

    def end(self, text: str) -> None:
        """Says in a line of its own what is done."""
        if self.is_bar:
            print("\r\x1b[K", end="", file=sys.stderr)
        self.told = time.monotonic()
        self.tell(f"{text}, {self.told - self.begun:.0f} s")
