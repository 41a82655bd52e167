"""The rows that many seasons make: of a batch, which says who has played it, and of a network, kept as they come.

A batch is played by this machine or another, so it comes with the checksums of the program and of this package there,
and who asked for it compares.
"""
from __future__ import annotations

import contextlib
import dataclasses
import functools
import gc
import hashlib
import importlib.resources
import json
import os
import platform
import shutil
import tempfile
from dataclasses import dataclass
from pathlib import Path
from typing import IO, TYPE_CHECKING, Any, Iterable, Iterator, Mapping, Sequence

from nrm import Stop, bytes_in, said
from nrm.network import MOST_DIGITS, Network
from nrm.program import Program
from nrm.seasons.drawing import DrawnSeason, Settings
from nrm.seasons.playing import Outcome, Player, ProgramTime
from nrm.writing_files import Output, opened

if TYPE_CHECKING:
    from importlib.abc import Traversable  # later Pythons have it elsewhere

SECONDS_OF_A_TASK = 1.5
FIRST_TASK, LARGEST_TASK = 5, 2000  # seasons
FILES_REMEMBERED = 64  # by a process
OF_PACKAGE = (".py", ".html")


# Rows


def heads(network: Network, settings: Settings) -> list[str]:
    """The names of the columns of a row."""
    departs = settings.show is not None
    return ["season", "mode", "history", "requests", "bound", "revenue", "withheld",
            *(["denied", "empty"] if departs else []),
            "earned", *(f"booked {leg}" for leg in network.legs),
            *(f"shown {leg}" for leg in (network.legs if departs else ())),
            *(f"asked {product}" for product in network.products),
            *(f"refused {product}" for product in network.products)]


def rows_of_season(network: Network, settings: Settings, number: int, season: DrawnSeason,
                   outcomes: Mapping[str, Outcome]) -> Iterator[str]:
    """The row of each mode, as a line of CSV."""
    legs, products = list(network.legs), list(network.products)
    asked_for = numbers(season.asked, products)
    for mode, it in outcomes.items():
        boardings = [it.denied(network), it.empty(network)] if settings.show is not None else []
        cost = settings.denied_cost * boardings[0] if boardings else 0
        bound = "" if it.bound is None else f"{float(it.bound):.4f}"
        fields = [number, mode, season.history or "", sum(season.asked.values()), bound, it.revenue, it.withheld,
                  *boardings, it.revenue + it.withheld - cost, *numbers(it.booked, legs),
                  *(numbers(it.shown or {}, legs) if boardings else ()), *asked_for, *numbers(it.refused, products)]
        yield ",".join(map(str, fields)) + "\n"


def numbers(counts: Mapping[str, int], names: Sequence[str]) -> list[int]:
    """The numbers of some names; one that isn't there has 0."""
    return [counts.get(it, 0) for it in names]


# Who plays


def files_of(folder: Traversable, below: str = "") -> Iterator[tuple[str, bytes]]:
    """The files of a package by their names, always in one order, be it in a folder or in a zip."""
    for it in sorted(folder.iterdir(), key=lambda it: it.name):
        if it.is_dir():
            yield from files_of(it, f"{below}{it.name}/")
        elif it.name.endswith(OF_PACKAGE):
            yield below + it.name, it.read_bytes()


def sum_of_files(files: Mapping[str, bytes]) -> str:
    """The checksum of files with their names."""
    digest = hashlib.sha256()
    for name, data in files.items():
        digest.update(f"{name} {len(data)}\n".encode() + data)
    return digest.hexdigest()


PACKAGE = dict(files_of(importlib.resources.files("nrm")))  # as it was loaded
PACKAGE_SUM = sum_of_files(PACKAGE)


@dataclass(frozen=True)
class Maker:
    """Who plays seasons: a machine, and the checksums of the program and of the package there, or None."""
    machine: str
    program: str | None = None
    package: str | None = None


def maker(program: Program) -> Maker:
    """Who plays seasons here; the program's checksum is that of the file, or of all files, that its words name."""
    first = shutil.which(program.words[0])
    if not first:
        raise Stop(f"`{program.words[0]}` can't be run: it isn't there, or not on the path")
    files = [first, *[it for it in program.words[1:] if os.path.isfile(it)]]
    sums = [sum_of_file(it, state_of_file(it)) for it in files]
    of_all = sums[0] if len(sums) == 1 else hashlib.sha256("".join(sums).encode()).hexdigest()
    return Maker(platform.node(), of_all, PACKAGE_SUM)


def state_of_file(path: str) -> tuple[int, ...]:
    """What the system says of a file, which is otherwise once it has changed."""
    it = os.stat(path)
    return it.st_ino, it.st_size, it.st_mtime_ns, it.st_ctime_ns


@functools.lru_cache(FILES_REMEMBERED)
def sum_of_file(path: str, _: tuple[int, ...]) -> str:
    """The checksum of a file, read anew where its state is another."""
    return hashlib.sha256(Path(path).read_bytes()).hexdigest()


# Batches


@dataclass(frozen=True)
class Batch:
    """Seasons that were played: their rows, the seconds that took, those in the program, and by whom; or why not."""
    rows: str = ""
    seasons: int = 0
    seconds: float = 0.0
    in_program: float = 0.0
    why: str | None = None
    maker: Maker = Maker("a machine with another package")

    @classmethod
    def told(cls, fields: Mapping[str, Any]) -> Batch:
        """The batch of what a worker gives; where these aren't the fields of one, it has another package."""
        try:
            return dataclasses.replace(cls(**fields), maker=Maker(**fields["maker"]))
        except (TypeError, LookupError):
            return cls()


@contextlib.contextmanager
def no_collector() -> Iterator[None]:
    """Leaves out Python's search for garbage in cycles, which takes some per cent of the time: none is made here."""
    was_on = gc.isenabled()
    gc.disable()
    try:
        yield
    finally:
        if was_on:
            gc.enable()


def play_batch(source: bytes, settings: Settings, words: Sequence[str], numbers: Iterable[int]) -> dict[str, Any]:
    """The fields of the batch of some seasons on a network file's bytes, as plain as another package reads them."""
    return dataclasses.asdict(batch_of(source, settings, words, list(numbers)))


def batch_of(source: bytes, settings: Settings, words: Sequence[str], numbers: Sequence[int]) -> Batch:
    """Plays the seasons of some numbers. A Stop is given back as a text, since it may have far to go."""
    clock, rows, by = ProgramTime(), list[str](), Maker(platform.node(), package=PACKAGE_SUM)
    try:
        program = Program.found(words)
        by = maker(program)
        with tempfile.TemporaryDirectory() as folder, no_collector():
            player = Player(source, settings, program, folder, clock)
            for number in numbers:
                season = player.season(number)
                rows += rows_of_season(player.network, settings, number, season, player.outcomes(season))
        before, by = by, maker(program)
        if by.program != before.program:
            raise Stop(f"`{' '.join(words)}` on {by.machine} became another program meanwhile")
    except Stop as stop:
        return Batch(why=str(stop), maker=by)
    except OSError as fault:
        return Batch(why=f"`{' '.join(words)}` can't be run: {fault.strerror}", maker=by)
    return Batch("".join(rows), len(numbers), clock.passed(), clock.spent, maker=by)


# The rows of a network on disk


class Seasons:
    """The seasons of a network: which are wanted, and the rows of those that are done.

    Rows are added to a file as they come, NAME-seasons.part, and at the end they are put in the order of the seasons
    into NAME-seasons.csv. What both have is kept when a run goes on.
    """

    def __init__(self, name: str, path: str, settings: Settings, wanted: int, folder: str) -> None:
        self.name, self.source, self.network = name, bytes_in(path), Network.read(path)
        self.settings, self.wanted = settings, wanted
        if settings.leave_out and self.network.histories < 2:
            raise Stop(f"{said(path)} has one history, and --leave-out needs two: one to play and one to know")
        self.whole, self.part = (os.path.join(folder, f"{name}-seasons.{ending}") for ending in ("csv", "part"))
        self.size, self.rows = FIRST_TASK, dict[int, str]()
        self.file: IO[bytes] | None = None

    def go_on(self) -> None:
        """Reads the rows that are there already."""
        for path in (self.whole, self.part):
            if os.path.exists(path):
                with open(path, encoding="ascii", errors="replace") as file:
                    self.take(line for line in file if line.endswith("\n"))
        if max(self.rows, default=0) >= self.wanted:
            raise Stop(f"{said(self.whole)} has more seasons than the {self.wanted} that are asked for")

    def take(self, lines: Iterable[str]) -> None:
        """Takes rows, those of a season only if each mode is there."""
        found: dict[int, list[str]] = {}
        for line in lines:
            season = line.partition(",")[0]
            if season.isdecimal() and len(season) <= MOST_DIGITS:
                found.setdefault(int(season), []).append(line)
        self.rows.update({season: "".join(it) for season, it in found.items() if len(it) == len(self.settings.modes)})

    def tasks(self) -> Iterator[list[int]]:
        """Numbers of seasons that are to be played, as many at a time as fit into a task."""
        left = [it for it in range(self.wanted) if it not in self.rows]
        at = 0
        while at < len(left):
            numbers = left[at:at + self.size]
            at += len(numbers)
            yield numbers

    def keep(self, batch: Batch) -> None:
        """Keeps the rows of a batch, and learns from it how many seasons fit into a task."""
        self.take(batch.rows.splitlines(keepends=True))
        if self.file is None:
            self.file = opened(self.part, "ab")
        self.file.write(batch.rows.encode("ascii"))
        self.file.flush()
        self.size = max(1, min(LARGEST_TASK, round(SECONDS_OF_A_TASK * batch.seasons / batch.seconds)))

    def finish(self) -> None:
        """Writes the rows in the order of the seasons if all are there."""
        if self.file:
            self.file.close()
        if len(self.rows) == self.wanted:
            head = ",".join(heads(self.network, self.settings)) + "\n"
            with Output() as output:
                output.add(self.whole, head + "".join(self.rows[it] for it in range(self.wanted)), "ascii")
            with contextlib.suppress(FileNotFoundError):
                os.remove(self.part)


def check_same(folder: str, settings: Settings, studies: Sequence[Seasons]) -> None:
    """Sees that what a folder has was made by the same settings on the same networks, and notes those of this run."""
    path = os.path.join(folder, "settings.json")
    now = json.loads(json.dumps(dataclasses.asdict(settings)))
    digests = {it.name: hashlib.sha256(it.source).hexdigest() for it in studies}
    known: dict[str, str] = {}
    if os.path.exists(path):
        try:
            before = json.loads(bytes_in(path))
            known = before["networks"]
            settled = {**dataclasses.asdict(Settings()), **before["settings"]}  # an older run has fewer of them
            differ = [it for it in now if now[it] != settled[it]]
            differ += [it for it in digests if known.get(it, digests[it]) != digests[it]]
        except (ValueError, LookupError, TypeError):
            raise Stop(f"{said(path)} isn't what simulate writes")
        if differ:
            raise Stop(f"{said(folder)} has seasons of another run, which differs in: "
                       f"{', '.join(differ).replace('_', '-')}")
    with Output() as output:
        output.add(path, json.dumps({"settings": now, "networks": {**known, **digests}}, indent=1), "ascii")
