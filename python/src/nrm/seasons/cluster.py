"""Who plays many seasons: Dask's workers here or of a scheduler elsewhere, what they get and how long one waits.

They are sent this package, and what they give is taken only where the package and the program there are those here, to
the byte. It needs Dask: who plays asks for `distributed` first.
"""
from __future__ import annotations

import concurrent.futures
import contextlib
import functools
import logging
import os
import signal
import sys
import tempfile
import threading
import time
import uuid
import warnings
import zipfile
from dataclasses import dataclass
from typing import Any, Callable, Iterator, Protocol, Sequence, TypeVar

import distributed

from nrm import Stop, bytes_in
from nrm.program import Program
from nrm.seasons.drawing import Settings
from nrm.seasons.rows import PACKAGE, Batch, Maker, Seasons, maker, play_batch

TASKS_AHEAD = 3  # of each worker
ANSWER_SECONDS = 10  # in which a scheduler must answer
LATE = 30  # the seconds after which seasons that don't come back are told
LOOK_SECONDS = 0.01  # between looks for seasons that have come back
BEFORE_NRM = """
import sys

for name in [it for it in sys.modules if it.partition(".")[0] == "nrm"]:
    del sys.modules[name]
"""  # a worker may know the package of another run, and imports this before the one that stands beside it
Told = TypeVar("Told")
Client = Any  # Dask has no types
Keys = Any
Future = Any


@dataclass(frozen=True)
class Workers:
    """Where seasons are played.

    count     so many processes on this machine; None for as many as there are processors
    address   of the scheduler whose workers play instead, or None
    tls       the files of a certificate that signs for that scheduler, of our certificate and of our key, or None
    patience  the seconds without any seasons after which a run ends
    tell      tells a sentence on the way
    """
    count: int | None
    address: str | None
    tls: Sequence[str] | None
    patience: int
    tell: Callable[[str], None]


class WantedSeasons(Protocol):
    """Seasons on the bytes of a network file that are to be played, a task of numbers at a time, and are kept."""
    source: bytes

    def tasks(self) -> Iterator[list[int]]:
        """Numbers of seasons, as many at a time as one worker gets."""

    def keep(self, batch: Batch) -> None:
        """Keeps what was played of a task."""


# it tells on the way how many seasons are done
Play = Callable[[Sequence[WantedSeasons], Callable[[int], None]], "Spent"]


class Progress:
    """A bar on standard error, or if that is no terminal a line for each tenth."""

    def __init__(self, wanted: int, done: int, tell: Callable[[str], None]) -> None:
        self.wanted, self.done, self.before, self.begun, self.tell = wanted, done, done, time.monotonic(), tell
        self.is_bar, self.tenth = sys.stderr.isatty(), 10 * done // wanted

    def add(self, count: int) -> None:
        """Tells that so many seasons more are done."""
        self.done += count
        rate = (self.done - self.before) / max(0.001, time.monotonic() - self.begun)
        left = (self.wanted - self.done) / rate
        told = f"{self.done:,} of {self.wanted:,} seasons, {rate:,.0f} a second, {left:,.0f} s left"
        if self.is_bar:
            full = 30 * self.done // self.wanted
            print(f"\r[{'#' * full}{'.' * (30 - full)}] {told}\x1b[K", end="", file=sys.stderr, flush=True)
        elif 10 * self.done // self.wanted > self.tenth:
            self.tenth = 10 * self.done // self.wanted
            self.tell(told)

    def end(self) -> None:
        """Ends the line of a bar."""
        if self.is_bar:
            print(file=sys.stderr)


# A scheduler and its keys


def temporary_keys() -> Keys:
    """Keys of this run alone, in memory: without them neither the scheduler nor a worker that it starts answers."""
    try:
        return distributed.Security.temporary()
    except ImportError:
        raise Stop(f"{sys.executable} can't make keys for the workers; "
                   "`apt-get install python3-cryptography` installs what it needs")


def keys_of(workers: Workers, address: str) -> Keys:
    """The keys by which a scheduler at an address is asked; None where it takes none."""
    if not workers.tls:
        if not address.startswith("tls://"):
            workers.tell(f"{address} has no TLS: whoever reaches it can run anything on its workers and here")
        return None
    for path in workers.tls:
        bytes_in(path, 1)
    authority, certificate, key = workers.tls
    return distributed.Security(tls_ca_file=authority, tls_client_cert=certificate, tls_client_key=key,
                                require_encryption=True)


def client_of(workers: Workers, address: str) -> Client:
    """A client of the scheduler at an address."""
    keys = keys_of(workers, address)
    try:
        return distributed.Client(address, timeout=ANSWER_SECONDS, **({"security": keys} if keys else {}))
    except (OSError, ValueError, TypeError, RuntimeError):
        wants_keys = address.startswith("tls://")
        why = f" that takes {', '.join(workers.tls)}" if workers.tls else "; --tls names the keys" if wants_keys else ""
        raise Stop(f"there is no Dask scheduler at {address}{why}")


@contextlib.contextmanager
def cluster(workers: Workers) -> Iterator[Client]:
    """A client of a scheduler with workers: of the one at an address, or of one on this machine that ends with it."""
    logging.disable(logging.CRITICAL)  # what Dask tells of its own accord is told here in a sentence
    warnings.filterwarnings("ignore", module="distributed")
    if workers.address:
        with client_of(workers, workers.address) as client:
            yield client
        return
    with tempfile.TemporaryDirectory() as folder:
        # the workers inherit it: Ctrl-C is for this process to deal with
        before = signal.signal(signal.SIGINT, signal.SIG_IGN)
        try:
            keys = temporary_keys()
            local = distributed.LocalCluster(
                n_workers=workers.count or len(os.sched_getaffinity(0)), threads_per_worker=1, processes=True,
                dashboard_address=None, silence_logs=logging.CRITICAL, local_directory=folder, protocol="tls://",
                security=keys)
        finally:
            signal.signal(signal.SIGINT, before)
        with local, distributed.Client(local, security=keys) as client:
            yield client


# What workers are sent, and what they give


def within(seconds: float, work: Callable[..., Told], *words: object) -> Told:
    """What some work gives that may take so long, and not longer: it goes on in a thread that nobody waits for."""
    done: concurrent.futures.Future[Told] = concurrent.futures.Future()

    def do() -> None:
        try:
            done.set_result(work(*words))
        except Exception as fault:  # whatever it is, it is for who waits
            done.set_exception(fault)

    threading.Thread(target=do, daemon=True).start()
    return done.result(seconds)


def zipped(folder: str, package: dict[str, bytes]) -> str:
    """A zip of a package, of a name that no worker knows: Dask puts one that it knows behind those that came later."""
    path = os.path.join(folder, f"nrm-{uuid.uuid4()}.zip")
    with zipfile.ZipFile(path, "w", zipfile.ZIP_DEFLATED) as file:
        file.writestr("before_nrm.py", BEFORE_NRM)
        for name, data in package.items():
            file.writestr(f"nrm/{name}", data)
    return path


def send_package(client: Client, patience: float) -> None:
    """Gives the package to all workers, also to those that come later."""
    with tempfile.TemporaryDirectory() as folder:
        try:
            within(patience, client.upload_file, zipped(folder, PACKAGE))
        except concurrent.futures.TimeoutError:
            raise Stop(f"the workers don't take the tools within {patience} s: is one stopped? "
                       "--patience sets how long it may take")
        except Exception as fault:  # whatever Dask has met there
            raise Stop(f"the workers don't take the tools: {type(fault).__name__}, {fault}")


class Waiting:
    """The tasks that were given to workers and aren't back, and the patience with them."""

    def __init__(self, workers: Workers) -> None:
        self.ended = distributed.as_completed(with_results=True, raise_errors=False)
        self.patience, self.late, self.tell = workers.patience, min(LATE, workers.patience / 2), workers.tell
        self.studies: dict[Future, WantedSeasons] = {}
        self.since, self.is_told = time.monotonic(), False

    def add(self, future: Future, study: WantedSeasons) -> None:
        """Waits for a task too."""
        self.studies[future] = study
        self.ended.add(future)

    def next(self) -> tuple[WantedSeasons, object]:
        """The next task that comes back: its study, and what a worker gave or the fault that it met."""
        while not self.ended.has_ready():
            self.look()
            time.sleep(LOOK_SECONDS)
        future, told = next(self.ended)
        self.since, self.is_told = time.monotonic(), False
        return self.studies.pop(future), told

    def look(self) -> None:
        """Tells, once, that nothing has come back for a while, and stops where it is too long."""
        passed = time.monotonic() - self.since
        if passed > self.patience:
            raise Stop(f"no seasons have come back for {self.patience} s: is a worker stopped, lost or slow? "
                       "--patience sets how long the run waits for them; with --out the seasons that were done are "
                       "kept, and the same command continues from there")
        if passed > self.late and not self.is_told:
            self.is_told = True
            self.tell(f"no seasons have come back for {self.late:g} s; the run waits up to {self.patience} s")


def batch_told(told: object, here: Maker) -> Batch:
    """The batch that a worker gave; a Stop where it wasn't played, or by another program or package."""
    if not isinstance(told, dict):
        fault = told[1] if isinstance(told, tuple) else told
        if isinstance(fault, concurrent.futures.CancelledError):
            raise Stop("the scheduler has ended, or the connection to it")
        raise Stop(f"a worker gave no seasons: {type(fault).__name__}{f', {fault}' if str(fault) else ''}")
    batch = Batch.told(told)
    by = batch.maker
    for what, there, ours in (("other tools: their", by.package, here.package),
                              ("another program: its", by.program or here.program, here.program)):
        if there != ours:
            raise Stop(f"a worker on {by.machine} has {what} checksum there is {there}, and here {ours}")
    if batch.why:
        raise Stop(batch.why)
    return batch


# The engine


@dataclass
class Spent:
    """What the workers spent, in seconds: at work, and of that in the program."""
    at_work: float = 0.0
    in_program: float = 0.0


@contextlib.contextmanager
def players(settings: Settings, words: Sequence[str], workers: Workers) -> Iterator[Play]:
    """Workers that have the package and play by some settings, with the program of some words."""
    with cluster(workers) as client:
        send_package(client, workers.patience)
        yield functools.partial(played_all, client, settings, words, workers)


def played_all(client: Client, settings: Settings, words: Sequence[str], workers: Workers,
               studies: Sequence[WantedSeasons], done: Callable[[int], None]) -> Spent:
    """Plays what is to be played: so many tasks ahead of the workers, and as each ends its rows are kept."""
    tasks = ((study, numbers) for study in studies for numbers in study.tasks())
    spent, here, waiting = Spent(), maker(Program.found(words)), Waiting(workers)

    def submit() -> None:
        for study, numbers in tasks:
            waiting.add(client.submit(play_batch, study.source, settings, words, numbers, pure=False), study)
            return

    for _ in range(TASKS_AHEAD * max(1, len(client.scheduler_info()["workers"]))):
        submit()
    while waiting.studies:
        study, told = waiting.next()
        batch = batch_told(told, here)
        study.keep(batch)
        spent = Spent(spent.at_work + batch.seconds, spent.in_program + batch.in_program)
        done(batch.seasons)
        submit()
    return spent


def simulate(studies: Sequence[Seasons], settings: Settings, words: Sequence[str], workers: Workers) -> None:
    """Plays the seasons that aren't there yet, and tells what the time went to."""
    done, wanted = sum(len(it.rows) for it in studies), sum(it.wanted for it in studies)
    progress, begun = Progress(wanted, done, workers.tell), time.monotonic()
    try:
        with players(settings, words, workers) as play:
            spent = play(studies, progress.add)
    finally:
        progress.end()
        for it in studies:
            it.finish()
    workers.tell(f"{wanted - done:,} seasons in {time.monotonic() - begun:.1f} s; the workers were at work for "
                 f"{spent.at_work:.1f} s, {100 * spent.in_program / spent.at_work:.0f} % of it in nrm")
