"""What tests of many seasons have in common: the command as a process, schedulers with workers, rows of one process."""
from __future__ import annotations

import contextlib
import functools
import importlib.util
import os
import re
import subprocess
import sys
import unittest
from dataclasses import dataclass
from pathlib import Path
from typing import Iterator, Mapping, Sequence

import harness
from harness import EXAMPLES, IS_LONG, PlaceTest
from nrm import bytes_in
from nrm.network import Network
from nrm.program import Program
from nrm.seasons.drawing import Settings
from nrm.seasons.rows import batch_of, heads

LOG, HUB, SEASON = (str(EXAMPLES / it / "network.csv") for it in ("log", "hub", "season"))
SECONDS = 240  # in which what takes some seconds ends on a machine that does much else
NO_DASK = "there is no Dask (Debian's package is python3-distributed, for /usr/bin/python3)"
NOT_NAMED = "it takes a minute, and is run where NRM_LONG is set"
needs_dask = unittest.skipUnless(importlib.util.find_spec("distributed"), NO_DASK)
takes_long = unittest.skipUnless(IS_LONG, NOT_NAMED)


def by_one_process(program: Program, network: str, settings: Settings, count: int) -> str:
    """The file of rows that one process makes, without Dask."""
    batch = batch_of(bytes_in(network), settings, program.words, range(count))
    assert batch.why is None, batch.why
    return ",".join(heads(Network.read(network), settings)) + "\n" + batch.rows


wait_for = functools.partial(harness.wait_for, seconds=SECONDS)


@dataclass(frozen=True)
class Cluster:
    """The address of a scheduler on the loopback address, its process, and those of its workers."""
    address: str
    scheduler: subprocess.Popen[bytes]
    workers: list[subprocess.Popen[bytes]]


@contextlib.contextmanager
def dask(folder: Path, name: str, *words: str,
         env: Mapping[str, str] | None = None) -> Iterator[subprocess.Popen[bytes]]:
    """A process of Dask, a scheduler or a worker, killed at the end."""
    command = [sys.executable, "-m", f"distributed.cli.dask_{name}", "--scheduler-file",
               str(folder / "scheduler.json"), *words]
    without_nrm = {variable: it for variable, it in (env or os.environ).items() if variable != "PYTHONPATH"}
    with open(folder / "dask.log", "ab") as log:
        process = subprocess.Popen(command, stdout=log, stderr=log, cwd=folder, env=without_nrm)
    try:
        yield process
    finally:
        process.kill()
        process.wait()


@contextlib.contextmanager
def cluster(folder: Path, paths: Sequence[str | None] = (None, None), keys: Sequence[str] = ()) -> Iterator[Cluster]:
    """A scheduler with a worker for each path on which it finds programs, or None. No worker can import `nrm`."""
    words = ["--nthreads", "1", "--no-nanny", "--no-dashboard", "--host", "127.0.0.1", "--local-directory",
             str(folder), *keys]
    with contextlib.ExitStack() as stack:
        scheduler = stack.enter_context(dask(folder, "scheduler", "--host", "127.0.0.1", "--port", "0",
                                             "--no-dashboard", *keys))
        wait_for((folder / "scheduler.json").exists, "the scheduler")
        workers = [stack.enter_context(dask(folder, "worker", *words,
                                            env={**os.environ, "PATH": path or os.environ["PATH"]}))
                   for path in paths]
        log = folder / "dask.log"
        wait_for(lambda: log.read_text(errors="replace").count("Registered to") >= len(workers), "a worker")
        found = re.search(r'"address": "([^"]*)"', (folder / "scheduler.json").read_text())
        assert found
        yield Cluster(found[1], scheduler, workers)


def has_group(group: int) -> bool:
    """Whether a process of a group is left."""
    try:
        os.killpg(group, 0)
        return True
    except ProcessLookupError:
        return False


def processes_of(group: int) -> dict[int, str]:
    """The processes of a group, each with the words of its command line; one may end meanwhile."""
    found = {}
    for it in Path("/proc").iterdir():
        with contextlib.suppress(FileNotFoundError, ProcessLookupError):
            if it.name.isdigit() and int(it.joinpath("stat").read_text().rpartition(")")[2].split()[2]) == group:
                found[int(it.name)] = it.joinpath("cmdline").read_text()
    return found


def listening_ports(group: int) -> list[int]:
    """The ports on which the processes of a group listen."""
    sockets = set()
    for process in processes_of(group):
        with contextlib.suppress(FileNotFoundError, ProcessLookupError):
            for it in Path(f"/proc/{process}/fd").iterdir():
                sockets.add(os.readlink(it))
    rows = [line.split() for name in ("tcp", "tcp6") for line in Path(f"/proc/net/{name}").read_text().splitlines()[1:]]
    return sorted({int(row[1].rpartition(":")[2], 16) for row in rows if row[3] == "0A"
                   and f"socket:[{row[9]}]" in sockets})


class SimulateTest(PlaceTest):
    """A test that runs the command."""

    def begun(self, *words: object, program: Sequence[str] | None = None, **more: object) -> subprocess.Popen[bytes]:
        """The process of a run, with its own group."""
        return self.process("simulate", *words, "--program", *(program or self.program.words), stdout=subprocess.PIPE,
                            stderr=subprocess.PIPE, start_new_session=True, **more)

    def simulated(self, *words: object, **more: object) -> str:
        """The output of a run that ends with status 0."""
        return self.told("simulate", *words, *self.with_program, **{"timeout": SECONDS, **more})

    def slow(self) -> list[str]:
        """Words that run the program after a while."""
        return ["sh",
                self.file("slow", 'sleep 0.02\nexec %s "$@"\n' % " ".join(f"'{it}'" for it in self.program.words))]

    def rows_there(self, name: str) -> list[str]:
        """The rows that a run has kept so far."""
        part = self.folder / name / "network-seasons.part"
        return part.read_text().splitlines(keepends=True) if part.exists() else []

    def whole(self, name: str) -> str:
        """The rows that a run has written."""
        return (self.folder / name / "network-seasons.csv").read_text()

    def wait_for_rows(self, name: str, run: subprocess.Popen[bytes]) -> None:
        """Waits until a run has kept some rows, and sees that it isn't at its end."""
        wait_for(lambda: self.rows_there(name) or run.poll() is not None, "a row")
        self.assertIsNone(run.poll(), "in the middle")

    def told_by_a_line(self, run: subprocess.Popen[bytes], wanted: str) -> str:
        """What a run tells that must end with status 1, without a traceback, with a sentence that has a part wanted."""
        err = run.communicate(timeout=SECONDS)[1].decode()
        self.assertEqual((run.returncode, "Traceback" in err), (1, False), err)
        self.want_in(err.splitlines()[-1], "nrm-tools simulate: ")
        self.want_in(err, wanted)
        return err
