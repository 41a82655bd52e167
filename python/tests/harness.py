"""One harness for all tests: a place with files, in which commands are run, and the program that they run.

The program is named by NRM_PROGRAM, whose words may be those of the script `nrm` at the top or of `tests/reference.py`,
and `nrm_desks` by NRM_DESKS and `nrm_why` by NRM_WHY in the same way; else each is the one that the commands find. Where
there is none, the tests that come to need it are skipped, as the last line of the run tells.
"""
from __future__ import annotations

import contextlib
import functools
import io
import os
import shlex
import subprocess
import sys
import tempfile
import threading
import time
import unittest
from pathlib import Path
from typing import Callable, NamedTuple, TypeVar
from unittest import mock

from nrm import Stop
from nrm.__main__ import main
from nrm.libraries import is_there
from nrm.program import Program

TOP = Path(__file__).resolve().parents[2]
EXAMPLES, SOURCES = TOP / "examples", TOP / "python" / "src"
SECONDS = 60
MOST_SHOWN = 600
BLINDED = ("matplotlib", "jinja2")
IS_LONG = bool(os.environ.get("NRM_LONG"))  # whether what takes a minute is tested too
Test = TypeVar("Test")


@functools.lru_cache(None)
def program(variable: str = "NRM_PROGRAM", name: str = "nrm") -> Program:
    """The program that is tested with; no test may pass without one that is named."""
    given = shlex.split(os.environ.get(variable, ""))
    try:
        return Program.found([os.path.abspath(TOP / it) if (TOP / it).exists() else it for it in given], name)
    except Stop as why:
        if given:
            raise
        raise unittest.SkipTest(str(why))


def needs(*libraries: str) -> Callable[[Test], Test]:
    """Has a test skipped where one of some libraries isn't there."""
    without = [it for it in libraries if not is_there(it)]
    names, packages = " and no ".join(without), " and ".join(f"python3-{it}" for it in without)
    return unittest.skipIf(without, f"there is no {names} (Debian has {packages})")


def wait_for(condition: Callable[[], object], what: str, seconds: float = SECONDS) -> None:
    """Waits for something, but not for long."""
    until = time.monotonic() + seconds
    while not condition():
        if time.monotonic() > until:
            raise AssertionError(f"{what} doesn't come")
        time.sleep(0.01)


def meanwhile(call: Callable[..., object], *values: object) -> threading.Thread:
    """A thread that makes a call while the test goes on, which it doesn't keep from ending."""
    thread = threading.Thread(target=call, args=values, daemon=True)
    thread.start()
    return thread


class Done(NamedTuple):
    """How a command ended: what it wrote, what it told on standard error, and its status."""
    out: str
    err: str
    status: int


class PlaceTest(unittest.TestCase):
    """A test in a folder of its own."""
    maxDiff = 2000

    def setUp(self) -> None:
        folder = tempfile.TemporaryDirectory()
        self.addCleanup(folder.cleanup)
        self.folder = Path(folder.name)

    def file(self, name: str, content: str | bytes) -> str:
        """Writes a file, and gives its path."""
        path = self.folder / name
        path.write_bytes(content if isinstance(content, bytes) else content.encode())
        return str(path)

    def blind(self, *libraries: str) -> dict[str, str]:
        """An environment without some libraries, or with neither matplotlib nor jinja2, which take long to draw."""
        blinded = self.folder / "-".join(["blind", *libraries])
        blinded.mkdir(exist_ok=True)
        for name in libraries or BLINDED:
            (blinded / f"{name}.py").write_text("raise ImportError")
        return {**os.environ, "PYTHONPATH": str(blinded)}

    def want_in(self, text: str, wanted: str) -> None:
        """Sees that a text is in another, of which the end is told where it isn't."""
        if wanted not in text:
            self.fail(f"wanted {wanted!r} in {text[-MOST_SHOWN:]!r}")

    def process(self, name: str, *words: object, **more: object) -> subprocess.Popen[bytes]:
        """A command as a process."""
        return subprocess.Popen([sys.executable, SOURCES, name, *map(str, words)],
                                **{"cwd": self.folder, "env": self.blind(), **more})

    def finished(self, *words: object, **more: object) -> Done:
        """Words that were run in the folder."""
        done = subprocess.run([*map(str, words)], capture_output=True,
                              **{"cwd": self.folder, "timeout": SECONDS, **more})
        return Done(done.stdout.decode(), done.stderr.decode(), done.returncode)

    def bench(self, name: str, *words: object, seconds: float = 4 * SECONDS) -> Done:
        """A script of bench/ that was run, as its manual writes it but for the folder; one makes a million lines."""
        return self.finished(sys.executable, "-B", TOP / "bench" / f"{name}.py", *words, timeout=seconds)

    def ran(self, name: str, *words: object, **more: object) -> Done:
        """A command that was run in the folder."""
        return self.finished(sys.executable, SOURCES, name, *words, **{"env": self.blind(), **more})

    def told(self, name: str, *words: object, **more: object) -> str:
        """The output of a command that ends with status 0."""
        done = self.ran(name, *words, **more)
        self.assertEqual(done.status, 0, f"{name}: {done.err or done.out}")
        return done.out

    def stopped(self, name: str, *words: object, status: int = 1, says: str = "", **more: object) -> str:
        """What a command tells on standard error that must end with a status, name itself, and say something."""
        done = self.ran(name, *words, **more)
        names_itself = done.err.startswith((f"nrm-tools {name}: ", f"usage: nrm-tools {name}"))
        found = done.status, names_itself, "Traceback" in done.err
        self.assertEqual(found, (status, True, False), f"{name} {done.err!r}")
        self.want_in(done.err, says)
        return done.err

    # What needs the program: a test that comes to it is skipped where there is none

    @property
    def program(self) -> Program:
        return program()

    @property
    def desks_program(self) -> Program:
        return program("NRM_DESKS", "nrm_desks")

    @property
    def why_program(self) -> Program:
        return program("NRM_WHY", "nrm_why")

    @property
    def with_program(self) -> list[str]:
        return ["--program", *self.program.words]

    def nrm(self, *words: object, given: bytes = b"", status: int = 0) -> str:
        """What a run of the program writes, which must end with a status."""
        done = self.finished(*self.program.words, *words, input=given)
        self.assertEqual(done.status, status, f"nrm {words}")
        return done.out


class WithinTest(PlaceTest):
    """A test whose commands run within this process, since they are many."""

    def setUp(self) -> None:
        super().setUp()
        self.addCleanup(os.chdir, os.getcwd())
        os.chdir(self.folder)

    def ran(self, name: str, *words: object, **more: object) -> Done:
        """A command that was run in the folder."""
        if more:
            return super().ran(name, *words, **more)
        out, err = io.StringIO(), io.StringIO()
        with contextlib.redirect_stdout(out), contextlib.redirect_stderr(err), mock.patch("os.execv"):
            status = main([name, *map(str, words)])
        return Done(out.getvalue(), err.getvalue(), status)

    def exited(self, *words: object) -> Done:
        """A command whose words are refused before it begins."""
        err = io.StringIO()
        with contextlib.redirect_stderr(err), self.assertRaises(SystemExit) as ended:
            main([*map(str, words)])
        return Done("", err.getvalue(), int(ended.exception.code or 0))
