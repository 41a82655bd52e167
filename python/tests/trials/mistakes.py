"""Mistakes that a trial must find: each an edit of the code's text, the check that is meant for it, and by what that
must find it."""
from __future__ import annotations

import os
import re
import shutil
import subprocess
import sys
from dataclasses import dataclass
from pathlib import Path
from typing import Mapping, Sequence, Tuple

from harness import TOP, PlaceTest, program

Edit = Tuple[str, str, str]  # the file, and a text in it with what stands in its place
LOST, TWICE = r"was told '.*' to '.*', and the journal has", r"line \d+: D\d+ \d+ after \d+"
TOLD = ("FAULT", "FAIL", "ERROR")  # how a line begins that tells what was found
BLIND = '''#!{python}
"""In place of the program: it is given, with each row of the journal, the reply that it will make itself."""
import os, subprocess, sys

mode, path = sys.argv[1:]
given, rows = sys.stdin.buffer, []
while size := int(given.readline().split()[1]):
    rows += given.read(size).splitlines()
rows = [it.split(b"\\t") for it in rows]
told = subprocess.run([*{nrm}, "run", mode, path], input=b"".join(it[3] + b"\\n" for it in rows), close_fds=False,
                      stdout=subprocess.PIPE).stdout.splitlines()
program = subprocess.Popen([*{desks}, mode, path], stdin=subprocess.PIPE, close_fds=False)
for row, reply in zip(rows, told):
    text = b"\\t".join([*row[:4], reply]) + b"\\n"
    program.stdin.write(b"again %d\\n" % len(text) + text)
program.stdin.write(b"again 0\\n")
program.stdin.flush()
while piece := given.read1():
    program.stdin.write(piece)
    program.stdin.flush()
program.stdin.close()
sys.exit(program.wait())
'''


@dataclass(frozen=True)
class Form:
    """A mistake: what is edited; the words for Python by which it must be found, those of a trial or of a test; the
    pattern of what is told then; and what stands in the place of `nrm_desks`, if anything."""
    edits: tuple[Edit, ...]
    check: tuple[str, ...]
    told: str
    program: str = ""


def place_of(file: str) -> Path:
    """Where a file is below the top, which is named from there, or within the package."""
    return Path(file if file.startswith("tests/") else f"python/src/{file}")


def not_there(form: Form) -> list[str]:
    """The edits of a form that aren't one of exactly one place: then the code has moved away from it."""
    counts = [(file, (TOP / place_of(file)).read_text().count(old), old) for file, old, _ in form.edits]
    return [f"{file} has {count} times {old!r}" for file, count, old in counts if count != 1]


def edited(form: Form, folder: Path) -> Path:
    """A copy of the package and its tests with a mistake; gives the folder of the tests."""
    if found := not_there(form):
        raise SystemExit(found[0])
    shutil.rmtree(folder, ignore_errors=True)
    for name in ("python", "tests"):
        shutil.copytree(TOP / name, folder / name, ignore=shutil.ignore_patterns("__pycache__", ".mypy_cache"))
    (folder / "examples").symlink_to(TOP / "examples")
    for file, old, new in form.edits:
        path = folder / place_of(file)
        path.write_text(path.read_text().replace(old, new))
    return folder / "python" / "tests"


def found_in(form: Form, folder: Path) -> tuple[bool, str]:
    """Whether a wrong form is found by the check that is meant for it, and what was told."""
    tests = edited(form, folder / "edited")
    nrm, desks = program().words, program("NRM_DESKS", "nrm_desks").words
    instead = folder / "instead"
    if form.program:
        instead.write_text(form.program.format(python=sys.executable, nrm=nrm, desks=desks))
        instead.chmod(0o755)
    variables = {"PYTHONPATH": f"{tests.parent / 'src'}:{tests.parents[1] / 'tests'}", "NRM_PROGRAM": " ".join(nrm),
                 "NRM_DESKS": str(instead) if form.program else " ".join(desks)}
    words = [it.format(folder=folder / "trial") for it in form.check]
    with open(folder / "told", "w+") as told:  # and no pipe, which a server that is left over would hold
        done = subprocess.run([sys.executable, "-m", *words], cwd=tests, env={**os.environ, **variables}, stdout=told,
                              stderr=subprocess.STDOUT)
        told.seek(0)
        lines = told.read().splitlines()
    faults = [it for it in lines if it.startswith(TOLD) or "Error" in it]
    meant = [it for it in faults if re.search(form.told, it)]
    return bool(meant and done.returncode), (meant or faults or lines or ["nothing was told"])[0]


def see_that_each_is_found(test: PlaceTest, forms: Mapping[str, Form]) -> None:
    """Sees as a test that each of some wrong forms is found."""
    test.assertTrue(test.program and test.desks_program)
    for name, form in forms.items():
        with test.subTest(name):
            is_found, why = found_in(form, test.folder)
            test.assertTrue(is_found, why)


def tried(forms: Mapping[str, Form], folder: Path, pattern: str = "") -> int:
    """Tries the wrong forms with a pattern in their names, tells whether each is found, and gives how many aren't."""
    missed = 0
    folder.mkdir(parents=True, exist_ok=True)
    for name, form in forms.items():
        if pattern in name:
            is_found, why = found_in(form, folder)
            missed += not is_found
            print(f"{'found ' if is_found else 'MISSED'}  {name}: {why[:200]}", flush=True)
    return missed


def main(forms: Mapping[str, Form], given: Sequence[str]) -> int:
    """The command of a file of wrong forms: a folder, and perhaps a pattern."""
    return 1 if tried(forms, Path(given[0]), *given[1:2]) else 0
