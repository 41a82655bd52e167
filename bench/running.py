"""How a script of this folder begins and ends, which program it measures, and what scripts measure alike."""
import collections
import os
import subprocess
import sys
import time
from pathlib import Path

from nrm import Stop
from nrm.commands import running
from nrm.program import TOP, built_in, is_program, no_program

NAME = f"bench/{os.path.basename(sys.argv[0])}"


def words_of(manual, programs="?", **options):
    """The words of a script, whose head is its manual: its program, or several, and options as `add_argument` takes
    them."""
    words = running.parser(NAME, manual)
    words.add_argument("program", nargs=programs)
    for name, more in options.items():
        words.add_argument(f"--{name}", **more)
    return words.parse_args()


def end(main):
    """Runs a script and ends with its status."""
    sys.exit(running.status_of(NAME, lambda _: main() or 0, sys.argv[1:]))


def built(path=None, name="nrm"):
    """The path of a built program: the one that is given, else the one of some name that the sources are built into."""
    if path is None:
        found = built_in(TOP, name)
        if not found:
            raise no_program(TOP)
        return str(found)
    found = os.path.abspath(path)
    if not is_program(Path(found)):
        raise Stop(f"there is no program {found}")
    return found


def timed(words, **more):
    """The seconds that a run takes."""
    begun = time.perf_counter()
    subprocess.run(words, **{"stdin": subprocess.DEVNULL, "stdout": subprocess.DEVNULL, "check": True, **more})
    return time.perf_counter() - begun


def least_of(runs, rounds):
    """The least that each run gives, by its name: they take turns, so that what else the machine does falls on each."""
    found = [{name: run() for name, run in runs.items()} for _ in range(rounds)]
    return {name: min(it[name] for it in found) for name in runs}


def calls_in(path, names):
    """How often the calls of some names stand in a table that `strace -c` has written."""
    with open(path) as table:
        rows = [row.split() for row in table]
    return collections.Counter({row[-1]: int(row[3]) for row in rows if row and row[-1] in names})


if __name__ == "__main__":
    sys.exit(f"running.py: no tool, but a part of the scripts beside it: {__doc__}")
