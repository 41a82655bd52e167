#!/usr/bin/env python3
"""How long it takes to plan by bid prices, beside other solvers of linear programs.

    bench/plan.py [PROGRAM] [--before PROGRAM]

`nrm plan bid FILE` runs on four networks, and on their linear programs those of these that are installed: `glpsol`
(Debian's glpk-utils), exactly and in floating point, and `esolver` (Debian's qsopt-ex), which is exact; with --before
another build of `nrm` too. They are whole processes, which take turns, so that what else the machine does falls on
each. Of each, the least of nine runs, and how many times as long as it the program takes; and whether the values agree.
The pivots are counted by `tests/reference.py`; a pivot's time is what `plan bid` takes longer than `plan first`, which
reads the file and solves nothing, shared among them. Last, `gen davn 1`, which solves five programs.
"""
import functools
import importlib.util
import os
import re
import shutil
import subprocess
import sys
import tempfile
from fractions import Fraction

import networks
from nrm import Stop
from running import built, end, least_of, timed, words_of

TOP = os.path.dirname(os.path.dirname(os.path.abspath(__file__)))

RUNS = 9
SOLVERS = {"glpsol --exact": ["glpsol", "--exact", "--lp", "PROGRAM"], "glpsol": ["glpsol", "--lp", "PROGRAM"],
           "esolver": ["esolver", "-L", "PROGRAM"]}
# the option for a file, and the value in it
VALUE = {"glpsol": ("-o", r"Objective: .* = (\S+)"), "esolver": ("-O", r"Value = (\S+)")}


def reference():
    spec = importlib.util.spec_from_file_location("reference", os.path.join(TOP, "tests", "reference.py"))
    module = importlib.util.module_from_spec(spec)
    spec.loader.exec_module(module)
    return module


def pivots_of(path, rules):
    with open(path, "rb") as file:
        tableau = rules.Tableau(rules.Program.to_come(rules.network_of(file.read())))
    count = 0
    while (column := tableau.entering()) is not None:
        tableau.pivot(column)
        count += 1
    return count


def write_program(folder):
    """Writes the linear program of the network file, by the writer that the auditor has."""
    with open(os.path.join(folder, "PROGRAM"), "wb") as file:
        subprocess.run([sys.executable, os.path.join(TOP, "python", "src"), "lp", "NETWORK"], cwd=folder,
                       stdout=file, check=True)


def quietly(folder):
    """How a solver runs in a folder."""
    return {"cwd": folder, "stderr": subprocess.DEVNULL}


def value_of_plan(program, folder, histories):
    out = subprocess.run([program, "plan", "bid", "NETWORK"], cwd=folder, capture_output=True, check=True).stdout
    found = re.match(rb"value (\d+/[1-9]\d*)\n", out)
    if not found:
        raise Stop(f"`{program} plan bid` writes no plan")
    return histories * Fraction(found[1].decode())


def value_of_solver(words, folder):
    option, value = VALUE[words[0]]
    timed([words[0], option, "SOLVED", *words[1:]], **quietly(folder))
    with open(os.path.join(folder, "SOLVED")) as file:
        found = re.search(value, file.read())
    if not found:
        raise Stop(f"`{' '.join(words)}` writes no value")
    return Fraction(found[1])


def compared(name, network, programs, rules, folder):
    network.write(os.path.join(folder, "NETWORK"))
    write_program(folder)
    own, before = programs
    commands = {"nrm plan bid": [own, "plan", "bid", "NETWORK"], "nrm plan first": [own, "plan", "first", "NETWORK"]}
    if before:
        commands["the build before"] = [before, "plan", "bid", "NETWORK"]
    commands.update({it: words for it, words in SOLVERS.items() if shutil.which(words[0])})
    value = value_of_plan(own, folder, network.histories)
    pivots = pivots_of(os.path.join(folder, "NETWORK"), rules)
    print(f"{name}: legs {len(network.legs)}, products {len(network.products)}, histories {network.histories}, "
          f"periods {network.periods}, value of all histories {value}")
    least = least_of({it: functools.partial(timed, words, **quietly(folder)) for it, words in commands.items()}, RUNS)
    whole, reading = least.pop("nrm plan bid"), least.pop("nrm plan first")
    print(f"    nrm plan bid: {whole * 1e3:.1f} ms, of which {reading * 1e3:.1f} without solving; "
          f"{pivots} pivots, {(whole - reading) / pivots * 1e6:.1f} microseconds each")
    for it, other in least.items():
        agrees = it not in SOLVERS or abs(value_of_solver(commands[it], folder) - value) <= 1e-6 * max(1, value)
        print(f"    {it}: {other * 1e3:.1f} ms, ratio {whole / other:.2f}{'' if agrees else ', and another value'}")


def main():
    given = words_of(__doc__, before={"metavar": "PROGRAM"})
    programs = [built(given.program), given.before and built(given.before)]
    rules = reference()
    for name, network in (("hub", networks.hub()), ("limits", networks.limits()),
                          ("random legs", networks.random_legs()), ("long path", networks.long_path())):
        with tempfile.TemporaryDirectory() as folder:
            compared(name, network, programs, rules, folder)
    least = least_of({"gen": lambda: timed([programs[0], "gen", "davn", "1"])}, RUNS)
    print(f"gen davn 1: {least['gen'] * 1e3:.1f} ms")


if __name__ == "__main__":
    end(main)
