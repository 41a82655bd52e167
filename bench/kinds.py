#!/usr/bin/env python3
"""How many instructions each kind of line and of job takes, whatever else the machine does.

    bench/kinds.py [PROGRAM ..] [--only WORD]

Each is run under `valgrind --tool=callgrind`, which counts the instructions of the program and of its libraries. Of a
line it is what many lines of its kind add to the same stream without them, by their number; of a job, all that the
process does. With several programs each has a column. With --only the rows are those whose text has the word.
"""
import contextlib
import os
import re
import shutil
import subprocess
import tempfile

import mixed
import networks
from nrm import Stop
from running import built, end, words_of

LINES = 20_000
MIXED_LINES = 40_000
SOLVES = 10


def instructions(words, stream):
    """The instructions of a run on the lines of a stream; a file may be refused."""
    with tempfile.NamedTemporaryFile("w+") as given:
        given.writelines(line + "\n" for line in stream)
        given.seek(0)
        done = subprocess.run(["valgrind", "--tool=callgrind", "--callgrind-out-file=/dev/null", *words], stdin=given,
                              stdout=subprocess.DEVNULL, stderr=subprocess.PIPE, text=True)
    found = re.search(r"Collected : (\d+)", done.stderr)
    if done.returncode not in (0, 3) or not found:
        raise Stop(f"`{' '.join(words)}` under valgrind ended with status {done.returncode}")
    return int(found.group(1))


def booked(count):
    return [f"book P{at % 256:03} 1" for at in range(count)]


def cancelled(standing, first):
    """So many bookings, and then in turn the cancellation of one and a booking more: of the oldest, or from a place
    on."""
    return [line for at in range(LINES // 2)
            for line in (f"cancel {first + at + 1}", f"book P{(standing + at) % 256:03} 1")]


class Bench:
    """The networks, in files of a folder, and the programs."""

    def __init__(self, folder, programs):
        self.programs = programs
        self.files = {}
        for name, network in ("hub", networks.hub()), ("limits", networks.limits()), ("wide", networks.wide()):
            self.files[name] = os.path.join(folder, name)
            network.write(self.files[name])
        self.newlines = os.path.join(folder, "newlines")
        with open(self.newlines, "w") as out:
            out.write("\n" * 4_194_304)
        self.mixes = {}

    def line(self, network, before, more, mode="first"):
        """Of one line: what these add behind those before them."""
        words = ["run", mode, self.files[network]]
        return [(instructions([it, *words], before + more) - instructions([it, *words], before)) / len(more)
                for it in self.programs]

    def mix(self, network, mode):
        key = network, mode
        if key not in self.mixes:
            shape = {"hub": networks.hub, "limits": networks.limits}[network]()
            self.mixes[key] = list(mixed.mixed(self.programs[0], mode, self.files[network], shape, MIXED_LINES))
        return self.line(network, [], [line for line in self.mixes[key] if not line.startswith("reoptimise")], mode)

    def job(self, *words):
        """Of a whole process, in millions."""
        return [instructions([it, *words], []) / 1e6 for it in self.programs]

    def solves(self, mode, before=(), line="reoptimise 1"):
        """Of one line that solves a program, in millions."""
        return [count / 1e6 for count in self.line("limits", list(before), [line] * SOLVES, mode)]


def rows(bench):
    """Each row's text, and the call that counts."""
    hub, limits = bench.files["hub"], bench.files["limits"]
    full = [f"book I{at % 10:02} 4" for at in range(600)]
    yield "a request that is accepted", lambda: bench.line("wide", [], booked(LINES))
    yield "a request that a leg refuses", lambda: bench.line("hub", full, ["book I01 4"] * LINES)
    yield "a request for an unknown product", lambda: bench.line("hub", [], ["book NONE 1"] * LINES)
    for standing in 100, 10_000, 60_000:
        for place, first in ("the oldest", 0), ("from the middle", standing // 2):
            yield (f"cancel {place} and book, {standing:,} standing",
                   lambda n=standing, at=first: bench.line("wide", booked(n), cancelled(n, at)))
    yield "hub: `leg`", lambda: bench.line("hub", full, ["leg I01"] * LINES)
    yield "a bad line", lambda: bench.line("hub", [], ["status"] * LINES)
    for network in "hub", "limits":
        for mode in "first", "bid", "davn":
            yield f"{network}, {mode}: a mix that cancels any booking", lambda n=network, m=mode: bench.mix(n, m)
    for mode in "bid", "davn":
        yield f"limits, {mode}: `reoptimise`, millions", lambda m=mode: bench.solves(m)
    yield "limits: `hindsight`, millions", lambda: bench.solves("first", bench_requests(), "hindsight")
    yield "limits: `plan first`, millions", lambda: bench.job("plan", "first", limits)
    yield "limits: `plan bid`, millions", lambda: bench.job("plan", "bid", limits)
    yield "limits: `print`, millions", lambda: bench.job("print", limits)
    yield "a file of newlines alone, millions", lambda: bench.job("print", bench.newlines)
    yield "limits: `cuts` of a leg in ten groups, millions", lambda: bench.job("cuts", limits, "L00", "10")
    yield "hub: `plan davn`, millions", lambda: bench.job("plan", "davn", hub)


def bench_requests():
    """Requests for every product of the limits."""
    return [f"book P{at % 256:03} {1 + at % 9}" for at in range(4_096)]


def main():
    given = words_of(__doc__, "*", only={"default": ""})
    if not shutil.which("valgrind"):
        raise Stop("there is no valgrind here; Debian has it in the package of that name")
    programs = [built(it) for it in given.program] or [built(None)]
    with tempfile.TemporaryDirectory() as folder, contextlib.suppress(KeyboardInterrupt):
        bench = Bench(folder, programs)
        for text, count in rows(bench):
            if given.only in text:
                print(f"{text:52}" + "".join(f"{it:14,.1f}" for it in count()), flush=True)


if __name__ == "__main__":
    end(main)
