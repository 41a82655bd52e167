#!/usr/bin/env python3
"""How many bookings and cancellations a second `nrm_kept` keeps, beside the same rows put in and taken out by Python's
`sqlite3`.

    bench/kept.py [PROGRAM] [--folder FOLDER] [--lines N]

A stream books a seat and cancels a booking in turn, on 64 legs of 999 seats and 256 products, so that each line changes
the store; 100 bookings stand. It is sent in one piece, and line by line with each reply awaited. `sqlite3` does the
same inserts and deletes in WAL mode, each in a transaction of its own with synchronous=FULL. The store is in FOLDER,
which is a temporary one where it isn't given, and in /dev/shm, a disk in memory. Of each the best of three runs, which
take turns; N lines, 2,000 where it isn't given, and ten times as many in memory. Then, where there is `strace`, how
often each forces a file to the disk and writes to it for each line.
"""
import contextlib
import functools
import os
import shutil
import sqlite3
import subprocess
import sys
import tempfile
import time

import networks
from nrm import Stop
from running import built, calls_in, end, least_of, words_of

RUNS, LINES, STANDING, TRACED = 3, 2_000, 100, 400
PRODUCTS = 256
CALLS = ["pwrite64", "pread64", "fsync", "fdatasync", "ftruncate", "fcntl", "read", "write"]
MEMORY = "/dev/shm"
TABLE = "CREATE TABLE kept (number INTEGER PRIMARY KEY, product TEXT NOT NULL, party INTEGER NOT NULL) STRICT"


def changes(count):
    """The bookings that stand, and then a cancellation of the oldest one and a booking in turn: each a number to take
    out or none, and a product to book."""
    yield from ((None, f"P{at % PRODUCTS:03}") for at in range(STANDING))
    for at in range(count // 2):
        yield at + 1, None
        yield None, f"P{at % PRODUCTS:03}"


def lines(count):
    return [f"cancel {number}\n" if number else f"book {product} 1\n" for number, product in changes(count)]


def in_one_piece(words, count):
    begun = time.perf_counter()
    done = subprocess.run(words, input="".join(lines(count)).encode(), stdout=subprocess.PIPE, check=True)
    seconds = time.perf_counter() - begun
    if done.stdout.count(b"ok ") + done.stdout.count(b"cancelled ") != count + STANDING:
        raise Stop(f"`{' '.join(words)}` didn't keep every line: {done.stdout[-100:]!r}")
    return seconds


def awaited(words, count):
    with subprocess.Popen(words, stdin=subprocess.PIPE, stdout=subprocess.PIPE, bufsize=0) as process:
        begun = time.perf_counter()
        for line in lines(count):
            with contextlib.suppress(BrokenPipeError):  # the program has ended: then there is no reply either
                process.stdin.write(line.encode())
            if not (reply := os.read(process.stdout.fileno(), 100)).startswith((b"ok ", b"cancelled ")):
                raise Stop(f"`{' '.join(words)}` didn't keep {line!r}: {reply!r}")
        return time.perf_counter() - begun


def by_sqlite(path, count):
    """The same with Python's own library."""
    with contextlib.closing(sqlite3.connect(path, isolation_level=None)) as connection:
        for statement in "PRAGMA journal_mode=WAL", "PRAGMA synchronous=FULL", "PRAGMA locking_mode=EXCLUSIVE", TABLE:
            connection.execute(statement)
        begun, last = time.perf_counter(), 0
        for number, product in changes(count):
            if number:
                connection.execute("DELETE FROM kept WHERE number = ?", [number])
            else:
                last += 1
                connection.execute("INSERT INTO kept (number, product, party) VALUES (?, ?, ?)", [last, product, 1])
        return time.perf_counter() - begun


def ways(program, network):
    """How each way is run on a store of a path."""
    words = [program, "first", network]
    return {"nrm_kept, each reply awaited": lambda path, count: awaited([*words, path], count),
            "nrm_kept, in one piece": lambda path, count: in_one_piece([*words, path], count), "sqlite3": by_sqlite}


def timed(run, folder, count):
    with tempfile.TemporaryDirectory(dir=folder) as place:
        return run(os.path.join(place, "STORE"), count)


def tell_times(name, runs, folder, count):
    least = least_of({it: functools.partial(timed, run, folder, count) for it, run in runs.items()}, RUNS)
    for it, seconds in least.items():
        print(f"on {name}, {it}: {(count + STANDING) / seconds:,.0f} lines a second ({seconds / least['sqlite3']:.2f})",
              flush=True)


def tell_calls(program, network, folder):
    """How many calls a line makes, less those of a run with no further line."""
    if not shutil.which("strace"):
        print("there is no strace, so the calls of the system are not counted")
        return
    runs = {"nrm_kept": [program, "first", network], "sqlite3": [sys.executable, os.path.abspath(__file__), "--alone"]}
    for name, words in runs.items():
        few, many = (calls(words, folder, count) for count in (0, TRACED))
        told = {call: (many[call] - few[call]) / TRACED for call in sorted(many)
                if many[call] - few[call] > TRACED / 50}
        print(f"{name}, for each line: " + ", ".join(f"{number:.2f} {call}" for call, number in told.items()))


def calls(words, folder, count):
    """How often a run makes each call that is about a store."""
    with tempfile.TemporaryDirectory(dir=folder) as place:
        told, store = os.path.join(place, "CALLS"), os.path.join(place, "STORE")
        trace = ["strace", "-f", "-c", "-o", told, "-e", f"trace={','.join(CALLS)}"]
        text = "".join(lines(count)).encode() if "--alone" not in words else b""
        more = [store, str(count)] if "--alone" in words else [store]
        subprocess.run([*trace, *words, *more], input=text, stdout=subprocess.DEVNULL, check=True)
        return calls_in(told, CALLS)


def main():
    if sys.argv[1:2] == ["--alone"]:  # what is traced of `sqlite3`
        by_sqlite(sys.argv[2], int(sys.argv[3]))
        return
    given = words_of(__doc__, folder={}, lines={"type": int, "default": LINES})
    program = built(given.program, "nrm_kept")
    with tempfile.TemporaryDirectory() as folder:
        network = os.path.join(folder, "NETWORK")
        networks.wide().write(network)
        tell_times("a file", ways(program, network), given.folder, given.lines)
        if os.path.isdir(MEMORY):
            tell_times("a disk in memory", ways(program, network), MEMORY, 10 * given.lines)
        tell_calls(program, network, given.folder)


if __name__ == "__main__":
    end(main)
