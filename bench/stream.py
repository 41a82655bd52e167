#!/usr/bin/env python3
"""How fast the program answers a stream, in how many calls of the system, and with how much memory.

    bench/stream.py [PROGRAM] [--limit]

The stream has a million lines on a hub of 20 legs and 120 products: 70 in 100 book, 25 cancel, 4 leg, and 1 is bad or
names what isn't there; at each quarter the plan is made anew. It comes as a file, and through a pipe in pieces of 1, 64
and 4,096 bytes, of which each is read apart; in pieces of 1 it is 20,000 lines. Each mode runs beside an `awk` that
writes a line for each line, in turn: of each the least of five runs, and how many times as long as `awk` the program
takes. Then, where there is `strace`, how often the program reads and writes, in mode `bid`. Then the most memory that
it had, after 100,000 and after 10,000,000 lines that are made as they are sent.

With --limit it is also sent 4 GiB in lines of a mebibyte, as many as it takes; the same and one byte more, which is too
long; and the same with one byte more in front, so that the last line has no end within the limit.
"""
import contextlib
import functools
import os
import random
import shutil
import subprocess
import tempfile
import threading
import time

import networks
from nrm import Stop
from running import built, calls_in, end, least_of, words_of

RUNS = 5
LINES, FEWER_LINES = 1_000_000, 20_000
MODES = ["first", "bid", "davn"]
WAYS = {"a file": None, "pieces of 4,096": 4_096, "pieces of 64": 64, "pieces of 1": 1}
MEBIBYTE = 2**20


def lines(network, count):
    """The cancellations go through the bookings in their order, so that most of them find one that stands."""
    draw = random.Random(3)
    products, legs = [name for name, _, _ in network.products], [name for name, _ in network.legs]
    rest = ["book NONE 1", "leg NONE", "cancel 0", "book I01 0", "book  I01 1", "", "status"]
    cancelled = 0
    for at in range(1, count + 1):
        kind = draw.random()
        if at * 4 % count == 0 and at < count:
            yield f"reoptimise {at * 4 // count + 1}\n"
        elif kind < 0.70:
            yield f"book {draw.choice(products)} {int(kind * 1000) % 4 + 1}\n"
        elif kind < 0.95:
            cancelled += 1
            yield f"cancel {cancelled}\n"
        elif kind < 0.99:
            yield f"leg {draw.choice(legs)}\n"
        else:
            yield draw.choice(rest) + "\n"


def send(end, pieces):
    """Sends pieces, until there are no more or nobody takes them."""
    with contextlib.suppress(BrokenPipeError), end:
        for piece in pieces:
            end.write(piece)


def pieces_of(stream, size):
    return (stream[at:at + size] for at in range(0, len(stream), size))


def timed(words, path, size):
    """The seconds that a run takes on a file, or on a pipe that keeps its pieces apart."""
    with open(path, "rb") as given:
        if size is not None:
            pieces, (out, end) = pieces_of(memoryview(given.read()), size), os.pipe2(os.O_DIRECT | os.O_CLOEXEC)
            feeder = threading.Thread(target=send, args=(open(end, "wb", buffering=0), pieces))
            given = open(out, "rb")
        begun = time.perf_counter()
        process = subprocess.Popen(words, stdin=given, stdout=subprocess.DEVNULL)
        if size is not None:
            given.close()
            feeder.start()
        if status := process.wait():
            raise subprocess.CalledProcessError(status, words)
        return time.perf_counter() - begun


def calls(words, path, size, folder):
    """How often a run reads and writes."""
    told = os.path.join(folder, "CALLS")
    timed(["strace", "-f", "-c", "-o", told, "-e", "trace=read,write", *words], path, size)
    return ", ".join(f"{count:,} calls of {name}" for name, count in calls_in(told, ("read", "write")).items())


def most_memory(words, made):
    """The most that a run has had, in KiB. It is asked while it waits after its last reply: what `wait4` tells later is
    no less than what this script has."""
    process = subprocess.Popen(words, stdin=subprocess.PIPE, stdout=subprocess.PIPE)
    threading.Thread(target=send, args=(os.fdopen(os.dup(process.stdin.fileno()), "wb"), made)).start()
    last = b""
    while b"hindsight " not in last:
        piece = os.read(process.stdout.fileno(), MEBIBYTE)
        if not piece:
            raise Stop(f"`{' '.join(words)}` ended before its last reply")
        last = last[-20:] + piece
    with open(f"/proc/{process.pid}/status") as status:
        most = next(row.split()[1] for row in status if row.startswith("VmHWM"))
    process.communicate()
    return int(most)


def at_the_limit(words, before, after, status, replies):
    """Sends as many mebibytes as may come, each a line, and something before or after them."""
    line = b"x" * (MEBIBYTE - 1) + b"\n"
    process = subprocess.Popen(words, stdin=subprocess.PIPE, stdout=subprocess.PIPE)
    begun = time.perf_counter()
    feeder = threading.Thread(target=send, args=(process.stdin, [before] + 4096 * [line] + [after]))
    feeder.start()
    out = process.stdout.read()
    seconds = time.perf_counter() - begun
    feeder.join()
    if (process.wait(), out) != (status, replies * b"bad\n"):
        raise Stop(f"`{' '.join(words)}` ended with status {process.returncode} and {len(out)} bytes of replies, and "
                   f"not with {status} and {replies} replies")
    return f"{seconds:.1f} s, status {status} after the replies to {replies:,} lines"


def tell_times(runs, stream_of):
    for way, size in WAYS.items():
        calls = {it: functools.partial(timed, words, stream_of(size), size) for it, words in runs.items()}
        least = least_of(calls, RUNS)
        told = [f"{it} {seconds * 1e3:.0f} ms ({seconds / least['awk']:.2f})" for it, seconds in least.items()]
        print(f"as {way}: {', '.join(told)}")


def tell_calls(words, stream_of, folder):
    if not shutil.which("strace"):
        print("there is no strace, so the calls of read and write are not counted")
        return
    for way, size in WAYS.items():
        print(f"as {way}: nrm run bid has {calls(words, stream_of(size), size, folder)}")


def tell_memory(run, words, network):
    for count in 100_000, 10_000_000:
        made = (line.encode() for some in (lines(network, count), ["hindsight\n"]) for line in some)
        print(f"{run}, {count:,} lines: at most {most_memory(words, made):,} KiB of memory")


def tell_limit(words):
    for before, after, status, replies in (b"", b"", 0, 4096), (b"", b"x", 8, 4096), (b"x", b"", 8, 4095):
        told = at_the_limit(words, before, after, status, replies)
        print(f"{4096 * MEBIBYTE + len(before) + len(after):,} bytes: {told}")


def main():
    given = words_of(__doc__, limit={"action": "store_true"})
    program, network = built(given.program), networks.hub()
    with tempfile.TemporaryDirectory() as folder:
        file, stream, fewer = (os.path.join(folder, name) for name in ("NETWORK", "STREAM", "FEWER"))
        network.write(file)
        for path, count in (stream, LINES), (fewer, FEWER_LINES):
            with open(path, "w") as out:
                out.writelines(lines(network, count))
            print(f"{count:,} lines have {os.path.getsize(path):,} bytes")
        runs = {f"nrm run {mode}": [program, "run", mode, file] for mode in MODES}
        tell_times(runs | {"awk": ["awk", '{print "ok " NR}']}, lambda size: fewer if size == 1 else stream)
        tell_calls(runs["nrm run bid"], lambda size: fewer if size == 1 else stream, folder)
        for run, words in runs.items():
            tell_memory(run, words, network)
        if given.limit:
            tell_limit(runs["nrm run first"])


if __name__ == "__main__":
    end(main)
