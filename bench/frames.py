#!/usr/bin/env python3
"""What a line costs `nrm_desks` through its frames, beside `nrm run`, and how soon it is ready and how much it takes.

    bench/frames.py [PROGRAM] [--nrm PROGRAM] [--lines N] [--rows N] [--desks N]

Lines book a seat on 64 legs of 999 seats and 256 products. N of them, 20,000 where it isn't given and at least a piece
of each client, come from 1, 10 and 1,000 clients, in pieces of one line and of a hundred; all clients have a piece in
each round, and `kept` comes at once. Of each the instructions a line by `valgrind --tool=callgrind`, where that is
there, and the least processor time of five runs, as what the lines add to a run without them; where `cc` is there the
same of a plain echo in C through the same frames, bench/echo.c; and of `nrm run` on the same lines in a file. Then the
seconds until so many rows of 1,000 desks were given again, 1,000,000 where it isn't given; and the most memory that was
in use with so many desks, 10,000 where it isn't given: connected, and with a row and with 200 rows each.
"""
import os
import re
import shutil
import subprocess
import tempfile
import time

import networks
from nrm import Stop
from running import built, end, words_of

RUNS, PRODUCTS, HELD, DESKS_OF_ROWS, PIECE = 5, 256, 200, 1_000, 65_536
KINDS = [(clients, piece) for piece in (1, 100) for clients in (1, 10, 1_000)]
VALGRIND = ["valgrind", "--tool=callgrind", "--callgrind-out-file=/dev/null"]
RIGHTS = "look,book,cancel-any,plan,greet"


def line_of(at):
    return b"book P%03d 1\n" % (at % PRODUCTS)


def came(place, given):
    return b"came %d %d\n%s" % (place, len(given), given)


def batches(count, clients, piece):
    """What all clients send in each round: so many lines, in pieces of some lines."""
    for first in range(0, count, clients * piece):
        yield b"".join(came(place, b"".join(line_of(first + place * piece + at) for at in range(piece)))
                       for place in range(clients))


class Desks:
    """A program of many desks that runs, and what it has used."""

    def __init__(self, words):
        self.process = subprocess.Popen(words, stdin=subprocess.PIPE, stdout=subprocess.PIPE, stderr=subprocess.PIPE,
                                        bufsize=-1)

    def give(self, given):
        self.process.stdin.write(given)
        self.process.stdin.flush()

    def frame(self):
        """The words of the next frame; its bytes are passed over."""
        words = self.process.stdout.readline().split()
        if not words:
            raise Stop(f"the program ended with status {self.process.wait()}")
        if words[0] in (b"keep", b"send"):
            self.process.stdout.read(int(words[-1]))
        return words

    def be_ready(self, rows=()):
        """Gives rows again, in frames."""
        for part in rows:
            self.give(b"again %d\n%s" % (len(part), part))
        self.give(b"again 0\n")
        if self.frame()[0] != b"ready":
            raise Stop("the program isn't ready behind `again 0`")

    def open(self, clients):
        self.give(b"".join(b"open %d D%d %s\n" % (it, it, RIGHTS.encode()) for it in range(clients)))

    def serve(self, given):
        """Gives each batch while rows are awaited, and then `kept`, until all is sent. A line that is no command comes
        first and last, so that rows are awaited."""
        self.give(came(0, b"-\n"))
        for batch in given:
            self.pass_over()
            self.give(batch + b"kept\n")
        self.pass_over()
        self.give(came(0, b"-\n") + b"kept\n")
        self.pass_over()

    def pass_over(self):
        """Passes over what is written until rows are awaited."""
        while self.frame()[0] != b"keep":
            pass

    def ended(self):
        """Ends it, while it waits: the processor time in seconds, the most memory in bytes, which `wait4` would tell as
        no less than what this script has, and what was written on standard error."""
        with open(f"/proc/{self.process.pid}/status") as status:
            memory = next(int(row.split()[1]) * 1024 for row in status if row.startswith("VmHWM"))
        self.give(b"end\n")
        while self.process.stdout.read(PIECE):
            pass
        told = self.process.stderr.read().decode()
        _, status, usage = os.wait4(self.process.pid, 0)
        self.process.returncode = os.waitstatus_to_exitcode(status)
        if self.process.returncode:
            raise Stop(f"the program ended with status {self.process.returncode}")
        return usage.ru_utime + usage.ru_stime, memory, told


def served(words, count, clients, piece):
    """Runs the program on some lines."""
    desks = Desks(words)
    desks.be_ready()
    desks.open(clients)
    desks.serve(batches(count, clients, piece))
    return desks.ended()


def run(words, count):
    """Runs `nrm run` on the same lines in a file."""
    with tempfile.TemporaryFile() as given:
        given.writelines(line_of(at) for at in range(count))
        given.seek(0)
        process = subprocess.Popen(words, stdin=given, stdout=subprocess.DEVNULL, stderr=subprocess.PIPE)
        told = process.stderr.read().decode()
        _, status, usage = os.wait4(process.pid, 0)
        process.returncode = os.waitstatus_to_exitcode(status)
    if process.returncode:
        raise Stop(f"`{' '.join(words)}` ended with status {process.returncode}")
    return usage.ru_utime + usage.ru_stime, told


def instructions(told):
    found = re.search(r"Collected : (\d+)", told)
    if not found:
        raise Stop(f"valgrind counted no instructions: {told}")
    return int(found.group(1))


def of_a_line(text, count, ran):
    """Prints what a line costs; `ran` runs so many lines behind some words."""
    row = f"{text:44}"
    if shutil.which("valgrind"):
        more, fewer = (instructions(ran(VALGRIND, it)[-1]) for it in (count, 0))
        row += f"{(more - fewer) / count:12,.0f} instructions"
    more, fewer = (min(ran([], it)[0] for _ in range(RUNS)) for it in (count, 0))
    print(f"{row}{(more - fewer) / count * 1e6:10.2f} us of processor time", flush=True)


def lines(words, echo, nrm, least):
    for clients, piece in KINDS:
        count = -(-least // (clients * piece)) * clients * piece
        of_a_line(f"{clients:,} clients, pieces of {piece}, {count:,} lines", count,
                  lambda before, it, c=clients, p=piece: served([*before, *words], it, c, p))
        if echo:
            of_a_line("  the same, a plain echo", count,
                      lambda before, it, c=clients, p=piece: served([*before, *echo], it, c, p))
    for count in sorted({-(-least // (clients * piece)) * clients * piece for clients, piece in KINDS}):
        of_a_line(f"nrm run, {count:,} lines", count, lambda before, it: run([*before, *nrm], it))


def rows_again(count):
    """Rows that book and cancel in turn, of some desks, in whole rows of at most the bytes of a frame."""
    part, booked = [], 0
    for at in range(count):
        product = booked % PRODUCTS
        if at % 2 == 0:
            booked += 1
            line, reply = f"book P{product:03} 1", f"ok {booked}"
        else:
            line, reply = f"cancel {booked}", f"cancelled {booked} {100 + (booked - 1) % PRODUCTS}"
        part.append(f"{at + 1}\tD{at % DESKS_OF_ROWS}\t{at // DESKS_OF_ROWS + 1}\t{line}\t{reply}\n")
        if len(part) == 900:
            yield "".join(part).encode()
            part = []
    if part:
        yield "".join(part).encode()


def again(words, count):
    parts = list(rows_again(count))
    begun, desks = time.perf_counter(), Desks(words)
    desks.be_ready(parts)
    seconds = time.perf_counter() - begun
    _, memory, _ = desks.ended()
    print(f"{count:,} rows of {DESKS_OF_ROWS:,} desks given again: {seconds:.2f} s, {memory / 2**20:,.1f} MiB",
          flush=True)


def memory(words, clients):
    nobody = served(words, 0, 1, 1)[1]
    print(f"nobody: {nobody / 2**20:,.1f} MiB")
    for count in 0, 1, HELD:
        used = served(words, clients * count, clients, 1 if count == 1 else 100)[1]
        each = (used - nobody) / clients
        print(f"{clients:,} desks with {count} rows: {used / 2**20:,.1f} MiB, {each:,.0f} bytes a desk", flush=True)


def echo_in(folder):
    """The words of the plain echo, which is made in a folder; none without a compiler."""
    if not shutil.which("cc"):
        print("no cc is there, so no plain echo is measured")
        return []
    program = os.path.join(folder, "echo")
    subprocess.run(["cc", "-O2", "-o", program, os.path.join(os.path.dirname(__file__), "echo.c")], check=True)
    return [program]


def main():
    given = words_of(__doc__, nrm={"default": None}, lines={"type": int, "default": 20_000},
                     rows={"type": int, "default": 1_000_000}, desks={"type": int, "default": 10_000})
    program, nrm = built(given.program, "nrm_desks"), built(given.nrm)
    with tempfile.TemporaryDirectory() as folder:
        network = os.path.join(folder, "wide")
        networks.wide().write(network)
        words = [program, "first", network]
        lines(words, echo_in(folder), [nrm, "run", "first", network], given.lines)
        again(words, given.rows)
        memory(words, given.desks)


if __name__ == "__main__":
    end(main)
