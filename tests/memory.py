#!/usr/bin/env python3
"""Memory runs out at every place: `nrm` and `nrm_why` as they are built, where one of the times that they take memory
fails.

    tests/memory.py [PATTERN] [--all] [--program FILE] [--why FILE]

It isn't part of the gate, since it needs a C compiler, `cc`. With that it builds a small library, which is loaded
before the C library and stands before its malloc, calloc, realloc, memalign, aligned_alloc and posix_memalign: it
counts these calls, and makes the Nth fail, alone or with all that come after it. It also has memory that is new or
given back filled with other bytes (MALLOC_PERTURB_), so that what is read of it shows.

The runs are `run` in the three modes on the network of examples/hub, over its lines and some that take memory, `run` on
a file of version 2, and `check`, `plan`, `print`, `gen`, `cuts`, `dp` and some that end early; and of `nrm_why`, in the
three modes over the same lines, the accounts of a request, of a cancellation, of a `reoptimise` and of a `hindsight`,
and of a line that there isn't. Each is done for every N, from 1 to the number of calls. Where there are more than
3,000, it is done for the first 1,000 and then in steps of a prime, or with --all for every one. Each must end

    as with ample memory,
    with status 6, with nothing written and, under `run`, with nothing read of standard input,
    or, under `run`, with `memory` in reply to a line `hindsight`, or to a line `reoptimise` under `bid` and `davn`, and
    else with the replies to the lines without that one. Where all calls fail from the Nth on, all such lines from one
    on must be answered so. So it is of an account: it is whole, and that of the session with `memory` in reply to such
    a line, the last of which may be the one that it is of.

What is wanted with ample memory comes from tests/reference.py and the documents, never from the program. A crash,
another status, other text or anything on standard error is a failure.

PATTERN picks the runs that have it in their name; those of `nrm_why` begin with `why`. With no --program it is the
program that the script `nrm` builds, with no --why that of the script `nrm_why`; FILE must be the program itself, and
no script. Each failure is told; the last line is `N passed, M failed`.
"""
import argparse
import collections
import concurrent.futures
import os
import subprocess
import sys
import tempfile
import time

HERE = os.path.dirname(os.path.realpath(__file__))
TOP = os.path.dirname(HERE)
sys.dont_write_bytecode = True
import checks
import preload
import reference
import run

HUB = os.path.join(TOP, "examples", "hub", "network.csv")
CERTIFICATE = os.path.join(TOP, "examples", "certificate")
MODES = ["first", "bid", "davn"]
# whose accounts are asked for: the last such line; of the request under `bid` the prices are told, under `davn` the
# demand for which seats are protected
ACCOUNTS = {"request": b"book MN-Q 25", "cancellation": b"cancel 3", "reoptimise": b"reoptimise 3",
            "hindsight": b"hindsight"}
MANY, EACH_OF_THE_FIRST, STEPS = 3_000, 1_000, 1_000
SECONDS = 60
MOST_TOLD = 10  # failures of one run
NO_MEMORY = 6

LIBRARY = r"""
#include <errno.h>
#include <fcntl.h>
#include <stdio.h>
#include <stdlib.h>
#include <unistd.h>

void *__libc_malloc(size_t), *__libc_calloc(size_t, size_t);
void *__libc_realloc(void *, size_t), *__libc_memalign(size_t, size_t);

static unsigned long calls, failing, all_after;

__attribute__((constructor)) static void begin(void) {
  const char *number = getenv("FAILING");
  failing = number ? strtoul(number, 0, 10) : 0;
  all_after = getenv("ALL_AFTER") != 0;
  calls = 0; /* the loader's own are not counted */
}

__attribute__((destructor)) static void end(void) {
  const char *path = getenv("COUNTED");
  int file = path ? open(path, O_WRONLY | O_CREAT | O_TRUNC, 0600) : -1;
  if (file >= 0) {
    dprintf(file, "%lu", calls);
    close(file);
  }
}

static int fails(void) {
  calls++;
  int it = failing && (calls == failing || (all_after && calls > failing));
  if (it) errno = ENOMEM;
  return it;
}

void *malloc(size_t size) { return fails() ? 0 : __libc_malloc(size); }
void *calloc(size_t count, size_t size) { return fails() ? 0 : __libc_calloc(count, size); }
void *realloc(void *old, size_t size) { return fails() ? 0 : __libc_realloc(old, size); }
void *memalign(size_t to, size_t size) { return fails() ? 0 : __libc_memalign(to, size); }
void *aligned_alloc(size_t to, size_t size) { return fails() ? 0 : __libc_memalign(to, size); }
int posix_memalign(void **made, size_t to, size_t size) {
  void *it = fails() ? 0 : __libc_memalign(to, size);
  if (it) *made = it;
  return it ? 0 : ENOMEM;
}
"""


# What is wanted


def lines_on_the_hub():
    """Those of the example, some that take memory among them, and after them some that show the state."""
    with open(os.path.join(TOP, "examples", "hub", "commands.txt"), "rb") as file:
        lines = file.read().splitlines()
    lines[7:7] = [b"reoptimise 2", b"plan", b"book HN-Y 3", b"hindsight", b"reoptimise 1", b"plan"]
    lines[18:18] = [b"reoptimise 4", b"book MF-Q 2", b"reoptimise 5", b"hindsight", b"book HF-Q 1"]
    return lines + [b"leg HAM-FRA", b"leg MUC-FRA", b"leg FRA-JFK", b"leg FRA-NRT", b"plan", b"reoptimise 3",
                    b"book NJ-Y 1",
                    b"plan", b"hindsight", b"cancel 3", b"leg FRA-JFK"]


def cases():
    """The cases of `tests/run.py`, by their names."""
    return {case.name: case for case in run.cases_of("")}


class Wanting(reference.Session):
    """A session that answers `memory` to the lines at some places."""

    def __init__(self, path, mode, wanting):
        super().__init__(reference.network_in(path), mode)
        self.at, self.wanting = 0, wanting

    def reply(self, line):
        self.at += 1
        return b"memory\n" if self.at - 1 in self.wanting else super().reply(line)


def replies(mode, lines, wanting=(), path=HUB):
    """The replies of the reference, with `memory` at the places where it is wanting."""
    return b"".join(map(Wanting(path, mode, wanting).reply, lines))


def account(mode, lines, wanting=()):
    """The account of the last line by the reference, with `memory` at the places where it is wanting."""
    teller = reference.Teller(Wanting(HUB, mode, wanting), len(lines))
    return b"".join(map(teller.reply, lines))


def places_for_memory(mode, lines, path):
    """The lines that take memory, by their places, each with its word."""
    session = reference.Session(reference.network_in(path), mode)
    taking = {b"hindsight"} if mode == "first" else {b"hindsight", b"reoptimise"}
    found = [(at, line.split(b" ")[0]) for at, line in enumerate(lines) if session.reply(line) != b"unknown\n"]
    return [(at, word.decode()) for at, word in found if word in taking]


class Job:
    """One run: its words and standard input, and how it may end, each end with what it is called."""
    program = "nrm"
    is_read_first = False  # whether lines may be read before it ends since memory ran out

    def __init__(self, name, words, output, status=0):
        self.name, self.words, self.stdin = name, words, b""
        self.ample = status, output
        ends = {(NO_MEMORY, b""): "status 6", self.ample: "as with ample memory"}
        self.ends = {False: ends, True: dict(ends)}

    @staticmethod
    def session(name, mode, lines, path=HUB):
        """The lines of a run, some of which may want for memory."""
        job = Job(name, ["run", mode, path], replies(mode, lines, path=path))
        return job.over(lines, places_for_memory(mode, lines, path), lambda it: replies(mode, lines, it, path))

    @staticmethod
    def account(mode, kind, lines):
        """The account of the last line of its kind, before which some may want for memory."""
        number = len(lines) - lines[::-1].index(ACCOUNTS[kind])
        until = lines[:number]
        job = Job(f"why {mode} {kind}", [mode, HUB, str(number)], account(mode, until))
        job.program, job.is_read_first = "nrm_why", True
        return job.over(lines, places_for_memory(mode, until, HUB), lambda it: account(mode, until, it))

    def over(self, lines, places, output):
        """The same with some lines, at some of which it may want for memory, and the output that it then has."""
        self.stdin = b"".join(line + b"\n" for line in lines)
        for count, (at, word) in enumerate(places):
            self.ends[False].setdefault((0, output({at})), f"memory at {word}")
            self.ends[True].setdefault((0, output({it for it, _ in places[count:]})), f"memory at {word}")
        return self


def all_jobs(folder):
    def file(name, content):
        path = os.path.join(folder, name)
        with open(path, "wb") as made:
            made.write(content)
        return path

    for mode in MODES:
        yield Job.session(f"run {mode}", mode, lines_on_the_hub())
    known = cases()
    case = known["reoptimise-too-large-and-again-when-it-is-not"]
    yield Job.session("run overflow", "bid", case.stdin.splitlines(), file("later", case.files["network.csv"]))
    case = known["refund-under-davn"]
    second = file("second", case.files["network.csv"])
    yield Job.session("run version 2", "davn", case.stdin.splitlines(), second)
    case = known["plan-bid-too-large"]
    yield Job("plan overflow", ["plan", "bid", file("large", case.files["network.csv"])], case.stdout, case.status)
    for mode in MODES:
        yield Job(f"plan {mode}", ["plan", mode, HUB], replies(mode, [b"plan"]))
    yield Job("check hub", ["check", HUB, file("plan", replies("bid", [b"plan"]))], b"optimal\n")
    example = [os.path.join(CERTIFICATE, name) for name in ["network.csv", "certificate.txt"]]
    yield Job("check example", ["check", *example], b"optimal\n")
    yield Job("check wrong", ["check", example[0], file("other", wrong_certificate(example[1]))], b"wrong value\n", 1)
    yield Job("check refused", ["check", HUB, example[1]], refused_certificate(example[1]), 3)
    yield Job("print", ["print", HUB], reference.canonical(reference.network_in(HUB)))
    yield Job("print version 2", ["print", second], reference.canonical(reference.network_in(second)))
    yield Job("cuts", ["cuts", HUB, "FRA-JFK", "2"], reference.cuts_text(reference.network_in(HUB), b"FRA-JFK", 2))
    yield Job("cuts no leg", ["cuts", HUB, "FRA", "2"], b"no leg\n", 10)
    yield Job("dp", ["dp", HUB, "FRA-JFK"], reference.dp_text(reference.network_in(HUB), b"FRA-JFK"))
    yield Job("dp no class", ["dp", HUB, "FRA"], b"classes 0\n", 11)
    yield Job("print refused", ["print", file("refused", b"periods,2,2\nleg,PAR-LYO,1000\n")],
              b"refused row 2 why 7 range\n", 3)
    yield Job("run not there", ["run", "bid", os.path.join(folder, "none")], b"refused no file\n", 3)
    yield Job("run folder", ["run", "davn", folder], b"file fault\n", 9)
    yield Job("usage", ["help"], reference.USAGE.encode() + b"\n", 2)
    yield Job("gen davn 1", ["gen", "davn", "1"], reference.summary("davn", 1))
    for mode in MODES:
        for kind in ACCOUNTS:
            yield Job.account(mode, kind, lines_on_the_hub())
    absent = Job("why no line", ["bid", HUB, "3"], b"absent line 3\n", 10)
    absent.program, absent.is_read_first = "nrm_why", True
    yield absent.over([b"plan", b"reoptimise 2"], [], None)


def wrong_certificate(path):
    """The certificate with another value, which only the last condition asks for."""
    with open(path, "rb") as file:
        _, rest = file.read().split(b"\n", 1)
    return b"value 1/1\n" + rest


def refused_certificate(path):
    """What is written of a certificate of another network."""
    try:
        reference.certificate_of(reference.network_in(HUB), reference.bytes_of(path, ""))
    except reference.Ended as ended:
        return ended.line.encode() + b"\n"
    raise preload.Wrong(f"{path} isn't refused")


# Runs


class Runs:
    """Runs of the programs behind the library."""

    def __init__(self, programs, folder):
        self.programs, self.folder = programs, folder
        for it in programs.values():
            preload.must_be_a_program(it)
        self.library = preload.built(LIBRARY, folder)

    def run(self, job, **variables):
        """How a run ended: its status and output, and what else must not be."""
        environment = dict(os.environ, LD_PRELOAD=self.library, MALLOC_PERTURB_="165", **variables)
        with tempfile.TemporaryFile(dir=self.folder) as stdin:
            stdin.write(job.stdin)
            stdin.seek(0)
            try:
                words = [self.programs[job.program], *job.words]
                done = subprocess.run(words, stdin=stdin, capture_output=True, env=environment, timeout=SECONDS)
            except subprocess.TimeoutExpired:
                return None, b"", "it doesn't end"
            read = os.lseek(stdin.fileno(), 0, os.SEEK_CUR)  # the place in the file is the program's too
        also = f"standard error {done.stderr[:300]!r}" if done.stderr else ""
        if done.returncode == NO_MEMORY and read and not job.is_read_first:
            also = f"{read} bytes read of standard input"
        return done.returncode, done.stdout, also

    def count(self, job):
        """How many calls the run has with ample memory."""
        path = os.path.join(self.folder, "counted")
        status, output, also = self.run(job, COUNTED=path)
        if (status, output) != job.ample or also:
            raise preload.Wrong(f"{job.name} with ample memory: {told(status, output, also)}")
        if not os.path.exists(path):
            raise preload.Wrong(f"{self.programs[job.program]} doesn't load the library")
        with open(path, "rb") as file:
            count = int(file.read())
        os.remove(path)
        return count

    def end(self, job, number, all_after):
        """What the end of one run is called, or that it is wrong."""
        status, output, also = self.run(job, FAILING=str(number), **({"ALL_AFTER": "1"} if all_after else {}))
        kind = None if also else job.ends[all_after].get((status, output))
        return kind, kind or f"{job.name}, call {number}{' and all after' * all_after}: {told(status, output, also)}"


def told(status, output, also):
    return f"status {status}, wrote {len(output)} bytes that end in {output[-200:]!r}{also and ', '}{also}"


def is_prime(number):
    return number > 1 and all(number % it for it in range(2, int(number**0.5) + 1))


def numbers(count, is_all):
    """Which calls are made to fail."""
    if is_all or count <= MANY:
        return range(1, count + 1)
    step = next(it for it in range((count - EACH_OF_THE_FIRST) // STEPS + 1, count) if is_prime(it))
    return [*range(1, EACH_OF_THE_FIRST + 1), *range(EACH_OF_THE_FIRST + step, count + 1, step)]


def tried(runs, job, is_all):
    """How many runs passed and failed."""
    begun, count = time.monotonic(), runs.count(job)
    picked = [(number, all_after) for number in numbers(count, is_all) for all_after in (False, True)]
    with concurrent.futures.ThreadPoolExecutor(os.cpu_count()) as pool:
        ends = list(pool.map(lambda it: runs.end(job, *it), picked))
    wrong = [text for kind, text in ends if kind is None]
    for text in wrong[:MOST_TOLD]:
        print(text)
    if len(wrong) > MOST_TOLD:
        print(f"{job.name}: {len(wrong) - MOST_TOLD} more")
    kinds = collections.Counter(kind for kind, _ in ends if kind is not None)
    named = ", ".join(f"{number} {kind}" for kind, number in sorted(kinds.items()))
    print(f"{job.name}: {count} calls, {len(ends)} runs: {named or 'none as wanted'}; {time.monotonic() - begun:.0f} s",
          flush=True)
    return len(ends) - len(wrong), len(wrong)


def words_given():
    parser = argparse.ArgumentParser(usage=__doc__)
    parser.add_argument("pattern", nargs="?", default="")
    parser.add_argument("--all", action="store_true")
    parser.add_argument("--program")
    parser.add_argument("--why")
    return parser.parse_args()


def main():
    given = words_given()
    if not preload.is_there():
        print(f"Running out of memory wasn't tried: {preload.WANTING}.")
        return 0
    passed = failed = 0
    with tempfile.TemporaryDirectory() as folder:
        try:
            jobs = [it for it in all_jobs(folder) if given.pattern in it.name]
            said = {"nrm": given.program, "nrm_why": given.why}
            programs = {name: checks.built(name, said[name]) for name in sorted({it.program for it in jobs})}
            if None in programs.values():
                return checks.NOT_BUILT
            runs = Runs(programs, folder)
            for job in jobs:
                good, bad = tried(runs, job, given.all)
                passed, failed = passed + good, failed + bad
        except (preload.Wrong, OSError) as wrong:
            print(wrong)
            return 1
    return checks.ended(passed, failed)


if __name__ == "__main__":
    sys.exit(main())
