#!/usr/bin/env python3
"""Memory runs out at every place: `nrm_desks` as it is built, where one of the times that it takes memory fails.

    tests/desks_memory.py [PATTERN] [--all] [--desks FILE]

It isn't part of the gate, since it needs a C compiler, `cc`: the library by which calls fail, alone or with all that
come after, is that of tests/memory.py, whose head says how it counts. In each mode rows are given again on the network
of examples/hub; then a desk sends lines, and once it was answered a second one does. Each run must end with status 6
and nothing written, or with status 0, and then

    all rows were given again, and those that were given out are the next ones, each with the reply of the reference,
    a line that was answered is answered as its row is, or as the reference does where none is due, or `memory`,
    and a desk with a line that wasn't answered, or half of whose reply was sent, was closed for `memory`.

PATTERN picks the modes. With no --desks it is the program that the script `nrm_desks` builds; FILE must be the program
itself, and no script. Each failure is told; the last line is `N passed, M failed`.
"""
import argparse
import collections
import concurrent.futures
import os
import sys
import tempfile

sys.dont_write_bytecode = True
import checks
import frames
import memory
import preload
import reference
import reference_desks
from checks import Wrong

RIGHTS = b"look,book,cancel-any,plan,greet"
AGAIN = [b"book HN-Y 3", b"cancel 1", b"book HJ-Q 2"]
LINES = [[b"book HJ-Q 2", b"ask HN-Y", b"leg HAM-FRA", b"book X 1", b"reoptimise 2", b"hindsight"],
         [b"book HN-Y 1", b"cancel 2", b"reoptimise 3", b"book HJ-Q 60", b"plan", b"ask X"]]
MEMORY = b"memory\n"


def session_of(mode):
    return reference.Session(reference.network_in(memory.HUB), mode)


def rows_again(mode):
    """The rows that are given again, of a desk of their own."""
    session = session_of(mode)
    return b"".join(b"%d\tA\t%d\t%s\t%s" % (at, at, line, session.reply(line)) for at, line in enumerate(AGAIN, 1))


# One run


class Talk(frames.Running):
    """A run that is given lines, and what it wrote."""

    def __init__(self, words, environment):
        super().__init__(words, env=environment)
        self.heard = []

    def settle(self):
        """Takes what it writes until it waits for more; it is told that rows are kept as long as some are given out."""
        while not self.is_ended:
            while not self.is_ended and (self.unread() or not self.is_waiting()):
                self.read(frames.MOMENT)
            while self.read(0):
                pass
            found, self.found = self.found, []
            self.heard += found
            if not any(line.startswith(b"keep ") for line, _ in found):
                return
            self.give(b"kept\n")

    def is_waiting(self):
        """Whether it sleeps, as it does while nothing is there to be read."""
        with open(f"/proc/{self.process.pid}/stat") as file:
            return file.read().rpartition(")")[2].split()[0] in "SZ"

    def go_through(self, mode):
        """Gives all rows and lines. What it wrote, and the status."""
        self.give(frames.again(rows_again(mode)) + frames.again(b""))
        self.settle()
        for place, lines in enumerate(LINES):
            given = b"".join(line + b"\n" for line in lines)
            self.give(b"open %d D%d %s\n" % (place, place, RIGHTS) + frames.came(place, given))
            self.settle()
        self.give(b"end\n")
        found, rest, status = self.end()
        if rest:
            raise Wrong(f"half a frame was written: {rest!r}")
        return self.heard + found, status


# What it may have written


class Judge:
    """What was written in a mode, beside the reference."""

    def __init__(self, mode, heard):
        self.session, self.rows, self.taken = session_of(mode), [], 0
        self.sent, self.closed = collections.defaultdict(bytes), set()
        for line in AGAIN:
            self.session.reply(line)
        for line, data in heard:
            self.take(line.split(b" "), data)

    def take(self, words, data):
        if words[0] == b"keep":
            self.rows += data.splitlines(keepends=True)
        elif words[0] == b"send":
            self.sent[int(words[1])] += data
        elif words[0] == b"close" and words[2] == b"memory":
            self.closed.add(int(words[1]))
        elif words != [b"ready", b"%d" % len(AGAIN)]:
            raise Wrong(f"it wrote {b' '.join(words)!r}")

    def judge(self):
        """Goes through all lines: each has its row if one is due, and its reply."""
        for place, lines in enumerate(LINES):
            text = self.sent[place]
            for number, line in enumerate(lines, 1):
                text = self.behind(place, text, self.replies(place, number, line))
            if text:
                raise Wrong(f"desk {place} was sent {text!r} behind all replies")
        if self.rows:
            raise Wrong(f"rows of nobody: {self.rows}")

    def replies(self, place, number, line):
        """What a line may be answered, the state being the one behind it: as its row is; or `memory` where it has none
        or looks back; or as the reference answers a look."""
        if line.split(b" ")[0] in (b"book", b"cancel", b"reoptimise"):
            return [self.row(place, number, line) or MEMORY]
        if line.startswith(b"ask "):
            return [reference_desks.asked(self.session, line[4:])]
        reply = self.session.reply(line)
        return [reply, MEMORY] if line == b"hindsight" else [reply + b"\n"]

    def row(self, place, number, line):
        """The reply in the row of a line, which is taken; nothing if it has none, and then it changed nothing."""
        at = len(AGAIN) + 1 + self.taken
        front = b"%d\tD%d\t%d\t%s\t" % (at, place, number, line)
        if not self.rows or not self.rows[0].startswith(front):
            return None
        reply = self.rows.pop(0)[len(front):]
        if reply != self.session.reply(line):
            raise Wrong(f"row {at} has the reply {reply!r}")
        self.taken += 1
        return reply

    def behind(self, place, text, replies):
        """What was sent behind the reply to a line, of those that may come."""
        for reply in replies:
            if text.startswith(reply):
                return text[len(reply):]
        if place not in self.closed or not any(reply.startswith(text) for reply in replies):
            raise Wrong(f"desk {place} was sent {text!r} where one of {replies} may come")
        return b""


# All runs


class Runs:
    """Runs of the program behind the library."""

    def __init__(self, program, folder):
        preload.must_be_a_program(program)
        self.program, self.folder = program, folder
        self.library = preload.built(memory.LIBRARY, folder)

    def run(self, mode, **variables):
        """What a run ended as; Wrong if it may not end so."""
        environment = dict(os.environ, LD_PRELOAD=self.library, MALLOC_PERTURB_="165", **variables)
        with Talk([self.program, mode, memory.HUB], environment) as talk:
            heard, status = talk.go_through(mode)
        if status == memory.NO_MEMORY and not heard:
            return "status 6"
        if status:
            raise Wrong(f"status {status}, and it wrote {heard}")
        judge = Judge(mode, heard)
        judge.judge()
        answered = b"".join(judge.sent.values())
        return "closed for memory" if judge.closed else "memory" if MEMORY in answered else "as with ample memory"

    def count(self, mode):
        """How many calls a run has with ample memory."""
        path = os.path.join(self.folder, "counted")
        kind = self.run(mode, COUNTED=path)
        if kind != "as with ample memory":
            raise Wrong(f"{mode} with ample memory: {kind}")
        with open(path, "rb") as file:
            return int(file.read())

    def end(self, mode, number, all_after):
        """What a run ended as, or None and what is wrong."""
        try:
            return self.run(mode, FAILING=str(number), **({"ALL_AFTER": "1"} if all_after else {})), ""
        except Wrong as wrong:
            return None, f"{mode}, call {number}{' and all after' * all_after}: {wrong}"


def tried(runs, mode, is_all):
    """How many runs passed and failed."""
    count = runs.count(mode)
    picked = [(number, all_after) for number in memory.numbers(count, is_all) for all_after in (False, True)]
    with concurrent.futures.ThreadPoolExecutor(os.cpu_count()) as pool:
        ends = list(pool.map(lambda it: runs.end(mode, *it), picked))
    wrong = [text for kind, text in ends if kind is None]
    for text in wrong[:memory.MOST_TOLD]:
        print(text)
    kinds = collections.Counter(kind for kind, _ in ends if kind)
    print(f"{mode}: {count} calls, {len(ends)} runs: {', '.join(f'{kinds[it]} {it}' for it in sorted(kinds))}", flush=True)
    return len(ends) - len(wrong), len(wrong)


def main():
    parser = argparse.ArgumentParser(usage=__doc__)
    parser.add_argument("pattern", nargs="?", default="")
    parser.add_argument("--all", action="store_true")
    parser.add_argument("--desks")
    given = parser.parse_args()
    if not preload.is_there():
        print(f"Running out of memory wasn't tried: {preload.WANTING}.")
        return 0
    program = checks.built("nrm_desks", given.desks)
    if program is None:
        return checks.NOT_BUILT
    passed = failed = 0
    with tempfile.TemporaryDirectory() as folder:
        try:
            runs = Runs(program, folder)
            for mode in memory.MODES:
                if given.pattern in mode:
                    good, bad = tried(runs, mode, given.all)
                    passed, failed = passed + good, failed + bad
        except (Wrong, preload.Wrong, OSError) as wrong:
            print(wrong)
            return 1
    return checks.ended(passed, failed)


if __name__ == "__main__":
    sys.exit(main())
