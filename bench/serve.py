#!/usr/bin/env python3
"""How many lines a second go through `nrm-tools serve`, and how long one takes.

    bench/serve.py [PROGRAM] [--desks PATH] [--older WORD...] [--disk FOLDER] [--rounds N] [--lines N] [--starts N]
        [--only N...] [--short]

PROGRAM is `nrm`, and --desks names `nrm_desks`; else they are those that the sources are built into. Clients ask one
line each and wait for its reply before they ask the next: 1, 10, 200 and 1,000 of them, and 1 that sends 100 lines
ahead. The lines book and cancel on a network of 20 legs and 120 products, in mode `bid`. They go to `serve` with a
journal on the disk of FOLDER, by default the current one, of one network and of 20. With --older they go in turn with
these to the server of an earlier release, with its text journal there: the words that run it are the `nrm-tools` of
that release and `desks`, or its `tools/desks.py` alone. Of each the most lines a second of N rounds is told, by default
3, within how long half of the lines were answered and 99 of 100 in that round, of the journals the bytes a line, and
the least processor time that a line takes of the server's own process, and of that with its programs, which depends
less on what else the machine does. Then a journal of --lines lines, by default 100,000, is served by a new server, and
it is told how long its first reply takes; and how long `ask` and `book` take beside each other. With --starts so many
networks of --lines lines each begin at once, and it is told how long one waits for each line who is there at another
network. --short asks a tenth of the lines, and --only picks crowds, by how many clients they have.
"""
import contextlib
import itertools
import os
import random
import select
import socket
import subprocess
import sys
import tempfile
import time
from pathlib import Path

import networks
from nrm import Stop
from nrm.journal.networks import open_network
from nrm.journal.sqlite_tables import begin, using
from nrm.program import Program
from running import built, end, words_of

TOP = Path(__file__).resolve().parent.parent
TOOLS = [sys.executable, str(TOP / "python" / "src")]
SECONDS = 60
CROWDS = [(1, 1, 3_000), (10, 1, 20_000), (200, 1, 60_000), (1000, 1, 60_000), (1, 100, 60_000)]
MANY = 20
AHEAD = 100  # lines that a desk may send ahead


def lines_of(network, count):
    """Lines that book and cancel, each of which has a reply of one line."""
    draw, products, cancelled = random.Random(5), [name for name, _, _ in network.products], 0
    for _ in range(count):
        if draw.random() < 0.7:
            yield f"book {draw.choice(products)} {draw.randint(1, 4)}\n".encode()
        else:
            cancelled += 1
            yield f"cancel {cancelled}\n".encode()


# The server


@contextlib.contextmanager
def served(words, folder):
    """The path of the socket that a server listens on, and the number of its process, until it is ended."""
    path = os.path.join(folder, "socket")
    with open(os.path.join(folder, "told"), "w") as told:
        process = subprocess.Popen([it if it != "SOCKET" else path for it in words], stderr=told)
    try:
        deadline = time.monotonic() + SECONDS
        while not os.path.exists(path):
            if process.poll() is not None or time.monotonic() > deadline:
                raise Stop(f"{words} does not listen: {Path(told.name).read_text()}")
            time.sleep(0.05)
        time.sleep(0.2)
        yield path, process.pid
    finally:
        process.terminate()
        process.wait(SECONDS)
        with contextlib.suppress(FileNotFoundError):
            os.unlink(path)


# The clients


def connected(path, count):
    """So many connections."""
    made = [socket.socket(socket.AF_UNIX) for _ in range(count)]
    for it in made:
        it.settimeout(SECONDS)
        it.connect(path)
    return made


def waited_for(poll):
    """The connections on which something has come."""
    found = poll.poll(SECONDS)
    if not found:
        raise Stop(f"no reply in {SECONDS} seconds")
    return found


class Client:
    """A connection, the lines that it has still to ask, and when it asked those that have no reply."""

    def __init__(self, connection, greeting, lines, ahead):
        self.socket, self.left, self.ahead, self.sent = connection, lines, ahead, []
        self.waits = 0
        if greeting:
            connection.sendall(greeting)
            line = b""
            while not line.endswith(b"\n"):
                line += connection.recv(100)
            if not line.startswith(b"at "):
                raise Stop(f"{line} to {greeting}")

    def ask(self, now):
        """Asks the next lines."""
        some, self.left = self.left[:self.ahead], self.left[self.ahead:]
        self.waits = len(some)
        self.sent += [now] * len(some)
        if some:
            self.socket.sendall(b"".join(some))

    def hear(self, took):
        """Takes replies, and asks on if all are there. Gives how many came."""
        piece, now = self.socket.recv(262_144), time.perf_counter()
        if not piece:
            raise Stop("the connection has ended")
        count = piece.count(b"\n")
        took += [now - it for it in self.sent[:count]]
        del self.sent[:count]
        self.waits -= count
        if not self.waits:
            self.ask(now)
        return count


def processor_time(process):
    """The seconds that the process of a number has been at work, by all its threads."""
    tasks = Path(f"/proc/{process}/task").iterdir()
    return sum(int((it / "schedstat").read_text().split()[0]) for it in tasks) / 1e9


def times_of(processes):
    """The seconds that servers have been at work, and those with the programs that they have begun."""
    own = sum(map(processor_time, processes))
    below = [int(it) for process in processes
             for it in Path(f"/proc/{process}/task/{process}/children").read_text().split()]
    return own, own + sum(map(processor_time, below))


def asked(made, processes, greetings, ahead, lines):
    """The seconds in which clients ask all lines, how long each took, in order, and how long servers were at work by
    themselves and with their programs."""
    count = len(greetings)
    clients = [Client(it, greeting, lines[at::count], ahead) for at, (it, greeting) in enumerate(zip(made, greetings))]
    by_file, poll, took, answered = {it.socket.fileno(): it for it in clients}, select.epoll(), [], 0
    for file in by_file:
        poll.register(file, select.EPOLLIN)
    worked, begun = times_of(processes), time.perf_counter()
    for it in clients:
        it.ask(begun)
    while answered < len(lines):
        for file, _ in waited_for(poll):
            answered += by_file[file].hear(took)
    seconds, now = time.perf_counter() - begun, times_of(processes)
    for it in made:
        it.close()
    return seconds, sorted(took), tuple(after - before for before, after in zip(worked, now))


# What is measured


class Way:
    """A server, how its clients greet, and where its journal is: `serve` at some networks, or an older one."""

    def __init__(self, folder, name, networks_at, older=()):
        self.journal, self.name, self.networks = os.path.join(folder, "journal"), name, networks_at
        self.older = older

    def greeting(self, at):
        """What the client of a number says first."""
        if self.older:
            return b""
        return f"desk n{at % self.networks} D{at}\n".encode()

    def clear(self):
        for it in ("", "-wal", "-shm", ".void"):
            with contextlib.suppress(FileNotFoundError):
                os.unlink(self.journal + it)

    def begin(self, program, network):
        """A new journal, and the words of its server."""
        self.clear()
        if self.older:
            run = [program[0], "run", "bid", network]
            return [*self.older, "--socket", "SOCKET", "--journal", self.journal, "--", *run]
        begin(self.journal)
        with using(self.journal, is_to_write=True) as connection:
            for at in range(self.networks):
                open_network(connection, f"n{at}", "bid", Path(network).read_bytes(),
                             Program((program[1],)).checksum())
        return self.words(program)

    def words(self, program):
        return [*TOOLS, "serve", self.journal, "--socket", "SOCKET", "--program", program[1]]

    def bytes(self):
        """The bytes of the journal, with what is in its log."""
        return sum(os.path.getsize(self.journal + it) for it in ("", "-wal") if os.path.exists(self.journal + it))


def warmed(path, way):
    """Has each network's program begun."""
    for at in range(way.networks):
        [made] = connected(path, 1)
        Client(made, way.greeting(at), [], 1)
        made.close()


def measured(ways, crowd, lines, program, network, folder, rounds):
    """Of each way the least seconds, with how long lines took and how many bytes they have, and the least that the
    server was at work, the ways in turn."""
    clients, ahead, count = crowd
    found, works = {}, {}
    for _ in range(rounds):
        for way in ways:
            with served(way.begin(program, network), folder) as (path, process):
                warmed(path, way)
                greetings = [way.greeting(at) for at in range(clients)]
                seconds, took, worked = asked(connected(path, clients), [process], greetings, ahead, lines[:count])
            one = seconds, took, way.bytes() / count
            found[way.name] = min(found.get(way.name, one), one, key=lambda it: it[0])
            works[way.name] = tuple(map(min, works.get(way.name, worked), worked))
    return {name: (*it, works[name]) for name, it in found.items()}


def tell(found, crowd):
    clients, ahead, count = crowd
    for name, (seconds, took, size, worked) in found.items():
        print(f"{clients:,} clients, {ahead} ahead, {name}: {count / seconds:,.0f} lines/s, half within "
              f"{took[count // 2] * 1e3:.2f} ms, 99 of 100 within {took[count * 99 // 100] * 1e3:.2f} ms, "
              f"{size:.0f} bytes, {worked[0] / count * 1e6:.0f} µs of the server's own and "
              f"{worked[1] / count * 1e6:.0f} with its programs' a line", flush=True)


def tell_of_a_start(way, lines, program, network, folder):
    """How long the first reply takes behind many lines, and how long `ask` takes beside `book`."""
    with served(way.begin(program, network), folder) as (path, process):
        asked(connected(path, 1), [process], [way.greeting(0)], AHEAD, lines)
    with served(way.words(program), folder) as (path, process):
        begun = time.perf_counter()
        [made] = connected(path, 1)
        Client(made, way.greeting(0), [], 1)
        print(f"a start behind {len(lines):,} lines: {time.perf_counter() - begun:.2f} s to the first reply")
        made.close()
        products = sorted({it.split()[1] for it in lines[:2_000] if it.startswith(b"book ")})
        asks = [b"ask %s\n" % random.Random(at).choice(products) for at in range(500)]
        for name, some in (("ask", asks), ("book", lines[:500])):
            seconds, took, _ = asked(connected(path, 1), [process], [way.greeting(1)], 1, some)
            print(f"{name}: half within {took[len(took) // 2] * 1e3:.2f} ms, each {seconds / len(some) * 1e3:.2f} ms")
        lines = [b"ask %s\n" % it for it in products[:90]]
        seconds, *_ = asked(connected(path, 1), [process], [way.greeting(1)], 90, lines)
        print(f"ask of {len(lines)} products at once: {seconds * 1e3:.1f} ms")


def copied(journal, count, lines, program, network):
    """Puts networks into a journal with one, each with the lines of that, and one without any."""
    with using(journal, is_to_write=True) as connection:
        for at in range(1, count + 1):
            open_network(connection, f"n{at}", "bid", Path(network).read_bytes(), Program((program[1],)).checksum())
        for at in range(2, count + 1):
            connection.execute("INSERT INTO line SELECT ?, number, epoch, desk, sequence, at, line, reply FROM line "
                               "WHERE network = 1", [at])
        connection.execute("UPDATE head SET lines = (SELECT count(*) FROM line WHERE line.network = head.network)")


def waits_of(there, lines, others, seconds=0.0):
    """How long each line takes one who is there, until others have their first reply and some seconds have passed."""
    poll, waits, left = select.epoll(), [], {it.fileno(): it for it in others}
    for file in (there.fileno(), *left):
        poll.register(file, select.EPOLLIN)
    begun = asked_at = time.perf_counter()
    there.sendall(next(lines))
    while left or asked_at - begun < seconds:
        for file, _ in waited_for(poll):
            it = left.pop(file, there)
            if not it.recv(1000):
                raise Stop("the connection has ended")
            if it is not there:
                poll.unregister(file)
                continue
            now = time.perf_counter()
            waits.append(now - asked_at)
            asked_at = now
            there.sendall(next(lines))
    there.recv(1000)
    return sorted(waits), time.perf_counter() - begun


def tell_of_starts(way, count, lines, program, network, folder):
    """How long who is there waits for each line, before networks begin and while they do."""
    with served(way.begin(program, network), folder) as (path, process):
        asked(connected(path, 1), [process], [way.greeting(0)], AHEAD, lines)
    copied(way.journal, count, lines, program, network)
    with served(way.words(program), folder) as (path, process):
        there, *others = connected(path, count + 1)
        Client(there, f"desk n{count} HERE\n".encode(), [], 1)
        for name, some in (("before", []), (f"while {count} networks of {len(lines):,} lines begin", others)):
            for at, it in enumerate(some):
                it.sendall(f"desk n{at} D1\n".encode())
            waits, seconds = waits_of(there, itertools.cycle(lines[:1_000]), some, 0 if some else 5)
            half, most = (waits[len(waits) * it // 100] * 1e3 for it in (50, 99))
            print(f"one who is there, {name}: in {seconds:.1f} s {len(waits):,} lines, half within {half:.2f} ms, "
                  f"99 of 100 within {most:.2f} ms, all within {waits[-1] * 1e3:.1f} ms", flush=True)


def main():
    given = words_of(__doc__, desks={"metavar": "PATH"}, disk={"metavar": "FOLDER", "default": "."},
                     older={"metavar": "WORD", "nargs": "+", "default": []},
                     rounds={"type": int, "default": 3, "metavar": "N"}, short={"action": "store_true"},
                     lines={"type": int, "default": 100_000, "metavar": "N"},
                     starts={"type": int, "default": 0, "metavar": "N"},
                     only={"type": int, "nargs": "+", "default": [], "metavar": "N"})
    program = built(given.program), built(given.desks, "nrm_desks")
    network = networks.hub()
    with contextlib.ExitStack() as stack:
        folder, disk = (stack.enter_context(tempfile.TemporaryDirectory(dir=it)) for it in (None, given.disk))
        path = os.path.join(folder, "network.csv")
        network.write(path)
        crowds = [(clients, ahead, count // 10 if given.short else count) for clients, ahead, count in CROWDS
                  if not given.only or clients in given.only]
        lines = list(lines_of(network, max(given.lines, *(count for _, _, count in crowds))))
        ways = [Way(disk, "1 network", 1), Way(disk, f"{MANY} networks", MANY)]
        ways += [Way(disk, "the older server", 0, given.older)] if given.older else []
        for crowd in crowds:
            tell(measured(ways, crowd, lines, program, path, folder, given.rounds), crowd)
        tell_of_a_start(ways[0], lines[:given.lines], program, path, folder)
        if given.starts:
            tell_of_starts(ways[0], given.starts, lines[:given.lines], program, path, folder)


if __name__ == "__main__":
    end(main)
