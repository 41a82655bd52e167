#!/usr/bin/env python3
"""How many lines a second go through a fleet, how long one takes, and how long nobody answers when a server is lost.

    bench/fleet.py [PROGRAM] [--desks PATH] [--disk FOLDER] [--servers N] [--rounds N] [--seconds N]
        [--parts PART,PART..] [--lines N,N..] [--many N] [--short]

The folders python/src and tests of a checkout must be on PYTHONPATH. PROGRAM is `nrm`, and --desks names `nrm_desks`;
else they are those that the sources are built into. Three database servers and those of `nrm-tools serve`, 3 of them if
--servers says no other number, are all on this machine, with their data on the disk of FOLDER, by default the current
one. It needs Debian's `postgresql` and `python3-psycopg`, and Debian's own Python. The parts, all of them if none is
named:

    pgbench   clients that each put one row a commit into a table of these servers, 1, 10, 100 and 200 of them
    crowds    clients that each wait for a reply, as many, at one network and at 20, and 1 that sends 100 lines ahead
    size      the bytes that a line takes in the table, with its indexes, and in the log
    takeover  from the kill of the server that has a network to the first reply of another, behind 0, 100,000 and
              1,000,000 lines, or as many as --lines says
    many      of 1,000 networks, or as many as --many says, on all servers: how long after a kill all are taken, and
              which share of a processor a server takes while nobody asks

Of --rounds rounds, 3 if nothing is said, the best is told of what goes through, and the least and the most of what is
waited for. The lines book and cancel on a network of 20 legs and 120 products, in mode `bid`. --short asks a tenth.
"""
import contextlib
import os
import re
import socket
import subprocess
import sys
import tempfile
import time
from pathlib import Path

import networks
from nrm import Stop
from nrm.program import Program
from running import built, end, words_of
from serve import AHEAD, TOOLS, Client, asked, lines_of, processor_time

try:
    import databases  # of the folder tests at the top
except ImportError:
    databases = None
CROWDS = [(1, 1, 1, 1_000), (10, 1, 1, 10_000), (100, 1, 1, 40_000), (200, 1, 1, 60_000), (10, 1, 20, 5_000),
          (100, 1, 20, 20_000), (200, 1, 20, 40_000), (1, AHEAD, 1, 40_000), (20, AHEAD, 20, 100_000)]
WRITERS = (1, 10, 100, 200)
PARTS = "pgbench,crowds,size,takeover,many"
LENGTHS = "0,100000,1000000"
SECONDS = 120  # for which something is waited for
SETTLED = 600  # and that no network moves any more: servers move few at a time
IDLE = 10  # seconds in which nobody asks
QUIET = 6  # seconds after which a server that has begun takes networks and follows some
FOLLOWED = 20_000  # lines a second, at least, that are given to a program which follows
COPIED = 10_000  # rows at once
PLAIN = "INSERT INTO plain (network, desk, line, reply) VALUES (:client_id, 'COUNTER-7', 'book HJ-Q 2', 'ok 17');\n"
TABLE = """CREATE TABLE IF NOT EXISTS plain (network int, number bigserial, desk text, line text, reply text,
           PRIMARY KEY (network, number))"""
COPIES = """INSERT INTO network (name, mode, file, program, begun)
            SELECT 'n' || place, mode, file, program, begun FROM network, generate_series(1, {count} - 1) AS place;
            INSERT INTO head (network, lines, epoch) SELECT network, 0, 0 FROM network WHERE name <> 'n0'"""


class Fleet:
    """A journal in a database of its own, and its servers."""

    def __init__(self, bench, name, count, options=()):
        self.bench, self.folder, self.options = bench, bench.folder, options
        bench.ask(f"CREATE DATABASE {name}")
        self.uri, self.name = bench.databases.uri(database=name), name
        self.ports = databases.free_ports(bench.given.servers)
        self.running = {}
        self.tools("begin")
        self.tools("open", "n0", "bid", bench.network, "--program", bench.program[1])
        bench.ask(COPIES.format(count=count), name)

    def tools(self, way, *words):
        done = subprocess.run([*TOOLS, "journal", way, self.uri, *words], capture_output=True, text=True)
        if done.returncode:
            raise Stop(f"`nrm-tools journal {way}` ended with status {done.returncode}: {done.stderr.strip()}")

    def __enter__(self):
        for at in range(len(self.ports)):
            self.start(at)
        return self

    def __exit__(self, *_):
        for at in [*self.running]:
            self.kill(at)

    def start(self, at):
        words = [*TOOLS, "serve", self.uri, "--listen", f"127.0.0.1:{self.ports[at]}", "--name", f"server-{at}",
                 "--clients", "2000", *self.options, "--program", self.bench.program[1]]
        with open(self.folder / f"{self.name}-{at}.log", "a") as told:
            self.running[at] = subprocess.Popen(words, stderr=told)

    def kill(self, at):
        self.running[at].kill()
        self.running.pop(at).wait()

    def settled(self):
        """Waits until each network has an owner and none moves."""
        before, deadline = None, time.monotonic() + SETTLED
        while True:
            time.sleep(QUIET)
            now = self.bench.ask("SELECT network, server FROM head ORDER BY network", self.name)
            if now == before and not re.search(r"\|$", now, re.M):
                return
            if time.monotonic() > deadline:
                raise Stop("networks go on moving")
            before = now

    def owner(self, network="n0"):
        """The place of the server that has a network."""
        name = self.bench.ask("SELECT server.name FROM head JOIN server USING (server) JOIN network USING (network) "
                              f"WHERE network.name = '{network}'", self.name)
        return int(name.rpartition("-")[2])

    def owners(self, count):
        """The places of the servers that have networks."""
        told = self.bench.ask("SELECT network.name, server.name FROM head JOIN server USING (server) "
                              "JOIN network USING (network)", self.name)
        found = dict(it.split("|") for it in told.splitlines())
        return [int(found[f"n{at}"].rpartition("-")[2]) for at in range(count)]

    def connected(self, at):
        """A connection to a server."""
        made = socket.create_connection(("127.0.0.1", self.ports[at]), SECONDS)
        made.setsockopt(socket.IPPROTO_TCP, socket.TCP_NODELAY, 1)
        return made

    def first_reply(self, name, line=b"cancel 1\n", network="n0", but=-1):
        """Waits until some server but one answers a line, and begins at each again and again."""
        deadline = time.monotonic() + SECONDS
        while time.monotonic() < deadline:
            for at in [it for it in self.running if it != but]:
                with contextlib.suppress(OSError), self.connected(at) as made:
                    made.sendall(f"desk {network} {name} 1\n".encode() + line)
                    told = b""
                    while told.count(b"\n") < 2 and (piece := made.recv(1000)):
                        told += piece
                    if told.startswith(b"at 1\n") and b"closed" not in told:
                        return
            time.sleep(0.01)
        raise Stop(f"nobody answers for {network}")

    def processor(self):
        """The seconds that the servers have been at work, without their programs."""
        return sum(processor_time(it.pid) for it in self.running.values())


class Bench:
    """What is measured, on databases that are made once."""

    def __init__(self, given, folder):
        self.given, self.folder, self.drawn = given, folder, 0
        self.program = built(given.program), built(given.desks, "nrm_desks")
        self.network = str(folder / "network.csv")
        networks.hub().write(self.network)
        self.databases = databases.Databases(folder / "databases")

    def __enter__(self):
        self.databases.make(databases.free_ports(3))
        return self

    def __exit__(self, *_):
        self.databases.end()

    def ask(self, query, database="postgres"):
        """What the primary answers."""
        return self.databases.asked(self.databases.primary(), query, database)

    def lines(self, count):
        return [*lines_of(networks.hub(), count // 10 if self.given.short else count)]

    # The parts

    def pgbench(self):
        primary = self.databases.primary()
        self.ask(TABLE)
        path = self.folder / "plain.sql"
        path.write_text(PLAIN)
        os.chmod(path, 0o644)
        for clients in WRITERS:
            found = []
            for _ in range(self.given.rounds):
                told = databases.run("pgbench", "-n", "-M", "prepared", "-h", "127.0.0.1", "-p",
                                     self.databases.ports[primary], "-U", databases.USER, "-c", clients, "-j",
                                     min(clients, 2), "-T", self.given.seconds, "-f", path, "postgres")
                found.append((float(re.search(r"tps = ([0-9.]+)", told)[1]),
                              float(re.search(r"latency average = ([0-9.]+)", told)[1])))
            print(f"pgbench, {clients} clients, one row a commit: {max(found)[0]:,.0f} rows/s, {max(found)[1]:.2f} ms "
                  f"on the mean; the least round {min(found)[0]:,.0f}", flush=True)

    def crowds(self):
        for clients, ahead, over, count in CROWDS:
            found, lines = [], self.lines(count)
            for at in range(self.given.rounds):
                with Fleet(self, f"crowd_{clients}_{ahead}_{over}_{at}", over) as fleet:
                    fleet.settled()
                    owners = fleet.owners(over)
                    for network in range(over):
                        fleet.first_reply("WARM", b"ask X\n", f"n{network}")
                    made = [fleet.connected(owners[it % over]) for it in range(clients)]
                    greetings = [f"desk n{it % over} D{it} 1\n".encode() for it in range(clients)]
                    processes = [it.pid for it in fleet.running.values()]
                    seconds, took, worked = asked(made, processes, greetings, ahead, lines)
                    found.append((len(lines) / seconds, took[len(took) // 2] * 1e3, took[len(took) * 99 // 100] * 1e3,
                                  worked[0] / len(lines) * 1e6))
            rate, half, most, worked = max(found)
            print(f"{clients} clients, {ahead} ahead, {over} networks: {rate:,.0f} lines/s, half within {half:.2f} ms, "
                  f"99 of 100 within {most:.2f} ms, {worked:.0f} µs of the servers' own a line; the least round "
                  f"{min(found)[0]:,.0f}", flush=True)

    def size(self):
        lines = self.lines(100_000)
        with Fleet(self, "size", 1) as fleet:
            fleet.settled()
            before = int(self.ask("SELECT pg_current_wal_lsn() - '0/0'::pg_lsn"))
            asked([fleet.connected(fleet.owner()) for _ in range(100)], [], [f"desk n0 D{it} 1\n".encode()
                                                                             for it in range(100)], 1, lines)
            log = int(self.ask("SELECT pg_current_wal_lsn() - '0/0'::pg_lsn")) - before
            told = self.ask("SELECT count(*), pg_table_size('line'), pg_total_relation_size('line') FROM line", "size")
            count, table, whole = map(int, told.split("|"))
        print(f"{count:,} lines: {table / count:.0f} bytes a line in the table, {whole / count:.0f} with its indexes, "
              f"{log / count:.0f} in the log, by 100 clients", flush=True)

    def takeover(self):
        for count in map(int, self.given.lines.split(",")):
            fleet = Fleet(self, f"long_{count}", 1)
            self.fill(fleet, count)
            took = []
            with fleet:
                for number in range(self.given.rounds):
                    fleet.settled()
                    fleet.first_reply(f"B{number}")
                    time.sleep(QUIET + count / FOLLOWED)
                    owner, begun = fleet.owner(), time.perf_counter()
                    fleet.kill(owner)
                    fleet.first_reply(f"A{number}", but=owner)
                    took.append(time.perf_counter() - begun)
                    fleet.start(owner)
            print(f"behind {count:,} lines: from the kill to a reply {min(took):.2f} to {max(took):.2f} s", flush=True)

    def fill(self, fleet, count):
        """Puts lines into a journal as the program would have answered them."""
        if not count:
            return
        lines = [*lines_of(networks.hub(), count)]
        told = Program((self.program[0],)).replies_of_a_line("bid", self.network, b"".join(lines))
        import psycopg
        with psycopg.connect(fleet.uri, target_session_attrs="read-write") as connection:
            [network] = connection.execute("SELECT network FROM network").fetchone()
            with connection.cursor().copy("COPY line (network, epoch, at, number, desk, sequence, line, reply) "
                                          "FROM STDIN") as copy:
                for at in range(0, count, COPIED):
                    some = zip(lines[at:at + COPIED], told[at:at + COPIED])
                    copy.write(b"".join(b"%d\t0\t0\t%d\tD%d\t%d\t%s\t%s\n" % (
                        network, number, number % 500, number, line[:-1], reply)
                        for number, (line, reply) in enumerate(some, at + 1)))
            connection.execute("UPDATE head SET lines = %s", [count])

    def many(self):
        count = self.given.many
        with Fleet(self, "many", count) as fleet:
            fleet.settled()
            worked = fleet.processor()
            time.sleep(IDLE)
            share = (fleet.processor() - worked) / IDLE / len(fleet.running)
            owned = "SELECT count(*) FROM head JOIN server USING (server) WHERE name = 'server-0'"
            lost, begun = int(self.ask(owned, "many")), time.perf_counter()
            fleet.kill(0)
            while int(self.ask(owned, "many")):
                if time.perf_counter() - begun > SECONDS:
                    raise Stop(f"not all networks are taken in {SECONDS} s")
                time.sleep(0.1)
            took = time.perf_counter() - begun
            print(f"{count:,} networks: the {lost} of a server that was killed were taken in {took:.1f} s; while "
                  f"nobody asks each server takes {share:.1%} of a processor", flush=True)


def main():
    given = words_of(__doc__, desks={"metavar": "PATH"}, disk={"metavar": "FOLDER", "default": "."},
                     servers={"type": int, "default": 3, "metavar": "N"},
                     rounds={"type": int, "default": 3, "metavar": "N"},
                     seconds={"type": int, "default": 10, "metavar": "N"}, short={"action": "store_true"},
                     parts={"default": PARTS, "metavar": "PART,PART.."}, lines={"default": LENGTHS, "metavar": "N,N.."},
                     many={"type": int, "default": 1000, "metavar": "N"})
    if not databases:
        raise Stop("the folder tests of a checkout isn't on PYTHONPATH")
    unknown = set(given.parts.split(",")) - set(PARTS.split(","))
    if unknown:
        raise Stop(f"there is no part {sorted(unknown)[0]}")
    with tempfile.TemporaryDirectory(dir=given.disk) as folder:
        os.chmod(folder, 0o755)
        try:
            with Bench(given, Path(folder)) as bench:
                for it in given.parts.split(","):
                    getattr(bench, it)()
        except databases.Fault as fault:
            raise Stop(str(fault))


if __name__ == "__main__":
    end(main)
