#!/usr/bin/env python3
"""What all that an operator has on costs: a bare `nrm-tools serve`, and in turn with it one with everything beside it.

    bench/operated.py [PROGRAM] [--desks PATH] [--disk FOLDER] [--rounds N] [--short]

PROGRAM is `nrm`, and --desks names `nrm_desks`; else they are those that the sources are built into. Both servers have
a journal on the disk of FOLDER, by default the current one, and get the same lines as in `bench/serve.py`. The second
has a file of desks, each client a token, the log as JSON, a clock with times for each network, and `--every`; its
status is asked for each second, and `nrm-tools web` follows it with a page that somebody looks at, whose stream is
read. It needs jinja2. Clients come by the Unix socket: 1, 10, 200, and 1 that sends 100 lines ahead; and 10 by a port,
where the second speaks TLS. Of each is told the median of N rounds, by default 7, of lines a second, of the times
within which half of the lines were answered and 99 of 100, and of the processor time that a line takes in the server
and its programs, and beside them in the web and in who asks; and then the ratio of the medians, which for lines is to
be 0.9 at least. Processor time depends less on what else the machine does. --short asks a tenth of the lines.
"""
import contextlib
import os
import ssl
import statistics
import subprocess
import sys
import tempfile
import time
from pathlib import Path
from typing import NamedTuple

import networks
import serve
from nrm import Stop
from nrm.journal.network_times import Times, set_times
from nrm.journal.sqlite_tables import using
from nrm.libraries import is_there, lacks
from nrm.server.access import RIGHTS, add_desk
from running import built, end, words_of

CROWDS = [(1, 1, 3_000, False), (10, 1, 20_000, False), (200, 1, 60_000, False), (1, 100, 60_000, False),
          (10, 1, 20_000, True)]  # clients, lines ahead, lines, and whether they come by a port
ASK = """import sys, time
from nrm.server.status_text import ask_status
while True:
    ask_status(sys.argv[1], 30, sys.argv[2])
    time.sleep(1)
"""
LOOK = """import sys, urllib.request
for line in urllib.request.urlopen(sys.argv[1] + "/networks/n0/events", timeout=60):
    pass
"""
CERTIFICATE = ("openssl req -x509 -newkey ec -pkeyopt ec_paramgen_curve:prime256v1 -nodes -days 2 -subj /CN=localhost "
               "-addext subjectAltName=DNS:localhost,IP:127.0.0.1").split()
DAY = 86_400_000


class Measured(NamedTuple):
    """Of one turn: lines a second, the milliseconds for half and for 99 of 100, and the microseconds of processor time
    of a line in the server and its programs, and beside them."""
    lines: float
    half: float
    most: float
    server: float
    beside: float


class Bare(serve.Way):
    """A server with nothing beside it."""

    def __init__(self, folder, is_by_port):
        super().__init__(folder, "bare", 1)
        self.folder, self.is_by_port = folder, is_by_port

    def words(self, program):
        return super().words(program) + (["--listen", "127.0.0.1:0"] if self.is_by_port else [])

    def connected(self, path, count):
        """So many clients: by the port that the server told of, or by its path."""
        if not self.is_by_port:
            return serve.connected(path, count)
        told = (Path(path).parent / "told").read_text()
        port = int(told.split("127.0.0.1:")[1].split()[0].strip('",}'))
        return [self.by_port(port) for _ in range(count)]

    def by_port(self, port):
        made = serve.socket.create_connection(("127.0.0.1", port), serve.SECONDS)
        made.setsockopt(serve.socket.IPPROTO_TCP, serve.socket.TCP_NODELAY, True)
        return made

    @contextlib.contextmanager
    def beside(self, path):
        """The processes that run beside the server."""
        yield []


class Operated(Bare):
    """A server with everything that an operator has on."""

    def __init__(self, folder, is_by_port):
        super().__init__(folder, is_by_port)
        self.name = "all on"
        self.desks, self.made = os.path.join(folder, "desks.toml"), os.path.join(folder, "certificate.pem")
        with contextlib.suppress(FileNotFoundError):
            os.unlink(self.desks)
        self.token = add_desk(self.desks, "BENCH", RIGHTS, False)
        self.token_file = os.path.join(folder, "token")
        Path(self.token_file).write_text(self.token)
        subprocess.run([*CERTIFICATE, "-keyout", f"{self.made}.key", "-out", self.made], check=True,
                       stderr=subprocess.DEVNULL)

    def begin(self, program, network):
        words = super().begin(program, network)
        now = int(1000 * time.time())
        with using(self.journal, is_to_write=True) as connection, connection.change():
            set_times(connection, 1, Times(now + 9 * DAY, ((2, now + DAY), (3, now + 2 * DAY))))
        return words

    def words(self, program):
        secure = ["--certificate", self.made, "--key", f"{self.made}.key"] if self.is_by_port else []
        return [*super().words(program), "--desks", self.desks, *secure, "--log", "json", "--every", "30m"]

    def greeting(self, at):
        return f"token {self.token}\n{super().greeting(at).decode()}".encode()

    def by_port(self, port):
        context = ssl.create_default_context(cafile=self.made)
        return context.wrap_socket(super().by_port(port), server_hostname="localhost")

    @contextlib.contextmanager
    def beside(self, path):
        web = subprocess.Popen([*serve.TOOLS, "web", self.journal, "--socket", path, "--listen", "127.0.0.1:0",
                                "--page", "--door", "--token", self.token_file], stderr=subprocess.PIPE, text=True)
        others = []
        try:
            place = web.stderr.readline().split()[-1]
            env = {**os.environ, "PYTHONPATH": str(serve.TOP / "python" / "src")}
            for script, words in ((ASK, (path, self.token)), (LOOK, (place,))):
                others.append(subprocess.Popen([sys.executable, "-c", script, *words], env=env,
                                               stderr=subprocess.DEVNULL))
            time.sleep(1)
            yield [web.pid, others[0].pid]
        finally:
            for it in (*others, web):
                it.kill()
                it.wait()
            web.stderr.close()


class Client(serve.Client):
    """A client that may give a token first, and whose connection may have taken more than it gave."""

    def __init__(self, connection, greeting, lines, ahead):
        super().__init__(connection, b"", lines, ahead)
        connection.sendall(greeting)
        told, count = b"", greeting.count(b"\n")
        while told.count(b"\n") < count:
            told += connection.recv(1000) or end_of(told)
        if not told.split(b"\n")[count - 1].startswith(b"at "):
            raise Stop(f"{told} to {greeting}")

    def hear(self, took):
        count = super().hear(took)
        while getattr(self.socket, "pending", int)():
            count += super().hear(took)
        return count


def end_of(told):
    """A connection that ended where it shouldn't."""
    raise Stop(f"the connection has ended behind {told}")


def work_of(processes):
    """The seconds that processes and those that they have begun have been at work."""
    return serve.times_of(processes)[1]


def turn(way, crowd, lines, program, network, folder):
    """What is measured of a way in one turn."""
    clients, ahead, count, _ = crowd
    with serve.served(way.begin(program, network), folder) as (path, process):
        [first] = serve.connected(path, 1)
        Client(first, way.greeting(0), [], 1)
        first.close()
        with way.beside(path) as beside:
            made = way.connected(path, clients)
            crowd_of = [Client(it, way.greeting(at), lines[:count][at::clients], ahead) for at, it in enumerate(made)]
            before = work_of([process]), work_of(beside)
            seconds, took = all_asked(crowd_of, count)
            server, others = work_of([process]) - before[0], work_of(beside) - before[1]
            for it in made:
                it.close()
    return Measured(count / seconds, 1e3 * took[count // 2], 1e3 * took[count * 99 // 100], 1e6 * server / count,
                    1e6 * others / count)


def all_asked(clients, count):
    """The seconds in which clients ask all lines, and how long each took, in order."""
    poll, by_file, took, answered = serve.select.epoll(), {it.socket.fileno(): it for it in clients}, [], 0
    for file in by_file:
        poll.register(file, serve.select.EPOLLIN)
    begun = time.perf_counter()
    for it in clients:
        it.ask(begun)
    while answered < count:
        for file, _ in serve.waited_for(poll):
            answered += by_file[file].hear(took)
    return time.perf_counter() - begun, sorted(took)


def tell(crowd, found):
    """Tells the medians of both ways, and their ratios."""
    clients, ahead, count, is_by_port = crowd
    by = "a port" if is_by_port else "the socket"
    medians = {name: Measured(*map(statistics.median, zip(*turns))) for name, turns in found.items()}
    for name, it in medians.items():
        print(f"{clients} clients, {ahead} ahead, by {by}, {name}: {it.lines:,.0f} lines/s, half within {it.half:.2f} "
              f"ms, 99 of 100 within {it.most:.2f} ms, {it.server:.0f} µs of the server and its program a line and "
              f"{it.beside:.0f} µs beside it")
    bare, on = medians.values()
    print(f"{clients} clients, {ahead} ahead, by {by}: all on to bare {on.lines / bare.lines:.2f} times the lines, "
          f"{on.half / bare.half:.2f} and {on.most / bare.most:.2f} times as long, {on.server / bare.server:.2f} times "
          f"the work of the server", flush=True)


def main():
    given = words_of(__doc__, desks={"metavar": "PATH"}, disk={"metavar": "FOLDER", "default": "."},
                     rounds={"type": int, "default": 7, "metavar": "N"}, short={"action": "store_true"})
    program = built(given.program), built(given.desks, "nrm_desks")
    if not is_there("jinja2"):
        raise Stop(f"there is no page to look at: {lacks(['jinja2'])}")
    network = networks.hub()
    with contextlib.ExitStack() as stack:
        folder, disk = (stack.enter_context(tempfile.TemporaryDirectory(dir=it)) for it in (None, given.disk))
        path = os.path.join(folder, "network.csv")
        network.write(path)
        crowds = [(a, b, count // 10 if given.short else count, d) for a, b, count, d in CROWDS]
        lines = list(serve.lines_of(network, max(count for _, _, count, _ in crowds)))
        for crowd in crowds:
            ways = [Bare(disk, crowd[3]), Operated(disk, crowd[3])]
            found = {it.name: [] for it in ways}
            for at in range(given.rounds):
                for way in ways[::1 if at % 2 else -1]:
                    found[way.name].append(turn(way, crowd, lines, program, path, folder))
            tell(crowd, found)


if __name__ == "__main__":
    end(main)
