#!/usr/bin/env python3
"""Three PostgreSQL servers on this machine that stand for three machines: a database for trials of a fleet.

    tests/databases.py make FOLDER [--port N] [--servers N] [--listen ADDRESS]
    tests/databases.py uri | state | start | end FOLDER
    tests/databases.py kill FOLDER [SERVER]         a server and all its processes, the primary if none is named
    tests/databases.py promote FOLDER               the standby that has most of what was written
    tests/databases.py rejoin FOLDER                servers that are down come back as standbys
    tests/databases.py hold | release FOLDER        the primary's log doesn't reach its standbys, or does so again
    tests/databases.py stop | continue FOLDER SERVER

`make` makes a primary and its standbys in FOLDER, starts them, and prints how to reach them, which is what `nrm-tools
serve` and `nrm-tools journal` take. `promote` and `rejoin` after a `kill` are what Patroni decides by itself; `start`
begins servers that were ended. A commit is acknowledged when the primary and one of the standbys have it on their
disks. It needs Debian's `postgresql`. The servers run as who calls, or as `postgres` where that is root, and whoever
reaches their ports may do everything there: they listen on the loopback if --listen names no other address too.
"""
from __future__ import annotations

import argparse
import contextlib
import os
import pwd
import shutil
import signal
import socket
import subprocess
import sys
import time
from pathlib import Path
from typing import Callable, Dict, Iterator, List, Mapping, Sequence

FOUND = sorted(Path("/usr/lib/postgresql").glob("*/bin/initdb"))
WANTING = "there is no PostgreSQL (Debian has postgresql)"
NAMES = "abcdefg"
LOOPBACK = "127.0.0.1"
USER = DATABASE = "fleet"
PORT = 5440
SECONDS = 60.0
SETTINGS = """
listen_addresses = '{addresses}'
unix_socket_directories = ''
synchronous_standby_names = 'ANY 1 ({names})'
synchronous_commit = on
wal_keep_size = 1GB
wal_retrieve_retry_interval = 200ms
wal_receiver_timeout = 5s
wal_sender_timeout = 5s
max_connections = 300
max_wal_senders = 20
shared_buffers = 128MB
max_wal_size = 2GB
tcp_keepalives_idle = 3
tcp_keepalives_interval = 1
tcp_keepalives_count = 3
tcp_user_timeout = 6000
hot_standby = on
primary_conninfo = '{primary}'
"""


class Fault(Exception):
    """Why something can't be done with the servers."""


def free_ports(count: int) -> List[int]:
    """Ports of the loopback that nobody has now."""
    with contextlib.ExitStack() as stack:
        made = [stack.enter_context(socket.create_server((LOOPBACK, 0))) for _ in range(count)]
        return [int(it.getsockname()[1]) for it in made]


def is_there() -> bool:
    """Whether PostgreSQL is installed here."""
    return bool(FOUND)


def tool(name: str) -> str:
    """The path of a program of PostgreSQL."""
    if not FOUND:
        raise Fault(WANTING)
    return str(FOUND[-1].parent / name)


def keeper() -> Dict[str, object]:
    """The words by which a process runs as `postgres`, where this one is root's."""
    if os.geteuid():
        return {}
    try:
        entry = pwd.getpwnam("postgres")
    except KeyError:
        raise Fault(WANTING)
    return {"user": entry.pw_uid, "group": entry.pw_gid, "extra_groups": []}


def as_keeper(name: str, *words: object) -> str:
    """What a program writes that runs as the servers do, and must end with status 0."""
    done = subprocess.run([name, *map(str, words)], stdout=subprocess.PIPE, stderr=subprocess.STDOUT, cwd="/",
                          **keeper())  # type: ignore[call-overload]
    told: str = done.stdout.decode(errors="replace").strip()
    if done.returncode:
        raise Fault(f"{Path(name).name}: {told}")
    return told


def run(name: str, *words: object) -> str:
    """What a program of PostgreSQL writes, which must end with status 0."""
    return as_keeper(tool(name), *words)


def has_ended(process: int) -> bool:
    """Whether a process is no more, or waits for nothing but that somebody asks for its status."""
    try:
        return Path(f"/proc/{process}/stat").read_text().rpartition(")")[2].split()[0] in "ZX"
    except (FileNotFoundError, ProcessLookupError):
        return True


def send(processes: Sequence[int], what: signal.Signals) -> None:
    """Sends a signal to processes, some of which may have ended."""
    for it in processes:
        with contextlib.suppress(ProcessLookupError):
            os.kill(it, what)


class Databases:
    """The servers of a folder, of which one is the primary and the others are standbys."""
    patience = SECONDS  # for what is waited for

    def __init__(self, folder: Path | str) -> None:
        self.folder = Path(folder).resolve()
        self.ports: Dict[str, int] = {}
        self.addresses: List[str] = []
        with contextlib.suppress(FileNotFoundError):
            addresses, *ports = (self.folder / "servers").read_text().split()
            self.addresses = addresses.split(",")
            self.ports = dict(zip(NAMES, map(int, ports)))

    # How to reach them

    def uri(self, address: str = LOOPBACK, server: str = "", database: str = DATABASE) -> str:
        """Where the database is, on whichever server; or on one of a name."""
        ports = [self.ports[server]] if server else [*self.ports.values()]
        return f"postgresql://{USER}@{','.join(f'{address}:{it}' for it in ports)}/{database}"

    def asked(self, server: str, query: str, database: str = "postgres") -> str:
        """What a server answers to a query: a line for each row, with `|` between two fields."""
        return run("psql", "-XAtq", "-v", "ON_ERROR_STOP=1", "-c", query,
                   f"{self.uri(server=server, database=database)}?connect_timeout=2")

    def state(self) -> Dict[str, str]:
        """Of each server whether it is `primary`, `standby` or `down`."""
        return {it: self.state_of(it) for it in self.ports}

    def state_of(self, server: str) -> str:
        """Whether a server is `primary`, `standby` or `down`."""
        try:
            return "standby" if self.asked(server, "SELECT pg_is_in_recovery()") == "t" else "primary"
        except Fault:
            return "down"

    def primary(self) -> str:
        """The one that writes."""
        found = [it for it, state in self.state().items() if state == "primary"]
        if len(found) != 1:
            raise Fault(f"there is no one primary: {self.state()}")
        return found[0]

    def standbys(self) -> List[str]:
        """Those that follow."""
        return [it for it, state in self.state().items() if state == "standby"]

    # Made and begun

    def make(self, ports: Sequence[int] = (), addresses: Sequence[str] = (LOOPBACK,),
             settings: Mapping[str, str] = {}) -> None:
        """Makes the servers, each on a port, and waits until the standbys follow."""
        if self.folder.exists():
            raise Fault(f"{self.folder} is there already")
        self.folder.mkdir(parents=True)
        if owner := keeper().get("user"):
            os.chown(self.folder, int(str(owner)), -1)
        self.see_that_it_is_reached()
        self.ports, self.addresses = dict(zip(NAMES, ports)), [*addresses]
        (self.folder / "servers").write_text(f"{','.join(addresses)} {' '.join(map(str, ports))}\n")
        first, *others = self.ports
        run("initdb", "-D", self.folder / first, "-U", USER, "--auth=trust", "--no-sync", "--data-checksums",
            "--locale=C", "-E", "UTF8")
        self.set(first, settings)
        for it in others:  # as each was made, and none has begun, a copy of the files is enough
            as_keeper("cp", "-a", self.folder / first, self.folder / it)
            self.mark_as_standby(it)
        for it in self.ports:
            self.start(it)
        self.wait_until_whole()
        self.asked(first, f"CREATE DATABASE {DATABASE}")

    def see_that_it_is_reached(self) -> None:
        """A Fault where the one as whom the servers run can't come to the folder."""
        try:
            as_keeper("test", "-w", self.folder)
        except Fault:
            os.rmdir(self.folder)
            raise Fault(f"the servers run as `postgres`, who can't come to {self.folder}")

    def set(self, server: str, settings: Mapping[str, str]) -> None:
        """Writes the settings of a server that hasn't begun, and who may come to it."""
        text = SETTINGS.format(addresses=",".join(self.addresses), names=", ".join(self.ports),
                               primary=f"{self.uri(database='').rstrip('/')}?target_session_attrs=read-write")
        text += "".join(f"{name} = '{value}'\n" for name, value in settings.items())
        with open(self.folder / server / "postgresql.conf", "a") as file:
            file.write(text)
        with open(self.folder / server / "pg_hba.conf", "a") as file:
            file.writelines(f"host all,replication {USER} {it}/24 trust\n" for it in self.addresses)

    def copy(self, server: str, source: str) -> None:
        """Makes a standby, as a copy of another server."""
        run("pg_basebackup", "-d", self.uri(server=source, database="postgres"), "-D", self.folder / server, "-c",
            "fast", "--no-sync")
        self.mark_as_standby(server)

    def mark_as_standby(self, server: str) -> None:
        """Has a server that is down begin as a standby."""
        path = self.folder / server / "standby.signal"
        path.touch()
        shutil.copymode(self.folder / server / "postgresql.conf", path)
        with contextlib.suppress(PermissionError):
            os.chown(path, self.folder.stat().st_uid, self.folder.stat().st_gid)

    def start(self, server: str) -> None:
        """Begins a server that is down."""
        if not self.processes(server):
            with contextlib.suppress(FileNotFoundError):
                os.unlink(self.folder / server / "postmaster.pid")
        run("pg_ctl", "start", "-w", "-t", int(SECONDS), "-D", self.folder / server, "-l",
            self.folder / f"{server}.log", "-o", f"-c port={self.ports[server]} -c cluster_name={server}")

    def end(self) -> None:
        """Ends the servers that are there, whatever they are at."""
        for it in self.ports:
            if found := self.processes(it):
                send(found, signal.SIGCONT)
                run("pg_ctl", "stop", "-m", "immediate", "-t", int(SECONDS), "-D", self.folder / it)

    # What happens to them

    def processes(self, server: str) -> List[int]:
        """The process of a server, and behind it those below; none if it is down."""
        try:
            first = int((self.folder / server / "postmaster.pid").read_text().split("\n")[0])
            if str(self.folder / server) not in Path(f"/proc/{first}/cmdline").read_text() or has_ended(first):
                return []
            below = Path(f"/proc/{first}/task/{first}/children").read_text().split()
        except (FileNotFoundError, ProcessLookupError, ValueError):
            return []
        return [first, *map(int, below)]

    def kill(self, server: str) -> None:
        """As if its machine had stopped: all processes end, and the first can't tell anybody."""
        first = self.processes(server)[:1]
        if not first:
            raise Fault(f"{server} is down")
        send(first, signal.SIGSTOP)
        processes = self.processes(server)
        send([*processes[1:], *first], signal.SIGKILL)
        self.wait(lambda: all(map(has_ended, processes)), f"the end of {server}")

    def stop(self, server: str) -> None:
        """All processes of a server stand still, as on a machine that has frozen."""
        send(self.processes(server)[:1], signal.SIGSTOP)
        send(self.processes(server), signal.SIGSTOP)

    def go_on(self, server: str) -> None:
        """A server that was stopped, or held back, goes on."""
        send(self.processes(server), signal.SIGCONT)

    def hold(self, primary: str) -> None:
        """The log of a primary reaches no standby any more, so that they fall behind."""
        send([it for it in self.processes(primary)[1:] if "walsender" in title_of(it)], signal.SIGSTOP)

    def promote(self) -> str:
        """Promotes the standby that has most, since what another lacks may have been answered. Which it is is known
        only while all are there, and of standbys that followed the primary that is lost. Gives its name."""
        state = self.state()
        if "primary" in state.values():
            raise Fault("there is a primary")
        has = {it: int(self.asked(it, "SELECT greatest(pg_last_wal_receive_lsn(), pg_last_wal_replay_lsn()) - "
                                      "'0/0'::pg_lsn")) for it in state if state[it] == "standby"}
        if len(has) < len(state) - 1:
            raise Fault(f"of the standbys one is down, and may have more than the others: {state}")
        most = max(has, key=lambda it: has[it])
        self.asked(most, "SELECT pg_promote(true, 30)")
        self.asked(most, "CHECKPOINT")  # before it `pg_rewind` takes the server for one that was never promoted
        return most

    def rejoin(self) -> None:
        """Servers that are down become standbys: what nobody else has is wound back, or else they are copied."""
        source = self.primary()
        for it in [it for it, state in self.state().items() if state == "down"]:
            try:
                run("pg_rewind", "-D", self.folder / it, "--source-server",
                    self.uri(server=source, database="postgres"))
                self.mark_as_standby(it)
                self.start(it)
            except Fault:
                shutil.rmtree(self.folder / it)
                self.copy(it, source)
                self.start(it)
        self.wait_until_whole()

    def is_whole(self) -> bool:
        """Whether all standbys follow the primary."""
        try:
            following = self.asked(self.primary(), "SELECT count(*) FROM pg_stat_replication WHERE state = 'streaming'")
            return int(following) == len(self.ports) - 1
        except Fault:
            return False

    def wait_until_whole(self) -> None:
        """Waits until all standbys follow the primary."""
        self.wait(self.is_whole, "that all standbys follow the primary")

    def wait(self, condition: Callable[[], object], what: str) -> None:
        """Waits for something; a Fault if it doesn't come."""
        deadline = time.monotonic() + self.patience
        while not condition():
            if time.monotonic() > deadline:
                raise Fault(f"{what} doesn't come: {self.state()}")
            time.sleep(0.05)


def title_of(process: int) -> str:
    """What a process of a server says that it is."""
    try:
        return Path(f"/proc/{process}/cmdline").read_text()
    except (FileNotFoundError, ProcessLookupError):
        return ""


# The command


def told_of(given: argparse.Namespace) -> Iterator[str]:
    """Does what the words ask for, and gives what is to be told."""
    servers = Databases(given.folder)
    if given.what == "make":
        addresses = [LOOPBACK, *([given.listen] if given.listen else [])]
        servers.make(range(given.port, given.port + given.servers), addresses)
        yield servers.uri()
    elif not servers.ports:
        raise Fault(f"{given.folder} has no servers: `make` makes some")
    elif given.what == "uri":
        yield servers.uri()
    elif given.what == "state":
        yield from (f"{it} {servers.ports[it]} {state}" for it, state in servers.state().items())
    elif given.what == "start":
        for it, state in servers.state().items():
            if state == "down":
                servers.start(it)
        servers.wait_until_whole()
        yield servers.uri()
    elif given.what == "promote":
        yield servers.promote()
    elif given.what in ("rejoin", "end"):
        getattr(servers, given.what)()
    else:
        changed = given.server or servers.primary()
        {"kill": servers.kill, "stop": servers.stop, "continue": servers.go_on, "hold": servers.hold,
         "release": servers.go_on}[given.what](changed)
        yield changed


def main() -> int:
    words = argparse.ArgumentParser(description=__doc__, formatter_class=argparse.RawDescriptionHelpFormatter)
    words.add_argument("what", choices=["make", "uri", "state", "start", "end", "kill", "promote", "rejoin", "hold",
                                        "release", "stop", "continue"])
    words.add_argument("folder")
    words.add_argument("server", nargs="?", default="")
    words.add_argument("--port", type=int, default=PORT)
    words.add_argument("--servers", type=int, default=3, choices=range(1, len(NAMES) + 1))
    words.add_argument("--listen", default="")
    given = words.parse_args()
    try:
        for it in told_of(given):
            print(it)
    except Fault as fault:
        print(f"databases.py: {fault}", file=sys.stderr)
        return 1
    return 0


if __name__ == "__main__":
    sys.exit(main())
