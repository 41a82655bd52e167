"""Three PostgreSQL servers under Patroni on one machine, each from the template of examples/fleet, with TLS and
passwords, and the etcd that they agree by. It has one member alone: that its members agree is etcd's own affair, and
what a node does that doesn't reach it is the same, however many there are."""
from __future__ import annotations

import contextlib
import json
import os
import shutil
import signal
import subprocess
import urllib.request
from pathlib import Path
from typing import Dict, Iterator, List, Sequence

import databases  # of the folder tests at the top
from databases import LOOPBACK, NAMES, USER, Databases, Fault, keeper, send, title_of, tool
from harness import TOP

TEMPLATE = TOP / "examples" / "fleet" / "patroni.yml"
PROGRAMS = "patroni", "patronictl", "etcd", "openssl", "setpriv"
PASSWORD = "Secret-of-the-fleet"
WAITS = "synchronous_standby_names = '*'\n"
QUICK = {"ttl: 30": "ttl: 8", "loop_wait: 10": "loop_wait: 1", "retry_timeout: 10": "retry_timeout: 3"}
LEADER, WAITED_FOR, RUNS = "leader", "sync_standby", ("running", "streaming")  # as Patroni tells them
SUPERUSER = "postgres"
ROLE = f"SET synchronous_commit = local; CREATE ROLE {USER} LOGIN CREATEDB PASSWORD '{PASSWORD}' IN ROLE pg_monitor"


def why_not() -> str:
    """Why there can be no Patroni here; empty if there can."""
    without = [it for it in PROGRAMS if not shutil.which(it)]
    if not databases.is_there():
        return databases.WANTING
    return f"there is no {' and no '.join(without)} (Debian has patroni, etcd-server and openssl)" if without else ""


def as_owner() -> List[str]:
    """The words before a command by which it runs as the servers do, where that isn't as this process."""
    owner = keeper().get("user")
    return ["setpriv", f"--reuid={owner}", f"--regid={keeper()['group']}", "--clear-groups"] if owner else []


class Nodes(Databases):
    """The servers of a folder, each with a Patroni of its own, which decides which of them is the primary.

    places  the address of each
    before  the words by which what belongs to it runs on its machine
    """
    patience = 3 * databases.SECONDS

    def __init__(self, folder: Path | str) -> None:
        super().__init__(folder)
        self.places: Dict[str, str] = {}
        self.before: Dict[str, Sequence[str]] = {}
        self.rests: Dict[str, int] = {}
        self.etcd_at, self.etcd_port = LOOPBACK, 0
        self.running: Dict[str, subprocess.Popen[bytes]] = {}

    # How to reach them

    def uri(self, address: str = "", server: str = "", database: str = databases.DATABASE, user: str = USER) -> str:
        """Where the database is, for who reaches it by TLS and with a password."""
        hosts = ",".join(f"{self.places[it]}:{self.ports[it]}" for it in ([server] if server else self.ports))
        return f"postgresql://{user}@{hosts}/{database}?sslmode=verify-full&sslrootcert={self.folder}/ca.crt" \
               f"&passfile={self.folder}/passwords"

    def asked(self, server: str, query: str, database: str = "postgres", user: str = USER) -> str:
        """What a server answers to a query."""
        done = subprocess.run([tool("psql"), "-XAtq", "-v", "ON_ERROR_STOP=1", "-c", query,
                               f"{self.uri(server=server, database=database, user=user)}&connect_timeout=10"],
                              capture_output=True, text=True)
        if done.returncode:
            raise Fault(f"psql: {done.stderr.strip()}")
        return done.stdout.strip()

    # Made and begun

    def make_nodes(self, ports: Sequence[int], places: Sequence[str] = (LOOPBACK,) * 3,
                   before: Sequence[Sequence[str]] = ((),) * 3, etcd_at: str = LOOPBACK) -> None:
        """Makes an etcd and three nodes, begins them, and waits until they follow each other. Of the eight ports two
        are etcd's, and two each node's."""
        etcd, peer, *others = ports
        self.ports, self.rests = dict(zip(NAMES, others[:3])), dict(zip(NAMES, others[3:]))
        self.places, self.before = dict(zip(NAMES, places)), dict(zip(NAMES, before))
        self.etcd_at, self.etcd_port = etcd_at, etcd
        self.make_folder()
        self.begin_etcd(peer)
        for it in self.ports:
            self.write_template(it)
            self.start(it)
        self.wait(self.has_role, "a primary by Patroni")
        self.wait_until_whole()

    def has_role(self) -> bool:
        """Whether there is a primary, which has the role of the tests."""
        with contextlib.suppress(Fault):
            self.asked(self.primary_by_patroni(), ROLE, user=SUPERUSER)
            return True
        return False

    def make_folder(self) -> None:
        """Makes what the nodes have in common: certificates, and the file of passwords."""
        self.folder.mkdir(parents=True, exist_ok=True)
        self.give(self.folder)
        self.see_that_it_is_reached()
        for it in self.ports:
            (self.folder / it).mkdir(mode=0o700, exist_ok=True)
            (self.folder / f"{it}.etc").mkdir(exist_ok=True)
        make_certificates(self.folder, sorted({*self.places.values()}))
        (self.folder / "waits.conf").write_text(WAITS)
        passwords = self.folder / "passwords"
        passwords.write_text(f"*:*:*:*:{PASSWORD}\n")
        passwords.chmod(0o600)
        for it in [*self.ports, *(f"{it}.etc" for it in self.ports), "server.key"]:
            self.give(self.folder / it)

    def give(self, path: Path) -> None:
        """Has a path belong to whom the servers run as."""
        if owner := keeper().get("user"):
            os.chown(path, int(str(owner)), int(str(keeper()["group"])))

    def begin_etcd(self, peer: int) -> None:
        """Begins etcd."""
        url, peers = f"http://{self.etcd_at}:{self.etcd_port}", f"http://{LOOPBACK}:{peer}"
        self.begin("etcd", [shutil.which("etcd") or "etcd", "--name", "etcd", "--data-dir", str(self.folder / "etcd"),
                            "--listen-client-urls", url, "--advertise-client-urls", url, "--listen-peer-urls", peers,
                            "--initial-advertise-peer-urls", peers, "--initial-cluster", f"etcd={peers}"])

    def begin(self, name: str, words: Sequence[str]) -> None:
        """Begins a process that writes its log into the folder."""
        with open(self.folder / f"{name}.log", "ab") as log:
            self.running[name] = subprocess.Popen(words, stdin=subprocess.DEVNULL, stdout=log, stderr=log, cwd="/",
                                                  start_new_session=True,
                                                  env={**os.environ, "HOME": str(self.folder / f"{name}.etc")})

    def write_template(self, server: str) -> None:
        """Writes the template as an operator does for one machine, on this one."""
        place, text = self.places[server], TEMPLATE.read_text()
        hosts = ",".join(f"10.0.0.{it}:2379" for it in (1, 2, 3))
        changes = {
            f"hosts: {hosts}": f"hosts: {self.etcd_at}:{self.etcd_port}", "name: one\n": f"name: {server}\n",
            "10.0.0.1:8008": f"{place}:{self.rests[server]}", "10.0.0.1:5432": f"{place}:{self.ports[server]}",
            "10.0.0.0/24": f"{place.rpartition('.')[0]}.0/24",
            "/var/lib/postgresql/15/fleet": str(self.folder / server),
            "/usr/lib/postgresql/15/bin": str(Path(tool("initdb")).parent), "/etc/patroni/": f"{self.folder}/",
            **{f"PASSWORD-OF-{it}": PASSWORD for it in ("PATRONI", "POSTGRES", "REPLICATOR", "REWINDER")},
            'ssl: "on"\n': 'ssl: "on"\n    unix_socket_directories: ""\n', **QUICK}
        for old, new in changes.items():
            if old not in text:
                raise Fault(f"{TEMPLATE.name} has no {old!r}")
            text = text.replace(old, new)
        (self.folder / f"{server}.yml").write_text(text)

    def start(self, server: str) -> None:
        """Begins the Patroni of a node, which begins the server."""
        self.begin(server, [*self.before[server], *as_owner(), shutil.which("patroni") or "patroni",
                            str(self.folder / f"{server}.yml")])

    def end(self) -> None:
        """Ends all that is there, at once."""
        if self.ports:
            self.kill(*self.ports)
        for process in self.running.values():
            process.kill()
            process.wait()

    # What happens to them

    def kill(self, server: str, *more: str) -> None:
        """As if machines had stopped at one moment: Patroni and all processes of the server end, and can't tell
        anybody."""
        servers = [server, *more]
        patronis = [self.running[it] for it in servers if it in self.running]
        found = [it.pid for it in patronis if it.poll() is None]
        send(found, signal.SIGSTOP)
        for it in servers:
            if self.processes(it):
                super().kill(it)
            send(self.processes_of(it), signal.SIGKILL)
        send(found, signal.SIGKILL)
        for process in patronis:
            process.wait()

    def hold_from(self, standby: str) -> None:
        """The log of the primary reaches one standby no more, which doesn't ask for it anew until it goes on."""
        query = f"SELECT pid FROM pg_stat_replication WHERE application_name = '{standby}'"
        send([int(self.asked(self.primary_by_patroni(), query))], signal.SIGSTOP)
        send([it for it in self.processes(standby)[1:] if "walreceiver" in title_of(it)], signal.SIGSTOP)

    def has_all(self, standby: str) -> bool:
        """Whether a standby has what the primary has by now."""
        query = "SELECT flush_lsn >= pg_current_wal_lsn() FROM pg_stat_replication WHERE application_name = "
        return self.asked(self.primary_by_patroni(), f"{query}'{standby}'") == "t"

    def hold_checkpointer(self, server: str) -> None:
        """The process of a server that writes checkpoints, and has all others wait for a standby, stands still."""
        send([it for it in self.processes(server)[1:] if "checkpointer" in title_of(it)], signal.SIGSTOP)

    def processes_of(self, server: str) -> List[int]:
        """The processes that have begun from a node's file or on its data, but for the server's own."""
        wanted = {str(self.folder / f"{server}.yml"), str(self.folder / server)}
        return [process for process in all_processes() if wanted & {*words_of(process)}]

    def patronictl(self, *words: str) -> str:
        """What the operator's command tells, which must end with status 0."""
        file = next(self.folder / f"{it}.yml" for it in self.ports)
        done = subprocess.run(["patronictl", "-c", str(file), *words], stdin=subprocess.DEVNULL, capture_output=True,
                              text=True)
        if done.returncode:
            raise Fault(f"patronictl {words[0]}: {done.stdout.strip()} {done.stderr.strip()}")
        return done.stdout.strip()

    def roles(self) -> Dict[str, str]:
        """What each node is, of those that are running, as a Patroni tells that reaches etcd."""
        for it in self.ports:
            with contextlib.suppress(OSError, ValueError):
                with urllib.request.urlopen(f"http://{self.places[it]}:{self.rests[it]}/cluster", timeout=5) as told:
                    members = json.load(told)["members"]
                return {it["name"]: it["role"] for it in members if it["state"] in RUNS}
        return {}

    def primary_by_patroni(self) -> str:
        """The one that has the lock."""
        found = [it for it, role in self.roles().items() if role == LEADER]
        if len(found) != 1:
            raise Fault(f"there is no one leader: {self.roles()}")
        return found[0]

    def waited_for(self) -> str:
        """The standby that is waited for, and may be promoted."""
        [found] = [it for it, role in self.roles().items() if role == WAITED_FOR]
        return found

    def is_whole(self) -> bool:
        """Whether all follow the primary, one of them as the standby that is waited for."""
        with contextlib.suppress(Fault, ValueError):
            return super().is_whole() and WAITED_FOR in self.roles().values()
        return False


def make_certificates(folder: Path, addresses: Sequence[str]) -> None:
    """Makes an authority, and a certificate of the servers for some addresses. Patroni calls the loopback by name."""
    names = ",".join(["DNS:localhost", *(f"IP:{it}" for it in addresses)])
    made = ["req", "-x509", "-newkey", "ec", "-pkeyopt", "ec_paramgen_curve:prime256v1", "-nodes", "-days", "2"]
    for words in (
            [*made, "-subj", "/CN=authority", "-keyout", folder / "ca.key", "-out", folder / "ca.crt"],
            [*made, "-subj", "/CN=server", "-extensions", "v3_req", "-addext", f"subjectAltName={names}", "-CA",
             folder / "ca.crt", "-CAkey", folder / "ca.key", "-keyout", folder / "server.key", "-out",
             folder / "server.crt"]):
        done = subprocess.run(["openssl", *map(str, words)], capture_output=True, text=True)
        if done.returncode:
            raise Fault(f"openssl {words[0]}: {done.stderr.strip()}")
    (folder / "server.key").chmod(0o600)


def all_processes() -> Iterator[int]:
    """The processes of this machine."""
    return (int(it.name) for it in Path("/proc").iterdir() if it.name.isdigit())


def words_of(process: int) -> List[str]:
    """The words that a process was begun with."""
    with contextlib.suppress(OSError):
        return Path(f"/proc/{process}/cmdline").read_bytes().decode(errors="replace").split("\0")
    return []
