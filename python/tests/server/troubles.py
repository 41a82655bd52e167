"""What goes wrong around the crowd, each a method: beside the kills of the server, of a program, and of both,

    end      the server is told to end               full     the disk is full
    force    the disk doesn't force what it is told  power    what wasn't forced to the disk is lost
    clock    the clock jumps back                    version  another version of the program comes in its place
    second   a second server comes                   changed  somebody changes a reply, or takes a line out
    unforced what the next server reads was written and not forced to the disk, and the power is lost
    stopped  one that was stopped goes on after another has taken the journal, with lines that it got
    asleep   the same, and it is asked nothing but looks

Behind each a server is there that is well. What isn't as it must be is told. Meanwhile periods of the networks begin,
so that the server's own desk has plans made.
"""
from __future__ import annotations

import asyncio
import contextlib
import itertools
import os
import random
import signal
import sqlite3
import subprocess
import sys
import time
from pathlib import Path
from typing import Callable, Mapping, Sequence

import preload  # of the folder tests at the top
from harness import SOURCES, program
from nrm.journal.network_times import Times, set_times
from nrm.journal.sqlite_tables import using
from nrm.network import Network
from nrm.server.access import add_desk
from server.faults import clock_off, failing, forcing, library, lose_power
from server.serves import PATIENT, Serve, journal_of, rows_in
from trials.asking import Around, Asker, Streams, reply_from
from trials.judging import Case, Copied, Heard, Told
from trials.rounds import in_thread

KILLS = ("server", "program", "both")
OTHERS = ("end", "full", "force", "power", "unforced", "clock", "version", "second", "changed", "stopped", "asleep")
WITH_LIBRARY = ("full", "force", "power", "unforced", "clock")
LOOKER = "LOOKER"  # a desk that only looks
PERIODS = 6  # of each network; desks ask for plans of the first two, and the server's own desk for those of the others
BEGIN_WITHIN = 60  # seconds
FAR = 30 * 86_400_000  # milliseconds to the departure
EARLIER = "SELECT * FROM line WHERE epoch = (SELECT max(epoch) FROM tenure) AND at < (SELECT max(at) - 50000 FROM line)"
LEAVES = 0.9  # how often a desk leaves where places are few
FEW = "from nrm import desks_frames\ndesks_frames.PLACES = {places}\n"
OTHER = """#!/bin/bash
# answers otherwise: each fare has one figure more
exec {words} "$1" <(sed -E 's/^(product,[^,]*,)/\\19/' "$2")
"""


class Troubles(Around):
    """The journal, its server, and what happens to both while desks ask."""

    def __init__(self, folder: Path, cases: Sequence[Case], draw: random.Random, places: int = 0,
                 strays: int = 0) -> None:
        super().__init__()
        self.folder, self.cases, self.draw = folder, cases, draw
        self.leaves = LEAVES if places else 0.0
        self.tokens = [add_desk(str(folder / "desks"), f"S{at}", ["look"], False) for at in range(strays)]
        self.program = program("NRM_DESKS", "nrm_desks")
        self.journal = journal_of(folder / "journal", self.program,
                                  {name: (mode, path.read_bytes()) for name, mode, path in cases})
        self.set_times()
        self.faults = library(folder) if preload.is_there() else ""
        self.other = folder / "other"
        self.other.write_text(OTHER.format(words=" ".join(self.program.words)))
        self.other.chmod(0o755)
        # what a server begins by: with few places for clients, and where it is to see no lock
        (folder / "few").mkdir()
        few = FEW.format(places=places) if places else ""
        (folder / "few" / "sitecustomize.py").write_text(few)
        (folder / "sitecustomize.py").write_text(f"{few}import fcntl\nfcntl.flock = lambda *_: None\n")
        self.is_whole = asyncio.Lock()
        self.running: list[asyncio.Future[None]] = []  # the desks, each of which asks until it is over
        self.heard: list[Heard] = []  # what others were told
        self.copies: list[Copied] = []
        self.ways = itertools.cycle([True, False])  # to change a journal: its replies, or its lines
        self.runs = 0
        self.server = self.begin()

    def set_times(self) -> None:
        """Has periods of the networks begin while the crowd asks."""
        now = int(1000 * time.time())
        with using(str(self.journal), is_to_write=True) as connection, connection.change():
            for number, _ in enumerate(self.cases, 1):
                begins = sorted(self.draw.sample(range(2, BEGIN_WITHIN), PERIODS - 2))
                times = [(period, now + 1000 * at) for period, at in enumerate(begins, 3)]
                set_times(connection, number, Times(now + FAR, tuple(times)))

    async def connected(self, place: str) -> Streams:
        """A connection to the server that is there now."""
        assert not place, "there is one server"
        return await asyncio.open_unix_connection(str(self.path))

    def rows(self, query: str) -> list[tuple[object, ...]]:
        """What a query of the journal gives."""
        return rows_in(self.journal, query)

    async def trouble(self, kind: str) -> None:
        """Has something go wrong, and then a server that is well."""
        await getattr(self, f"trouble_{kind}")()

    async def copy(self) -> None:
        """A copy of the journal."""
        async with self.is_whole:
            place, began = self.folder / f"copy-{len(self.copies)}", self.now()
            words = [sys.executable, str(SOURCES), "journal", "backup", str(self.journal), str(place)]
            done = await in_thread(lambda: subprocess.run(words, capture_output=True, text=True))
            if done.returncode:
                self.told.append(f"{place.name}: {done.stderr}")
            else:
                self.copies.append(Copied(place.name, lambda query: rows_in(place, query), began))

    # Servers

    def begin(self, variables: Mapping[str, str] | None = None, words: Sequence[str] | None = None,
              status: int | None = None) -> Serve:
        """A server, on a socket of its own: so one that was stopped isn't in the way."""
        self.runs += 1
        answering = type(self.program)(tuple(words)) if words else self.program
        guard = ("--desks", str(self.folder / "desks")) if self.tokens else ()
        first = {"PYTHONPATH": f"{self.folder / 'few'}:{SOURCES}", **(variables or {})}
        server = Serve(self.folder, self.journal, answering, "--slow", "10", *guard, name=f"socket-{self.runs}",
                       variables=first, status=status)
        self.path = server.path if status is None else self.path
        return server

    async def again(self, status: int | None, variables: Mapping[str, str] | None = None,
                    words: Sequence[str] | None = None) -> None:
        """Waits until the server has ended, with a status if one is wanted, and begins another."""
        await self.ended(self.server, status)
        self.server = await in_thread(lambda: self.begin(variables, words))

    async def ended(self, server: Serve, status: int | None) -> None:
        """Waits until a server has ended, with a status if one is wanted."""
        try:
            await in_thread(lambda: server.process.wait(PATIENT))
        except subprocess.TimeoutExpired:
            server.process.kill()
            server.process.wait()
        if status is not None and server.process.returncode != status:
            self.told.append(f"the server ended with status {server.process.returncode}, and not {status}: "
                             f"{server.told()[-600:]}")

    async def end_it(self) -> None:
        """Has the server end as it is to."""
        self.server.process.terminate()
        await self.ended(self.server, 0)

    async def until(self, condition: Callable[[], object], what: str, pause: float = 0.1) -> None:
        """Waits for something, which is told if it doesn't come; not where a desk has failed, as is told anyway."""
        deadline = self.now() + PATIENT
        while not condition() and not any(it.done() for it in self.running):
            if self.now() > deadline:
                self.told.append(f"{what}: it doesn't come")
                return
            await asyncio.sleep(pause)

    def answered(self) -> int:
        """How many replies desks got."""
        return sum(len(it.heard.replies) for it in self.askers)

    def lines_now(self) -> list[tuple[object, ...]]:
        """The lines that the last server has written, by networks."""
        return rows_in(self.journal, "SELECT network, count(*) FROM line WHERE epoch = (SELECT max(epoch) FROM tenure) "
                                     "GROUP BY network")

    # Kills, and an end

    def kill_one(self) -> None:
        """Kills a program of the server."""
        at = self.server.process.pid
        if below := Path(f"/proc/{at}/task/{at}/children").read_text().split():
            os.kill(int(self.draw.choice(below)), signal.SIGKILL)

    async def trouble_program(self) -> None:
        self.kill_one()

    async def trouble_server(self) -> None:
        self.server.process.kill()
        await self.again(-signal.SIGKILL)

    async def trouble_both(self) -> None:
        self.kill_one()
        await asyncio.sleep(self.draw.uniform(0, 0.05))
        await self.trouble_server()

    async def trouble_end(self) -> None:
        self.server.process.terminate()
        await self.again(0)

    # The disk and the clock

    async def trouble_full(self) -> None:
        await self.with_fault("write", self.draw.randint(20, 200))

    async def trouble_force(self) -> None:
        await self.with_fault("fsync", self.draw.randint(5, 60))

    async def with_fault(self, kind: str, after: int) -> None:
        """A server whose writing fails after some calls ends by itself."""
        self.server.process.kill()
        await self.again(None, failing(self.faults, self.journal, kind, after))
        await self.again(74)

    async def trouble_power(self) -> None:
        """Some servers are killed, one after the other, at once when they have answered something or a while after;
        then what wasn't forced to the disk is lost."""
        async with self.is_whole:
            await self.end_it()
            forced = self.folder / "forced"
            variables = forcing(self.faults, self.journal, forced, 0.02)
            for at in range(self.draw.randint(1, 3)):
                self.server, before = await in_thread(lambda: self.begin(variables)), self.answered()
                await self.until(lambda: self.answered() > before, "a reply of a server that forces slowly", 0.002)
                await asyncio.sleep(0 if at else self.draw.uniform(0, 1))
                self.server.process.kill()
                await self.ended(self.server, -signal.SIGKILL)
            lose_power(self.journal, forced)
            self.server = await in_thread(self.begin)

    async def trouble_unforced(self) -> None:
        """A server is killed when it has written a line and not forced it to the disk. The next one tells the reply,
        and is killed too; then what wasn't forced is lost."""
        await self.keep_still()
        async with self.is_whole:
            await self.end_it()
            forced = self.folder / "forced"
            variables = forcing(self.faults, self.journal, forced, 0.3)
            self.server = await in_thread(lambda: self.begin(variables))
            buyer = Asker(self, self.draw.choice(self.cases), len(self.askers) + len(self.heard))
            self.heard.append(buyer.heard)
            before = self.log_changed()
            asked = asyncio.ensure_future(buyer.ask([buyer.line()]))
            await self.until(lambda: self.log_changed() != before, "a line that is written", 0.002)
            self.server.process.kill()
            await self.again(-signal.SIGKILL, variables)
            await asked
            buyer.close()
            self.server.process.kill()
            await self.ended(self.server, -signal.SIGKILL)
            lose_power(self.journal, forced)
            self.server = await in_thread(self.begin)
        self.may_ask.set()

    def log_changed(self) -> int:
        """When the log of the journal was written last."""
        return os.stat(f"{self.journal}-wal").st_mtime_ns

    async def keep_still(self) -> None:
        """Has the desks ask no more for now, and waits until each has its replies."""
        self.may_ask.clear()
        await self.until(lambda: not any(it.is_asking for it in self.askers), "replies to all desks")

    async def trouble_clock(self) -> None:
        """The clock jumps back while lines are written."""
        self.server.process.terminate()
        await self.again(0, clock_off(self.faults, -self.draw.randint(100, 100_000), self.draw.randint(20, 200)))
        await self.until(lambda: rows_in(self.journal, EARLIER), "a line with an earlier time")
        self.server.process.terminate()
        await self.again(0)

    # Others come

    async def trouble_version(self) -> None:
        """Another version answers nobody."""
        self.server.process.terminate()
        await self.again(0, words=[str(self.other)])
        await asyncio.sleep(self.draw.uniform(0.5, 2))
        if found := self.lines_now():
            self.told.append(f"another version of the program has written lines of networks: {found}")
        self.server.process.terminate()
        await self.again(0)

    async def trouble_second(self) -> None:
        """A second server is refused."""
        second = self.begin(status=1)
        with contextlib.suppress(subprocess.TimeoutExpired):
            await in_thread(lambda: second.process.wait(PATIENT))
        if second.process.returncode != 1 or "another server has the journal" not in second.told():
            second.process.kill()
            second.process.wait()
            self.told.append(f"a second server wasn't refused: {second.process.returncode} {second.told()}")

    async def trouble_changed(self) -> None:
        """A network whose journal was changed is halted, and others are answered."""
        async with self.is_whole:
            await self.end_it()
            [case, other] = self.draw.sample(self.cases, 2)
            self.changed = case.name
            undo = self.change(case.name, next(self.ways))
            self.server = await in_thread(self.begin)
            for name, wanted in (case.name, "closed halted"), (other.name, "at 1"):
                if (found := await self.greeted(name)) != wanted:
                    self.told.append(f"where the journal of {case.name} was changed {name} isn't {wanted!r}: {found!r}")
            await self.end_it()
            undo()
            self.server = await in_thread(self.begin)
            self.changed = None

    def change(self, name: str, is_reply: bool) -> Callable[[], None]:
        """Changes a reply of a network, or takes its last line out. Gives what undoes that."""
        with contextlib.closing(sqlite3.connect(self.journal)) as connection, connection:
            triggers = [text for [text] in connection.execute("SELECT sql FROM sqlite_master WHERE type = 'trigger'")]
            for it in ("line_stays", "line_is_kept"):
                connection.execute(f"DROP TRIGGER {it}")
            [network, lines] = connection.execute("SELECT network, lines FROM head JOIN network USING (network) "
                                                  "WHERE name = ?", [name]).fetchone()
            where = network, self.draw.randint(1, lines) if is_reply else lines
            row = connection.execute("SELECT * FROM line WHERE network = ? AND number = ?", where).fetchone()
            connection.execute("UPDATE line SET reply = reply || '1' WHERE network = ? AND number = ?" if is_reply else
                               "DELETE FROM line WHERE network = ? AND number = ?", where)

        def undo() -> None:
            with contextlib.closing(sqlite3.connect(self.journal)) as connection, connection:
                connection.execute(f"REPLACE INTO line VALUES ({', '.join('?' * len(row))})", row)
                connection.execute("UPDATE network SET halted = NULL WHERE network = ?", [network])
                for it in triggers:
                    connection.execute(it)
        return undo

    async def trouble_stopped(self) -> None:
        """The lines that it got are answered by the other, which half of the desks come to."""
        stopped = await self.taken_over()
        for it in self.askers:
            if self.draw.random() < 0.5:
                it.drop()
        await self.until(lambda: 2 * len(self.lines_now()) >= len(self.cases), "lines of the one that took over")
        await self.go_on(stopped)

    async def trouble_asleep(self) -> None:
        """It is asked for each leg, after others were answered by the one that took over."""
        await self.keep_still()
        looking = [await self.looker(it.name) for it in self.cases]
        stopped = await self.taken_over()
        for it in self.askers:
            it.drop()
        self.may_ask.set()
        await self.until(lambda: len(self.lines_now()) == len(self.cases), "lines of the one that took over")
        await asyncio.sleep(1)
        asked, legs = self.now(), [[*Network.read(str(it.path)).legs] for it in self.cases]
        for (_, writer), names in zip(looking, legs):
            writer.write("".join(f"leg {it}\n" for it in names).encode())
        await asyncio.sleep(0.1)
        stopped.process.send_signal(signal.SIGCONT)
        for (reader, writer), names, case in zip(looking, legs, self.cases):
            heard = Heard(case.name, LOOKER)
            self.heard.append(heard)
            for at, name in enumerate(names, 1):
                reply = await first_of(reader)
                if not reply.startswith("leg "):
                    break
                heard.looks.append(Told(asked, self.now(), at, f"leg {name}", reply))
            writer.close()
        await self.go_on(stopped)

    async def taken_over(self) -> Serve:
        """Stops the server, and has another take the journal that doesn't see its lock."""
        stopped = self.server
        stopped.process.send_signal(signal.SIGSTOP)
        while self.is_held():  # it was stopped in a commit: nobody can take the journal then
            stopped.process.send_signal(signal.SIGCONT)
            await asyncio.sleep(self.draw.uniform(0, 0.02))
            stopped.process.send_signal(signal.SIGSTOP)
        self.server = await in_thread(lambda: self.begin({"PYTHONPATH": f"{self.folder}:{SOURCES}"}))
        return stopped

    async def go_on(self, stopped: Serve) -> None:
        """One that was stopped goes on, writes nothing and ends; then a server comes that has the lock."""
        stopped.process.send_signal(signal.SIGCONT)
        with contextlib.suppress(subprocess.TimeoutExpired):
            await in_thread(lambda: stopped.process.wait(PATIENT))
        if stopped.process.returncode != 1:
            self.told.append(f"one that was stopped goes on: {stopped.process.returncode} {stopped.told()}")
            stopped.process.kill()
            stopped.process.wait()
        self.server.process.terminate()
        await self.again(0)

    def is_held(self) -> bool:
        """Whether somebody holds the journal."""
        with contextlib.closing(sqlite3.connect(self.journal, timeout=0, isolation_level=None)) as connection:
            try:
                connection.execute("BEGIN IMMEDIATE")
                connection.execute("ROLLBACK")
                return False
            except sqlite3.OperationalError:
                return True

    async def looker(self, name: str) -> Streams:
        """A connection of a desk that only looks, which is greeted."""
        reader, writer = await asyncio.open_unix_connection(str(self.path))
        writer.write(f"desk {name} {LOOKER} 1\n".encode())
        if (found := await first_of(reader)) != "at 1":
            writer.close()
            raise AssertionError(f"{LOOKER} of {name}: {found!r}")
        return reader, writer

    async def greeted(self, name: str) -> str:
        """What a desk is told that comes to a network."""
        try:
            (await self.looker(name))[1].close()
        except AssertionError as fault:
            return str(fault).split("'")[1]
        return "at 1"


async def first_of(reader: asyncio.StreamReader) -> str:
    """The next reply, or why there is none."""
    try:
        return await asyncio.wait_for(reply_from(reader), PATIENT)
    except (OSError, asyncio.TimeoutError, asyncio.IncompleteReadError) as fault:
        return f"nothing, {type(fault).__name__}"
