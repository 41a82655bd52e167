"""The run of a network's program: the journal is given again, clients have places, and its frames are carried out."""
from __future__ import annotations

import heapq
import os
import signal
import subprocess
from dataclasses import replace
from typing import Callable, Iterator, Sequence

from nrm import desks_frames as frames
from nrm.desks_frames import Frames
from nrm.desks_program import begun
from nrm.journal.commits import Written
from nrm.journal.stores import Given, Opened
from nrm.server.access import RIGHTS
from nrm.server.clients import Client
from nrm.server.event_log import Events
from nrm.server.group_commit import GroupCommit, RowsToKeep
from nrm.server.loop import READ, WRITE, Loop

PIECE = 65_536  # bytes that are read at a time: a pipe has no more
FEW_HELD = 4_096  # bytes that may go to the program with the word that its rows are kept
FULL = 1_048_576  # bytes that wait for the program, beyond which its clients aren't read
AT_END = 2  # the seconds in which a program ends whose output has ended
RIGHTS_TO_LOOK = "look", "greet"
RIGHTS_WHILE_FROZEN = (*RIGHTS_TO_LOOK, "cancel-own", "cancel-any")
RESTS, WAITS, BEGINS, ANSWERS, ENDS, FOLLOWS = range(6)
MEMORY = b"memory"  # the reply to a line for which there wasn't enough


class Session:
    """A network, and the run of its program if it has one.

    at_halt  is called where the program doesn't take a row, with the row and why
    at_loss  where the network's rows weren't written, since another server has it, or it has changed; with a fault if
             nobody knows whether they were
    at_end   once the program has ended
    """

    def __init__(self, loop: Loop, events: Events, commits: GroupCommit, network: Opened,
                 at_halt: Callable[[Session, int, str], None], at_loss: Callable[[Session, Exception | None], None],
                 at_end: Callable[[Session], None]) -> None:
        self.loop, self.events, self.commits, self.network, self.state = loop, events, commits, network, RESTS
        self.at_halt, self.at_loss, self.at_end = at_halt, at_loss, at_end
        self.places: dict[int, Client] = {}
        self.free: list[int] = []
        self.parted: list[int] = []  # places that are free once what is held of their former clients is given
        self.coming: list[tuple[Client, bytes]] = []
        self.process: subprocess.Popen[bytes] | None = None
        self.input = self.output = -1
        # `held` is to be given next: who came, what came from whom, and who is gone, in the order in which it happened
        self.out, self.held, self.frames = bytearray(), bytearray(), Frames()
        self.held_of: set[int] = set()  # the places of whose clients bytes or the end are in it
        # until when those are waited for who were answered since the last rows were kept, and haven't asked again
        self.held_until, self.has_answered = 0.0, True
        self.awaited: set[int] = set()
        self.again: Iterator[bytes] | None = None
        self.is_starved = False  # the next rows of the journal are still being read
        self.lost: str | None = None  # why its clients are closed, if another server has the network
        self.is_due = self.is_full = self.is_keeping = self.is_held = self.is_timed = False
        self.run = self.lines = self.silent = self.memory = 0
        self.told = ""
        self.rests_since = self.begins_at = self.begun_at = loop.now

    # How it begins

    def enter(self, client: Client, data: bytes) -> bool:
        """Gives a client a place, or has it wait until the program answers; gives whether that is to begin now."""
        if self.state == ANSWERS and self.free:
            self.let_in(client, data)
            return False
        self.coming.append((client, data))
        if self.state != RESTS:
            return False
        self.state = WAITS
        return True

    def start(self, words: Sequence[str], file: bytes, rows: Iterator[bytes], state: int = BEGINS) -> None:
        """Begins the program on the network file, and gives it the rows of the journal again. One that follows gets
        them as they come, until its server takes the network."""
        self.process = begun(words, self.network.mode, file)
        assert self.process.stdin and self.process.stdout
        self.input, self.output = self.process.stdin.fileno(), self.process.stdout.fileno()
        os.set_blocking(self.input, False)
        os.set_blocking(self.output, False)
        self.state, self.again, self.told, self.silent, self.lost = state, rows, "", 0, None
        self.is_starved = False
        self.run += 1
        self.begun_at = self.loop.now
        self.lines, self.free = self.network.lines, list(range(frames.PLACES))
        self.loop.want(self.output, READ, self.hear)
        self.flush()

    def take_over(self, network: Opened) -> None:
        """A program that followed is that of the network now, which has no more lines than it counts."""
        self.network, self.lines, self.state, self.begun_at = network, network.lines, BEGINS, self.loop.now

    def let_in(self, client: Client, data: bytes) -> None:
        """Gives a client a place, of which the program hears behind all that is held."""
        place = heapq.heappop(self.free)
        self.places[place] = client
        self.held += frames.opened(place, *self.desk_of(client, place))
        self.hold()
        client.is_full = self.is_full
        client.let_in(place, self.give, self.part, data)

    def desk_of(self, client: Client, place: int) -> tuple[str, str]:
        """Whose desk a client is at a place, and what it may do: by its token, or else all. In a network that has ended
        it may look alone, and in one that is frozen cancel too."""
        name, rights = (client.right.name, client.right.rights) if client.right else (f"AT-{place}", RIGHTS)
        network = self.network
        allowed = RIGHTS_TO_LOOK if network.is_ended else RIGHTS_WHILE_FROZEN if network.is_frozen else RIGHTS
        may = [it for it in rights if it in allowed]
        return name, ",".join(may) or "none"

    def let_in_all(self) -> None:
        """Gives those who wait their places, as far as there are some."""
        while self.state == ANSWERS and self.coming and self.free:
            client, data = self.coming.pop(0)
            if client.is_waiting:
                self.let_in(client, data)

    # What the program is given

    def give(self, client: Client, data: bytes) -> None:
        self.awaited.discard(client.place)
        self.held += frames.came(client.place, data)
        self.held_of.add(client.place)
        self.hold()

    def part(self, client: Client) -> None:
        self.held += frames.gone(client.place)
        self.held_of.add(client.place)
        self.hold()

    def hold(self) -> None:
        """Has what is held given when the next round may begin."""
        if not self.is_held:
            self.is_held = True
            self.loop.soon.append(self.release)

    def release(self) -> None:
        """Gives the program what came, unless its rows are still being written, or were just now and of those that got
        replies some haven't asked again: so that what comes at once goes into one commit, and not in turn into two."""
        self.is_held = False
        if self.is_keeping or not self.held:
            return
        if self.loop.now < self.held_until and (self.awaited or not self.has_answered):
            if not self.is_timed:
                self.is_timed = True
                self.loop.call_at(self.held_until, self.release_at_last)
            return
        if self.held_of:  # to those who only came nothing is answered
            self.commits.expected.add(self)
        self.put(self.held)
        self.held.clear()
        self.held_of.clear()
        for place in self.parted:
            heapq.heappush(self.free, place)
        self.parted.clear()
        self.let_in_all()

    def release_at_last(self) -> None:
        """Waits for nobody any more."""
        self.is_timed = False
        self.release()

    def keep(self, rows: bytes) -> None:
        """Has rows written with all others that wait. Where there are none, as behind a look, it is only seen that no
        other server has written, and that the network's rights are the same: so what is told is true of a moment after
        the question."""
        network = self.network
        if self.lost:
            return
        given = Given(network.number, self.run, self.lines, rows, network.epoch, network.ended)
        if not rows and self.commits.writer.is_still(given):
            self.kept(0)
            return
        self.commits.keep(RowsToKeep(self, given, self.written))

    def written(self, given: Given, done: Written) -> None:
        """The commit of rows is done: they are kept, or the network is halted now, or lost."""
        why = done.refused.get(given.network)
        is_kept = not done.fault and given.network not in done.refused
        if why is not None:
            self.halted(given.before + 1, why)
        elif self.run == given.run and not is_kept and not self.lost:
            self.at_loss(self, done.fault)
        elif self.run == given.run and is_kept and self.process:
            self.kept(given.count())

    def kept(self, count: int) -> None:
        """The rows that it gave out are safe. Where much was held it is told so before it gets that, so that replies
        don't wait for what it does then."""
        self.is_keeping = False
        self.lines += count
        self.put(frames.KEPT)
        if len(self.held) > FEW_HELD:
            self.flush()
        self.held_until = self.loop.now + self.commits.gather
        self.has_answered = False
        self.awaited.clear()
        self.release()

    def put(self, data: bytes | bytearray) -> None:
        """Has something written to the program, with all else of this round."""
        self.out += data
        if not self.is_due:
            self.is_due = True
            self.loop.soon.append(self.flush)

    def flush(self, _: int = 0) -> None:
        """Writes what the pipe to the program takes, of the journal a piece in a round."""
        self.is_due = False
        if not self.process:
            return
        if self.again and len(self.out) < frames.MOST:
            piece = next(self.again, None)
            self.is_starved = piece == b""
            if not self.is_starved:
                self.out += frames.again(piece) if piece else frames.ALL_AGAIN
                self.again = self.again if piece else None
        try:
            while self.out:
                del self.out[:os.write(self.input, self.out)]
        except BlockingIOError:
            pass
        except BrokenPipeError:
            self.out.clear()  # it has ended, as the end of its output will show
            self.again = None
        self.loop.want(self.input, WRITE if self.out or self.again and not self.is_starved else 0, self.flush)
        if self.is_full != (len(self.out) + len(self.held) > FULL):
            self.is_full = not self.is_full
            for client in self.places.values():
                client.is_full = self.is_full
                client.watch()

    # What it writes

    def hear(self, _: int) -> None:
        """Reads what it writes, and carries it out."""
        try:
            piece = os.read(self.output, PIECE)
        except BlockingIOError:
            return
        if not piece:
            self.ended()
            return
        self.silent, self.has_answered = 0, True
        for words, data in self.frames.of(piece):
            if words[0] == b"send":
                place = int(words[1])
                self.awaited.add(place)
                self.places[place].used(int(words[2]), data)
                if MEMORY in data:
                    self.count_memory(data)
            else:
                self.take(words, data)

    def count_memory(self, data: bytes) -> None:
        """Counts the replies, of those that were sent, that tell of too little memory."""
        if count := data.split(b"\n").count(MEMORY):
            self.memory += count
            self.events.tell("memory", network=self.network.name)

    def take(self, words: Sequence[bytes], data: bytes) -> None:
        """Carries out a frame that comes less often."""
        kind = words[0]
        if kind == b"keep":
            self.is_keeping = True
            self.commits.expected.discard(self)
            self.keep(data)
        elif kind == b"close":
            self.vacate(int(words[1]), words[2].decode())
        elif kind == b"ready":
            self.ready(int(words[1]))
        elif kind in (b"differs", b"no") and self.state == FOLLOWS:
            self.follow_no_more(f"row {int(words[-1])} {kind.decode()}")
        elif kind in (b"differs", b"no"):
            self.at_halt(self, int(words[-1]), "isn't what the program answers" if kind == b"differs"
                         else "is none, or isn't the next")
        else:
            self.told = b" ".join(words).decode("latin-1")

    def vacate(self, place: int, why: str) -> None:
        """The program has closed a client. Its place is free for another once nothing of it is held any more."""
        client = self.places.pop(place)
        self.awaited.discard(place)
        if place in self.held_of:
            self.parted.append(place)
        else:
            heapq.heappush(self.free, place)
        client.closed(why)
        self.let_in_all()
        self.rests_since = self.loop.now

    def ready(self, rows: int) -> None:
        """The journal was given again."""
        if self.state == FOLLOWS:
            self.follow_no_more(f"row {rows + 1} isn't there")
            return
        if rows != self.lines:
            self.at_halt(self, rows + 1, f"is missing: the journal counts {self.lines} lines")
            self.kill()
            return
        self.state, self.rests_since = ANSWERS, self.loop.now
        self.events.tell("begun", network=self.network.name, lines=rows,
                                seconds=self.rests_since - self.begun_at)
        self.let_in_all()

    # How it ends

    def end(self) -> None:
        """Has the program end, since nobody asks it."""
        if self.state in (BEGINS, ANSWERS):
            self.state = ENDS
            self.put(frames.END)

    def follow_no_more(self, why: str) -> None:
        """A program that follows can't go on: it ends, and isn't begun again before this server takes the network,
        which then sees what is wrong."""
        self.events.tell("not-followed", network=self.network.name, why=why)
        self.kill()

    def halted(self, row: int, why: str) -> None:
        """The network is halted in the journal: its program ends, and its clients are told."""
        self.events.tell("halted", network=self.network.name, row=row, why=why)
        self.network = replace(self.network, halted=why)
        self.kill()

    def lose(self, why: str) -> None:
        """Another server has the network: the program ends with all that it had ahead, which nobody has seen, and its
        clients are told to go elsewhere."""
        self.lost = why
        if self.process:
            self.kill()
        else:
            self.state = RESTS
            self.tell_all(why, False)

    def kill(self) -> None:
        """Ends the program at once, with what it has started."""
        if self.process and self.process.returncode is None:
            try:
                os.killpg(self.process.pid, signal.SIGKILL)
            except ProcessLookupError:
                pass

    def ended(self) -> None:
        """The program has ended: its clients are told, and may come again."""
        status, was = self.wait(), self.state
        self.state, self.out, self.held, self.frames, self.again = RESTS, bytearray(), bytearray(), Frames(), None
        self.held_of.clear()
        self.parted.clear()
        self.awaited.clear()
        self.is_keeping = False
        self.commits.expected.discard(self)
        if was in (ENDS, FOLLOWS) or self.lost:
            self.events.tell("ended", network=self.network.name)
        elif not self.network.halted:
            self.events.tell("program-ended", network=self.network.name, status=status, told=self.told or None)
            self.begins_at = self.loop.now + 1  # so that one that fails at once doesn't begin all the time
        self.tell_all("halted" if self.network.halted else self.lost or f"program {status}",
                      was in (ENDS, FOLLOWS) and not self.lost)
        self.at_end(self)

    def tell_all(self, why: str, are_to_wait: bool) -> None:
        """Ends the connections of its clients; those who wait go on waiting where the program was to end."""
        clients, self.places = [*self.places.values()], {}
        if not are_to_wait:
            clients += [client for client, _ in self.coming]
            self.coming = []
        for client in clients:
            client.closed(why)

    def wait(self) -> int:
        """Closes the pipes, and gives the status as a shell tells it."""
        assert self.process and self.process.stdin and self.process.stdout
        self.loop.forget(self.input)
        self.loop.forget(self.output)
        self.process.stdin.close()
        self.process.stdout.close()
        try:
            status = self.process.wait(AT_END)
        except subprocess.TimeoutExpired:
            self.kill()
            status = self.process.wait()
        self.process = None
        return status if status >= 0 else 128 - status

    def is_idle(self) -> bool:
        """Whether no line waits for a reply."""
        return self.state == ANSWERS and not (self.lost or self.is_keeping or self.is_asked())

    def is_asked(self) -> bool:
        """Whether the program is to write something."""
        return self.state in (BEGINS, ENDS) or not self.is_keeping and any(
            it.unused > it.tail or it.is_parting for it in self.places.values())
