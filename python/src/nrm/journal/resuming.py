"""Going on after a cut: where the replies that were kept end, and a session made again up to there.

A line that was answered `memory` changed nothing, and may be answered otherwise another time, so it is never given
again.
"""
from __future__ import annotations

import itertools
import os
import re
import stat
import sys
from dataclasses import dataclass
from typing import Iterator

from nrm import Stop, bytes_in
from nrm.program import PIECE, Program, Stream, unanswered
from nrm.replies import replies_of

WANTED = b"memory\n"
WANTED_MEMORY = re.compile(WANTED)
CHANGED_SOMETHING = re.compile(rb"(ok|no|cancelled|optimised) ")
NO_REPLY = re.compile(rb"refused |usage: |file fault|overflow after ")  # what is written where no line is answered
LINE_CUT_OFF = 8  # the status where the input was too long: all lines before are answered
OUTPUT_FAULT = 5
STANDARD_INPUT = 0


@dataclass(frozen=True)
class CutSession:
    """What a session left: the network file, the mode, the file of the stream so far, that of the replies kept."""
    network: str
    mode: str
    stream: str
    replies: str

    def see_that_its_files_can_be_read(self) -> None:
        """A Stop, or what the system says, for one that isn't there or can't be read. Stream and replies are read more
        than once, which a FIFO can't be; and that would wait for who writes into it."""
        os.stat(self.network)
        for path in (self.stream, self.replies):
            if stat.S_ISFIFO(os.stat(path).st_mode):
                raise Stop(f"{path} isn't a plain file")
            bytes_in(path, 1)

    def replies_kept(self) -> Iterator[bytes]:
        """The replies that were kept; the last one may be cut."""
        with open(self.replies, "rb") as kept:
            yield from replies_of(kept)

    def lines(self) -> Iterator[tuple[bytes, bytes]]:
        """The lines of the stream, each with its reply as it was kept, which is empty if there is none."""
        with open(self.stream, "rb") as stream:
            yield from zip(stream, itertools.chain(self.replies_kept(), itertools.repeat(b"")))

    def asked_again(self) -> Iterator[bytes]:
        """The lines that are given to the program to be compared: all but those that memory was wanting for."""
        yield from (line for line, reply in self.lines() if not WANTED_MEMORY.match(reply))

    def lines_again(self, before: int) -> Iterator[bytes]:
        """The lines before one of the stream that can have changed something."""
        some = itertools.islice(self.lines(), before - 1)
        yield from (line.rstrip(b"\n") + b"\n" for line, reply in some if CHANGED_SOMETHING.match(reply))

    def replies_to_all(self, session: Stream) -> Iterator[bytes]:
        """The replies to all lines of the stream, of which a session answers those that are asked again."""
        made = replies_of(session.output)
        for kept in itertools.chain(self.replies_kept(), itertools.repeat(b"")):
            reply = kept if WANTED_MEMORY.match(kept) else next(made, b"")
            if not reply:
                return
            yield reply


@dataclass(frozen=True)
class ResumePoint:
    """Where a stream goes on: its first line without a whole reply, and how many bytes the replies before it have."""
    line: int
    size: int


def parted(number: int, kept: bytes, reply: bytes) -> Stop:
    """A Stop for a reply that was kept and isn't what the program answers."""
    before, now = kept.decode("latin-1"), reply.decode("latin-1")
    return Stop(f"line {number}: {before!r} was kept, and the program answers {now!r}")


def place_to_go_on_at(kept: CutSession, program: Program) -> ResumePoint:
    """Where the stream goes on, found by a run over all of it."""
    session, number, size = Stream(program, kept.mode, kept.network, kept.asked_again()), 0, 0
    with open(kept.replies, "rb") as there:
        for number, reply in enumerate(kept.replies_to_all(session), 1):
            if number == 1 and NO_REPLY.match(reply):
                raise unanswered(kept.mode, kept.network, session.wait(), reply)
            front = there.read(len(reply))
            if front != reply:
                if not (reply.startswith(front) or WANTED.startswith(front) and not there.read(1)):
                    raise parted(number, front, reply)
                session.kill()
                return ResumePoint(number, size)
            size += len(reply)
        if (status := session.wait()) not in (0, LINE_CUT_OFF):
            raise Stop(f"after line {number} the program ended with status {status}")
        if more := there.read(PIECE):
            raise parted(number + 1, more, b"")
    return ResumePoint(number + 1, size)


def go_on(kept: CutSession, program: Program, before: int) -> int:
    """Answers standard input as the session does that has answered the lines before one, and gives the status."""
    session = Stream(program, kept.mode, kept.network, kept.lines_again(before), source=STANDARD_INPUT)
    for number, reply in enumerate(itertools.islice(kept.replies_kept(), before - 1), 1):
        if CHANGED_SOMETHING.match(reply) and (again := session.output.read(len(reply))) != reply:
            raise parted(number, reply, again)
    try:
        while piece := session.output.read1(PIECE):
            sys.stdout.buffer.write(piece)
            sys.stdout.buffer.flush()
    except OSError:
        session.kill()
        os._exit(OUTPUT_FAULT)
    return session.fault or session.wait()
