"""A text journal of an earlier release, taken into a journal as a network: its lines are carried out once more.

That was a file of the lines that one run of the program was given, in their order, by many desks; and beside it, in a
file of its name and `.void`, the numbers of those that were answered `memory` or `store`, and so changed nothing.
"""
from __future__ import annotations

import itertools
import os
import re
import subprocess
from dataclasses import dataclass
from pathlib import Path
from typing import Iterable, Iterator

from nrm import Stop, bytes_in
from nrm.desks_frames import ALL_AGAIN, END, KEPT, Frame, Frames, came, opened
from nrm.desks_program import begun, see_that_it_opens
from nrm.journal.networks import known, open_network, see_that_it_is_free
from nrm.journal.sqlite_tables import using
from nrm.journal.sqlite_writing import HALT, SqliteWriter, locked
from nrm.journal.stores import Given
from nrm.program import PIECE, Program, ended

DESK, RIGHTS = "IMPORT", "book,cancel-any,plan"
CHANGES = re.compile(rb"(?:book|cancel|reoptimise) [^\n]{1,40}\n")  # a line that may change something
LINE_NUMBER = re.compile(rb"[1-9][0-9]{0,11}")
AT_ONCE = 100  # lines
UNDER_WAY = "its lines are being imported"


# What is read


@dataclass(frozen=True)
class TextJournal:
    """A text journal: how many whole lines it has, which of them changed nothing, as is said beside it, and how many
    bytes stand behind its last line feed: they were never carried out."""
    path: str
    count: int
    void: frozenset[int]
    torn: int

    @classmethod
    def at(cls, path: str) -> TextJournal:
        """The one at a path; a Stop where what stands beside it can't be of it."""
        if os.path.exists(path) and not os.path.isfile(path):
            raise Stop(f"{path} isn't a plain file")
        bytes_in(path, 1)  # a Stop if it isn't there
        count = torn = 0
        with open(path, "rb") as lines:
            for line in lines:
                count, torn = (count + 1, 0) if line.endswith(b"\n") else (count, len(line))
        return cls(path, count, frozenset(void_in(path, count)), torn)

    def lines(self) -> Iterator[bytes]:
        """The lines that may have changed something."""
        with open(self.path, "rb") as lines:
            for number, line in enumerate(lines, 1):
                if number not in self.void and CHANGES.fullmatch(line.replace(b"\r\n", b"\n")):
                    yield line

    def left_out(self, rows: int) -> str:
        """What of it has no row, where so many rows were made of it; nothing if all has."""
        parts = {f"lines of {self.path}.void": len(self.void),
                 "lines that change nothing": self.count - len(self.void) - rows,
                 "bytes after the last line feed": self.torn}
        return ", ".join(f"{what} {count}" for what, count in parts.items() if count)


def void_in(path: str, count: int) -> Iterator[int]:
    """The numbers beside a text journal of so many lines. They rise; half a one at the end, whose reply was never sent,
    is none."""
    beside = Path(f"{path}.void")
    if not beside.is_file():
        return
    last = 0
    for at, text in enumerate(beside.read_bytes().split(b"\n")[:-1], 1):
        number = int(text) if LINE_NUMBER.fullmatch(text) else 0
        if not last < number <= count:
            raise Stop(f"{beside}: line {at} isn't the number of a further one of the {count} lines of {path}: is it "
                       "another journal's?")
        yield (last := number)


# How it is carried out


class ImportRun:
    """A run of `nrm_desks` with one client, whose rows are written."""

    def __init__(self, program: Program, process: subprocess.Popen[bytes], writer: SqliteWriter, network: int) -> None:
        assert process.stdin and process.stdout
        self.program, self.process, self.writer, self.network = program, process, writer, network
        self.given, self.told = process.stdin.fileno(), process.stdout.fileno()
        self.frames, self.lines = Frames(), 0

    def ask(self, data: bytes) -> None:
        """Gives lines, and writes their rows, until all are used."""
        os.write(self.given, came(0, data))
        left = len(data)
        while left:
            for frame in self.heard():
                left -= self.taken(frame)

    def heard(self) -> list[Frame]:
        """The next frames; a Stop where the program has ended."""
        piece = os.read(self.told, PIECE)
        if not piece:
            raise ended(" ".join(self.program.words), self.process.wait(), self.frames.left.decode("latin-1"))
        return self.frames.of(piece)

    def taken(self, frame: Frame) -> int:
        """Carries out a frame; gives how many bytes of lines were used."""
        words, data = frame
        if words[0] == b"keep":
            for why in self.writer.write([Given(self.network, 1, self.lines, data)]).values():
                raise Stop(str(why))
            self.lines += data.count(b"\n")
            os.write(self.given, KEPT)
        elif words[0] == b"send":
            return int(words[2])
        elif words[0] != b"ready":
            raise Stop(f"the program said `{b' '.join(words).decode('latin-1')}`")
        return 0


def import_network(path: str, name: str, mode: str, file: str, old: TextJournal, program: Program) -> int:
    """Puts the network of a file into the journal at a path, with the lines of a text journal. Gives how many have a
    row."""
    network_file = bytes_in(file)
    with using(path, is_to_write=True) as connection:
        see_that_it_is_free(connection, name)
        see_that_it_opens(program, mode, network_file, file)
    with locked(path):
        with using(path, is_to_write=True) as connection:
            open_network(connection, name, mode, network_file, program.checksum())
            network = known(connection, name).number
            connection.execute(HALT, [UNDER_WAY, network])
        writer = SqliteWriter(path, program.checksum())
        try:
            count = carried_out(program, begun(program.words, mode, network_file), writer, network, old.lines())
        finally:
            writer.close()
        with using(path, is_to_write=True) as connection:
            connection.execute("UPDATE network SET halted = NULL WHERE network = ?", [network])
    return count


def carried_out(program: Program, process: subprocess.Popen[bytes], writer: SqliteWriter, network: int,
                lines: Iterable[bytes]) -> int:
    """Has a program carry out lines, and writes its rows. Gives how many there are."""
    dialogue = ImportRun(program, process, writer, network)
    try:
        os.write(dialogue.given, ALL_AGAIN + opened(0, DESK, RIGHTS))
        rest = iter(lines)
        while some := list(itertools.islice(rest, AT_ONCE)):
            dialogue.ask(b"".join(some))
        os.write(dialogue.given, END)
        if status := process.wait():
            raise ended(" ".join(program.words), status, "")
    except BrokenPipeError:
        raise ended(" ".join(program.words), process.wait(), "")
    finally:
        process.kill()
        process.wait()
        for pipe in (process.stdin, process.stdout):
            assert pipe
            pipe.close()
    return dialogue.lines
