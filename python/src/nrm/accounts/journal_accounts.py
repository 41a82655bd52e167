"""The account of a line of a journal: its network file, mode and lines are laid into a folder, and the account is asked
for and checked there, beside the replies that the journal has; with who asked for the line, when, and which programs
had a part.
"""
from __future__ import annotations

import hashlib
import shutil
import tempfile
from dataclasses import dataclass
from pathlib import Path
from typing import Sequence

from nrm import Stop
from nrm.accounts.checking import LineOfStream, Why
from nrm.journal.answered_lines import AnsweredLine, ended_at, given_back_by, lay, line_in, sold_by
from nrm.journal.choosing_store import shown, using
from nrm.journal.networks import file_of, known
from nrm.journal.stores import NoJournal, Opened, Tables
from nrm.program import Program, is_program

ANSWERS = "nrm_desks"  # the program whose checksum a journal has


@dataclass(frozen=True)
class ProgramChecksums:
    """The checksums of the programs: of the one that answers by the journal, of the one of its name that is here if one
    is, of that which wrote the account, and of that which played the session again."""
    answered: str
    here: str | None
    accounts: str
    plays: str

    @property
    def is_other(self) -> bool:
        """Whether another program of the name is here than the one that answers by the journal."""
        return self.here is not None and self.here != self.answered


@dataclass(frozen=True)
class JournalRecord:
    """What a journal has of a line beside its account: the network, since when it has ended, the checksum of its file,
    the line, the one that sold the booking which it cancels, the one that cancelled the booking which it sold, or which
    it couldn't cancel any more; and the programs."""
    journal: str
    network: Opened
    ended: str | None
    file: str
    line: AnsweredLine
    sale: AnsweredLine | None
    given_back: AnsweredLine | None
    programs: ProgramChecksums


@dataclass(frozen=True)
class LineOfJournal:
    """Where a line stands: the journal, the name of the network, and the line's number or that of the booking that it
    sold."""
    journal: str
    network: str
    number: int | None
    booking: int | None = None

    def why(self, words: Sequence[str], program: Program) -> tuple[JournalRecord, Why]:
        """What the journal has of the line, and its account by the program of some words, beside a session of `nrm`."""
        try:
            with using(self.journal) as connection, tempfile.TemporaryDirectory() as folder:
                network = known(connection, self.network)
                line = line_in(connection, network, self.line_number(connection, network))
                return self.answered(connection, network, line, Path(folder), words, program)
        except NoJournal as why:
            raise Stop(f"{why}; three words are JOURNAL NETWORK NUMBER, and a line of a plain stream has four, NETWORK "
                       "MODE STREAM NUMBER")

    def line_number(self, connection: Tables, network: Opened) -> int:
        """The number of the line that is asked for."""
        if self.number is not None:
            return self.number
        assert self.booking is not None
        return sold_by(connection, network, self.booking)

    def answered(self, connection: Tables, network: Opened, line: AnsweredLine, folder: Path, words: Sequence[str],
                 program: Program) -> tuple[JournalRecord, Why]:
        """The account of a line, made in a folder."""
        file, stream, replies = (folder / it for it in ("network.csv", "stream", "replies"))
        file.write_bytes(file_of(connection, network.number))
        lay(connection, network, line.number, stream, replies)
        try:
            why = LineOfStream(str(file), network.mode, str(stream), line.number).why(words, program, str(replies))
        except Stop as stop:
            raise Stop(f"{network.name} of {shown(self.journal)}: {str(stop).replace(f'{folder}/', '')}", stop.status)
        programs = ProgramChecksums(network.program, checksum_here(words), Program(tuple(words)).checksum(),
                                    program.checksum())
        sale = why.course.sales.get(numbered(line.line, "cancel "))
        return JournalRecord(shown(self.journal), network, ended_at(connection, network),
                             hashlib.sha256(file.read_bytes()).hexdigest(), line,
                             line_in(connection, network, sale.line) if sale else None,
                             cancelled_by(connection, network, line), programs), why


def cancelled_by(connection: Tables, network: Opened, line: AnsweredLine) -> AnsweredLine | None:
    """The line that cancelled the booking which a line sold, or before it the one which it wanted to cancel."""
    is_too_late = line.reply == "unknown"
    booking = numbered(line.line, "cancel ") if is_too_late else numbered(line.reply, "ok ")
    found = given_back_by(connection, network, booking) if booking else None
    return None if found and is_too_late and found.number > line.number else found


def numbered(text: str, before: str) -> int:
    """The number behind some words; 0 where it isn't just these and a number."""
    number = text[len(before):] if text.startswith(before) else ""
    return int(number) if number.isdecimal() and number.isascii() and len(number) < 16 else 0


def checksum_here(words: Sequence[str]) -> str | None:
    """The checksum of the program that answers desks: that beside the one of some words, else the one that the tools
    find."""
    beside = Path(shutil.which(words[0]) or words[0]).resolve().with_name(ANSWERS)
    try:
        return (Program((str(beside),)) if is_program(beside) else Program.found(None, ANSWERS)).checksum()
    except Stop:
        return None
