"""Begins a journal of many desks, opens networks in it, prints it, and copies it while a server writes it.

    nrm-tools journal begin JOURNAL
    nrm-tools journal open JOURNAL NAME MODE FILE [--departure TIME [--begins K=TIME]...] [--program WORD...]
    nrm-tools journal times JOURNAL NAME [--departure TIME [--begins K=TIME]...]
    nrm-tools journal freeze JOURNAL NAME
    nrm-tools journal thaw JOURNAL NAME
    nrm-tools journal end JOURNAL NAME
    nrm-tools journal import JOURNAL NAME MODE FILE OLD [--program WORD...]
    nrm-tools journal look JOURNAL [NETWORK [NUMBER] [--desk NAME] [--booking NUMBER]]
    nrm-tools journal backup JOURNAL COPY

A journal is an SQLite file or, if JOURNAL is postgresql://HOST:PORT/DATABASE, the tables of a PostgreSQL database. In
it `nrm-tools serve` keeps each line that may have changed something, with the desk that sent it, the time and the
reply.

`begin` makes a journal; a file is for its owner alone. `open` adds a network, once `nrm_desks` has read its file and
made the opening plan: it stores the file byte for byte, the mode, and the checksum of that program. --program names the
program; by default it is that of this folder, or the one on the path. A running server answers for the network at once.
NAME begins with a small letter, and has at most 40 characters of `a` to `z`, `0` to `9`, `.`, `_` and `-`. Once a
journal has a second network, which `open` reports, each desk must name its own.

`freeze` stops sales in a network: `book` and `reoptimise` are `denied`, while bookings can be cancelled and everything
can be read. `thaw` lets it sell again. `end` leaves a network for reading alone, for good. After these a running server
carries out no further line that they deny.

--departure sets the departure, and --begins, once for each such period, when period K begins, from 2 to the last of the
network file: `nrm-tools serve` then makes a plan for it. A TIME is such as 2026-12-31T10:00+01:00 or
2026-12-31T09:00:00Z. Times rise with the periods and are before the departure; a period may be left out. `times` prints
them, in UTC, or replaces all of them, also while a server runs.

`import` adds a network with the lines of OLD, the text journal of `nrm-tools desks` in earlier releases, and of
`tools/desks.py` before it; MODE and FILE are those of that session. The desk `IMPORT` carries the lines out once more,
while no server runs, except those whose numbers are in OLD.void, which were answered `memory` or `store` then. It
reports what gets no row: these lines, those that change nothing, and an unfinished line at the end.

`look` prints a line for each network: its name and mode, how many lines it has, when it was opened, whether it is
frozen, ended or halted, with the reason, and the checksum of its program. With NETWORK it prints the lines of this
network, with tabs between number, time, desk, the desk's own number, line and reply: all lines, or the one with NUMBER,
those of a desk, or those of a booking. `backup` makes a copy that is a journal too. Both can be used while a server
runs, and so can `sqlite3 -readonly`. `backup` and `import` are for files.
"""
from __future__ import annotations

import argparse
import re
from typing import Sequence

from nrm import bytes_in
from nrm.commands.running import parser, refused_word, tell
from nrm.desks_program import see_that_it_opens
from nrm.journal.choosing_store import store_of, using
from nrm.journal.importing import TextJournal, import_network
from nrm.journal.looking import WantedLines, copy, lines_of, summary
from nrm.journal.network_times import Times, lines_of_times, see_that_it_has, set_times, times_in, times_of
from nrm.journal.networks import (end_network, file_of, freeze_network, known, networks_in, put_network,
                                  see_that_it_is_free, thaw_network)
from nrm.program import Program
from nrm.replies import MODES

WAYS = {"begin": (0, 0), "open": (3, 3), "times": (1, 1), "freeze": (1, 1), "thaw": (1, 1), "end": (1, 1),
        "import": (4, 4), "look": (0, 2), "backup": (1, 1)}  # and how many words follow
CHANGES = {"freeze": freeze_network, "thaw": thaw_network, "end": end_network}  # of what may be asked of a network
FOR_FILES = "import", "backup"


def number(text: str) -> int:
    """A number of a line or of a booking."""
    if not re.fullmatch("0|[1-9][0-9]{0,14}", text):
        raise refused_word(text, "a whole number of at most 15 digits")
    return int(text)


def words_of(given: Sequence[str]) -> tuple[argparse.ArgumentParser, argparse.Namespace]:
    """What is asked."""
    words = parser("journal", __doc__)
    words.add_argument("way", choices=WAYS, metavar="WAY")
    words.add_argument("journal", metavar="JOURNAL")
    words.add_argument("words", nargs="*", metavar="WORD")
    words.add_argument("--program", nargs="+", metavar="WORD",
                       help="the program nrm_desks and its first arguments; by default that of this folder, or the "
                            "one on the path")
    words.add_argument("--desk", metavar="NAME", help="print only the lines of this desk")
    words.add_argument("--booking", type=number, metavar="NUMBER", help="print only the lines of this booking")
    words.add_argument("--departure", metavar="TIME", help="the time at which the network departs")
    words.add_argument("--begins", action="append", default=[], metavar="K=TIME",
                       help="the time at which period K begins; may be given once for each period")
    asked = words.parse_args(given)
    least, most = WAYS[asked.way]
    if not least <= len(asked.words) <= most:
        words.error(f"`{asked.way}` takes {'at most ' if least < most else ''}{most} word{'' if most == 1 else 's'} "
                    f"after JOURNAL, and {len(asked.words)} were given")
    if (asked.departure is not None or asked.begins) and asked.way not in ("open", "times"):
        words.error("--departure and --begins can be used with `open` and `times` only")
    if asked.begins and asked.departure is None:
        words.error("--begins can be used with --departure only")
    return words, asked


def open_one(path: str, name: str, mode: str, file: str, program: Program, times: Times | None) -> None:
    """Puts a network into a journal with its times, if the program opens it."""
    text = bytes_in(file)
    with using(path, is_to_write=True) as connection:
        see_that_it_is_free(connection, name)
        see_that_it_opens(program, mode, text, file)
        if times:
            see_that_it_has(text, times)
        with connection.change():
            number = put_network(connection, name, mode, text, program.checksum())
            if times:
                set_times(connection, number, times)


def times_of_one(path: str, name: str, times: Times | None) -> None:
    """Sets the times of a network, or prints them."""
    with using(path, is_to_write=times is not None) as connection:
        network = known(connection, name)
        if times:
            see_that_it_has(file_of(connection, network.number), times)
            with connection.change():
                set_times(connection, network.number, times)
        else:
            print("\n".join(lines_of_times(times_of(connection, network.number))))


def import_one(path: str, name: str, mode: str, file: str, old: str, program: Program) -> None:
    """Puts a network into a journal with the lines of a text journal, and tells what has no row."""
    journal = TextJournal.at(old)
    count = import_network(path, name, mode, file, journal, program)
    left_out = journal.left_out(count)
    print(f"{count} lines of {old} are in {path}{f'; left out: {left_out}' if left_out else ''}", flush=True)


def say_if_second(path: str, name: str) -> None:
    """Says what is other once a network is the second of a journal."""
    with using(path) as connection:
        count = len(networks_in(connection))
    if count == 2:
        tell("journal", f"{name} is the second network: from now on a desk that names none gets "
                        "`closed network`")


def look(words: argparse.ArgumentParser, asked: argparse.Namespace) -> None:
    """Prints the networks, or lines of one."""
    if not asked.words:
        print("\n".join(summary(asked.journal)))
        return
    try:
        wanted = WantedLines(number(asked.words[1]) if asked.words[1:] else None, asked.desk, asked.booking)
    except argparse.ArgumentTypeError as why:
        words.error(f"NUMBER: {why}")
    for line in lines_of(asked.journal, asked.words[0], wanted):
        print(line)


def run(given: Sequence[str]) -> int:
    """Does what the first word says."""
    words, asked = words_of(given)
    if asked.way in FOR_FILES and store_of(asked.journal).is_shared:
        words.error(f"`{asked.way}` can be used with a journal in a file only")
    times = times_in(asked.departure, asked.begins) if asked.departure is not None else None
    if asked.way == "begin":
        store_of(asked.journal).begin()
    elif asked.way == "times":
        times_of_one(asked.journal, asked.words[0], times)
    elif asked.way in ("open", "import"):
        if asked.words[1] not in MODES:
            words.error(f"MODE: {asked.words[1]!r} isn't one of: {', '.join(MODES)}")
        program = Program.found(asked.program, "nrm_desks")
        if asked.way == "open":
            name, mode, file = asked.words
            open_one(asked.journal, name, mode, file, program, times)
        else:
            name, mode, file, old = asked.words
            import_one(asked.journal, name, mode, file, old, program)
        say_if_second(asked.journal, name)
    elif asked.way in CHANGES:
        with using(asked.journal, is_to_write=True) as connection:
            CHANGES[asked.way](connection, asked.words[0])
    elif asked.way == "look":
        look(words, asked)
    else:
        copy(asked.journal, asked.words[0])
    return 0
