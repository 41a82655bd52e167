"""Explains why a line of a journal or a stream was answered as it was: its account, checked, in plain words and steps.

    nrm-tools why JOURNAL NETWORK NUMBER [OPTION...]
    nrm-tools why JOURNAL NETWORK --booking N [OPTION...]
    nrm-tools why NETWORK MODE STREAM NUMBER [OPTION...]

The options are --customer, --html FILE, --why WORD... and --program WORD...

With three words the line is that of NUMBER of the network NETWORK in JOURNAL, which `nrm-tools serve` keeps; with
--booking N it is the line that sold booking N. The network file, the mode and the lines come from the journal, which is
only read, also while a server runs. The output says which desk sent the line and when, by the machine's clock, and what
was answered then. With four words the line is that of NUMBER in the file STREAM, a session on the network file NETWORK
in MODE.

`nrm_why` writes the account of the line. This command reads it, and applies the rule again by code of its own: a leg
covers a request if what is needed and what is protected are at most what is left, the first leg that is short is named,
a fare is refused below the sum of the bid prices, an amount is its percentage of the worth, and the protected seats are
enough while one less isn't. It adds up the seats sold from the replies of `nrm run` to the lines before. The account's
answer must be that of `nrm run`, the one computed here without the account, and the one in the journal; and the journal
must have the replies of `nrm run` to the lines before. The plan in force comes from the line `plan`, and its
certificate must be optimal by `nrm check` and by the auditor's script.

The output is one page: a sentence in plain words, the account, how to do each step again by hand, and what must be
believed. With --customer only the sentence is printed. With --html the page is also written to FILE, which needs jinja2
(Debian's python3-jinja2). Of a cancellation the page says which line sold the booking. If a step fails, the page begins
with what is wrong, the status is 1, and --customer prints nothing on standard output. STREAM must be a plain file,
because it is read twice.

`nrm_why` is the program of --why, or of NRM_WHY, or the one of this folder or beside `nrm`; none is built. A journal
has the checksum of the `nrm_desks` that answers. If another one is beside `nrm_why`, or on the path, the page says so,
and the account follows the rules of the version that is here.
"""
from __future__ import annotations

import argparse
from typing import Sequence

from nrm import Stop, said
from nrm.accounts.account_page import AccountPage, html, text
from nrm.accounts.checking import LineOfStream, found
from nrm.accounts.journal_accounts import LineOfJournal
from nrm.accounts.page_subjects import of_journal, of_stream
from nrm.commands.running import add_program, at_least, lacking, parser, refused_word, tell
from nrm.limits import LAST_LINE
from nrm.network import is_whole
from nrm.program import Program
from nrm.replies import MODES
from nrm.writing_files import Output

FORMS = "this command takes JOURNAL NETWORK NUMBER, JOURNAL NETWORK --booking N, or NETWORK MODE STREAM NUMBER"


def line_number(text: str) -> int:
    """The number of a line, as `nrm_why` takes it, or of a booking."""
    if not is_whole(text) or not 1 <= int(text) <= LAST_LINE:
        raise refused_word(text, f"a whole number from 1 to {LAST_LINE:,}")
    return int(text)


def words_of(given: Sequence[str]) -> tuple[argparse.Namespace, LineOfStream | LineOfJournal]:
    """What is asked, and of which line."""
    words = parser("why", __doc__)
    words.add_argument("words", nargs="*", metavar="WORD", help="the line, as above")
    words.add_argument("--booking", type=at_least(1, LAST_LINE), metavar="N",
                       help="explain the line that sold this booking")
    words.add_argument("--customer", action="store_true", help="print the sentence alone")
    words.add_argument("--html", metavar="FILE", help="write the page to this file as HTML too")
    words.add_argument("--why", nargs="+", metavar="WORD", help="the program nrm_why and its first arguments")
    add_program(words)
    asked = words.parse_intermixed_args(given)
    if len(asked.words) != (2 if asked.booking else 3) and (len(asked.words) != 4 or asked.booking):
        words.error(FORMS)
    if asked.booking:
        return asked, LineOfJournal(asked.words[0], asked.words[1], None, asked.booking)
    *place, last = asked.words
    try:
        number = line_number(last)
    except argparse.ArgumentTypeError as why:
        words.error(f"NUMBER: {why}")
    if len(place) == 2:
        return asked, LineOfJournal(place[0], place[1], number)
    if place[1] not in MODES:
        words.error(f"MODE: {place[1]!r} isn't one of: {', '.join(MODES)}")
    return asked, LineOfStream(place[0], place[1], place[2], number)


def told_of(line: LineOfStream | LineOfJournal, words: Sequence[str], program: Program) -> AccountPage:
    """What is to be told of a line."""
    if isinstance(line, LineOfStream):
        return of_stream(line, line.why(words, program))
    return of_journal(*line.why(words, program))


def run(given: Sequence[str]) -> int:
    """Prints the page of a line, or the sentence alone."""
    asked, line = words_of(given)
    program = Program.found(asked.program)
    told = told_of(line, found(asked.why, program), program)
    if asked.customer:
        for note in told.notes:
            tell("why", note)
        if told.fault:
            raise Stop(told.fault)
        print(told.sentence)
    else:
        print(text(told), end="")
    if asked.html and not lacking("why", "jinja2"):
        with Output() as output:
            output.add(asked.html, html(told))
        tell("why", f"the page is in {said(asked.html)}")
    return 1 if told.fault else 0
