"""Finds the line at which to continue a stream after a cut, and continues the session there.

    nrm-tools resume NETWORK MODE STREAM REPLIES [--go-on] [--program WORD...]

STREAM has the lines so far, in their order, and REPLIES what was kept of the replies; the last reply may be cut. The
command runs the program over the stream, and what was kept must be the beginning of what it answers: if it isn't, the
command says where the two differ, and the status is 1. It prints the first line without a whole reply, and how many
bytes the whole replies before it have.

With --go-on it prints this on standard error. Then it runs the program over the lines before that one, compares the
replies and doesn't write them again, and continues with the lines of standard input; it passes on the program's replies
and status. Of the lines before, it sends only those that can have changed something: their replies begin with `ok`,
`no`, `cancelled` or `optimised`.

A line that was answered `memory` changed nothing, and may be answered otherwise another time, so it is never sent
again. If what was kept ends within `memory`, the line has no whole reply, and the stream continues there.
"""
from __future__ import annotations

import sys
from typing import Sequence

from nrm.commands.running import add_program, parser
from nrm.journal.resuming import CutSession, go_on, place_to_go_on_at
from nrm.program import Program
from nrm.replies import MODES


def run(given: Sequence[str]) -> int:
    """Tells where the stream goes on, and goes on there if it is asked to."""
    words = parser("resume", __doc__)
    words.add_argument("network")
    words.add_argument("mode", choices=MODES)
    words.add_argument("stream")
    words.add_argument("replies")
    words.add_argument("--go-on", action="store_true")
    add_program(words)
    asked = words.parse_args(given)
    program, kept = Program.found(asked.program), CutSession(asked.network, asked.mode, asked.stream, asked.replies)
    kept.see_that_its_files_can_be_read()  # before anything is run
    place = place_to_go_on_at(kept, program)
    print(f"continue at line {place.line}; {place.size} bytes of whole replies come before it",
          file=sys.stderr if asked.go_on else sys.stdout)
    return go_on(kept, program, place.line) if asked.go_on else 0
