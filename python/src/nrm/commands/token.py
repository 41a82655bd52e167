"""Makes a token for a desk, puts its hash into the file of desks, and prints it.

    nrm-tools token FILE NAME RIGHT... [--again] [--out PATH]

FILE is the file of --desks of `nrm-tools serve`. If it isn't there it is made, for its owner alone. NAME is the desk, 1
to 12 of `A` to `Z`, `0` to `9` and `-`. One or several RIGHTs say what it may do:

    look          read: `leg`, `plan`, `hindsight`, `ask`
    book          ask for seats
    cancel-own    cancel what this desk booked
    cancel-any    cancel any booking
    plan          make a plan: `reoptimise`
    greet         be a desk of another name

The token, and nothing else, is printed, or with --out written to the file PATH, which its owner alone may read; a file
made by `>` in a shell is often readable by others. FILE has only the SHA-256 of the token, so the token can't be read
from there. A desk that is in FILE stays as it is, unless --again gives it another token and these rights; if none is
named, it keeps those that it has. A running server reads FILE within a second or two, and then cuts off each desk whose
token or rights have changed. Everything else in FILE stays, and FILE is complete at each moment.
"""
from __future__ import annotations

import contextlib
import os
import tempfile
from typing import Iterator, Sequence, TextIO

from nrm import Stop
from nrm.commands.running import parser
from nrm.server.access import add_desk


@contextlib.contextmanager
def own_file(path: str) -> Iterator[TextIO]:
    """A new file for its owner alone, which comes to a path once all of it is written. What is there goes, unless it is
    no plain file."""
    if os.path.lexists(path) and (os.path.islink(path) or not os.path.isfile(path)):
        raise Stop(f"{path} is there and isn't a plain file")
    try:
        number, beside = tempfile.mkstemp(dir=os.path.dirname(path) or ".", prefix=f"{os.path.basename(path)}.")
    except OSError as fault:
        raise Stop(f"--out {path}: {fault.strerror}")
    try:
        with open(number, "w") as file:
            yield file
            file.flush()
            os.fsync(number)
        os.replace(beside, path)
    except BaseException:
        os.unlink(beside)
        raise


def run(given: Sequence[str]) -> int:
    """Makes a token, and prints it or has a file hold it."""
    words = parser("token", __doc__)
    words.add_argument("file", metavar="FILE")
    words.add_argument("name", metavar="NAME")
    words.add_argument("rights", nargs="*", metavar="RIGHT")
    words.add_argument("--again", action="store_true", help="give a desk that has one another token")
    words.add_argument("--out", metavar="PATH", help="write the token to this file, which its owner alone may read")
    asked = words.parse_args(given)
    if asked.out == "":
        raise Stop("--out needs the name of a file", 2)
    if asked.out is None:
        print(add_desk(asked.file, asked.name, asked.rights, asked.again))
        return 0
    if os.path.realpath(asked.out) == os.path.realpath(asked.file):
        raise Stop(f"--out {asked.out} is the file of desks, not one for the token")
    with own_file(asked.out) as out:
        print(add_desk(asked.file, asked.name, asked.rights, asked.again), file=out)
    return 0
