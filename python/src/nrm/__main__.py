"""The command line: which command it names, all commands with a line each, and the version.

A command's file is imported when it is named.
"""
from __future__ import annotations

import importlib
import sys
from typing import Sequence

from nrm import Stop, __version__, said
from nrm.commands import ALONE, NAMED
from nrm.commands.running import TOOLS, status_of
from nrm.program import Program

USAGE = f"usage: {TOOLS} NAME WORD..."
MANUAL = f"""{USAGE}

`{TOOLS} NAME --help` explains a command. `{TOOLS} --version` prints the version, and the program that the commands run
with its checksum. The commands are:
"""


def help_of_all(_: Sequence[str]) -> int:
    """Prints all commands with a line each, which is the first of its manual."""
    print(MANUAL)
    for name, module in NAMED.items():
        manual = importlib.import_module(module).__doc__ or ""
        print(f"  {name:<{max(map(len, NAMED))}}  {manual.partition(chr(10))[0]}")
    return 0


def version(_: Sequence[str]) -> int:
    """Prints the version, and the program that is run with its checksum."""
    print(f"{TOOLS} {__version__}")
    try:
        program = Program.found()
        print(f"{' '.join(program.words)}\nsha256 {program.checksum()}")
    except Stop as stop:
        print(stop)
    return 0


def main(words: Sequence[str] | None = None) -> int:
    """Runs the command that the words name, and gives its status."""
    name, *rest = (sys.argv[1:] if words is None else words) or [""]
    if name in ("-h", "--help", "--version"):
        return status_of(name, version if name == "--version" else help_of_all, rest)
    if name not in NAMED:
        wrong = f"there is no command {said(name)}" if name else "no command is named"
        print(f"{USAGE}\n{TOOLS}: {wrong}; --help lists the commands", file=sys.stderr)
        return 2
    run = importlib.import_module(NAMED[name]).run
    return int(run(rest) if name in ALONE else status_of(name, run, rest))


if __name__ == "__main__":
    sys.exit(main())
