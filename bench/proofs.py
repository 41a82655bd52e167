#!/usr/bin/env python3
"""Where the minutes of a proof go: the seconds of each crate, and of the functions that took longest.

    bench/proofs.py [CRATE ..] [--most N]

It reads when the last check of a crate kept each module in `out/incremental` of its folder, and gives a module the time
since the one before it, and a function all its modules. So it says what `rt check --jobs 1` there took for what it
proved anew; with more jobs their times are mixed. What else the machine did counts too. With crates it reads only
theirs, else all that were checked here.
"""
import collections
import os
import re

from nrm import Stop
from nrm.commands import running
from nrm.program import TOP
from running import NAME, end

MODULE = re.compile(r"Rattle-(\w+)-proofs\.(.+?)(?:\.decls)?\.oantt")
BEGUN = "rattle-last-used"  # the file that a check touches as it begins


def kept_in(crate):
    """When the last check of a crate began, and when it kept each module, in order."""
    found = []
    for folder, _, names in os.walk(TOP / "crates" / crate / "out" / "incremental"):
        found += [(os.stat(os.path.join(folder, name)).st_mtime, name) for name in names]
    begun = max((at for at, name in found if name == BEGUN), default=0)
    return sorted(it for it in found if it[0] >= begun)


def function_of(module):
    """The function that a module belongs to, as `nrm_row::row::Row::combine`; none if it is a file of lemmas, or says
    what a type or a clause is."""
    found = MODULE.fullmatch(module)
    parts = found.group(2).split(".") if found else []
    while parts and not parts[-1][0].islower():
        parts.pop()
    return "::".join([found.group(1), *parts]) if parts else None


def main():
    words = running.parser(NAME, __doc__)
    words.add_argument("crates", nargs="*")
    words.add_argument("--most", type=int, default=20)
    given = words.parse_args()
    crates, functions = {}, collections.Counter()
    for crate in given.crates or sorted(os.listdir(TOP / "crates")):
        kept = kept_in(crate)
        if not kept and given.crates:
            raise Stop(f"no check kept anything of a crate {crate} here")
        for (before, _), (at, module) in zip(kept, kept[1:]):
            crates[crate] = crates.get(crate, 0) + at - before
            functions[function_of(module)] += at - before
    if not crates:
        raise Stop("no check kept anything here")
    del functions[None]
    for name, seconds in [*sorted(crates.items(), key=lambda it: -it[1]), *functions.most_common(given.most)]:
        print(f"{seconds:7.1f} {name}")


if __name__ == "__main__":
    end(main)
