"""Whether the files of a journal are those that were opened: nobody has renamed one, taken it away, put another in its
place, given it a second name, or cut it.

They are looked at by their names alone: a process that opened a journal's file and closed it again would let go of the
locks that SQLite has on it.
"""
from __future__ import annotations

import contextlib
import os
from typing import Callable

from nrm import Stop
from nrm.journal.stores import Gone

LOG = "-wal"  # behind the name of a journal: what isn't in the file itself yet


def see_that_it_has_one_name(path: str) -> None:
    """A Stop for a file of several names. The log stands beside the name by which a journal is opened: by another one
    it isn't seen, and two servers would write."""
    with contextlib.suppress(OSError):  # one that isn't there has none
        names = os.stat(path).st_nlink
        if names > 1:
            raise Stop(f"{path} has {names} names (hard links), and a journal must have only one: remove the "
                       "others")


class Files:
    """A journal's file and its log, as they are when this is made, both being there. `version` is another number once
    another connection has written, or emptied the log; `least` is the bytes that the file has at least."""

    def __init__(self, path: str, version: Callable[[], int], least: Callable[[], int]) -> None:
        self.path, self.log = path, os.path.realpath(path) + LOG
        self.version, self.least = version, least
        self.sizes = {it: 0 for it in (self.path, self.log)}
        self.known = {it: (found.st_dev, found.st_ino) for it in self.sizes if (found := looked_at(it))}
        self.seen = version()
        self.note()

    def note(self) -> None:
        """Takes the sizes for right that the files have now."""
        self.sizes = {it: looked_at(it).st_size for it in self.sizes}

    def see_that_they_are_there(self) -> None:
        """Gone if one isn't there any more by its name, or has another name too. Their sizes are taken for right."""
        for path, known in self.known.items():
            found = looked_at(path)
            self.sizes[path] = found.st_size
            if (found.st_dev, found.st_ino) != known:
                raise Gone(f"another file is at {path} now")
            if found.st_nlink != 1:
                raise Gone(f"{path} has {found.st_nlink} names (hard links) now")

    def see_that_none_is_cut(self) -> None:
        """Gone if one was made shorter by who isn't SQLite: that another connection empties the log shows by the
        version, and none takes pages off the end of the file that it needs."""
        before, seen = dict(self.sizes), self.seen
        self.seen = self.version()  # before the sizes, so that what happens in between shows the next time
        self.note()
        for path in before:
            is_cut = self.sizes[path] < before[path] and self.version() == seen
            if is_cut and (path == self.log or self.sizes[path] < self.least()):
                self.see_that_they_are_there()  # else it is a smaller one in its place
                raise Gone(f"{path} was cut from {before[path]} bytes to {self.sizes[path]}")


def looked_at(path: str) -> os.stat_result:
    """What a file is, by its name; Gone if there is none."""
    try:
        return os.stat(path)
    except OSError as fault:
        raise Gone(f"{path}: {fault.strerror}: it was renamed or removed")
