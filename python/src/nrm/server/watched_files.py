"""The files that say who may come to a server, and with which certificate it answers: read anew once they have changed.
"""
from __future__ import annotations

import os
import ssl
from dataclasses import dataclass
from typing import Callable, Generic, Sequence, Tuple, TypeVar

from nrm import Stop
from nrm.server.access import Access, read_access
from nrm.server.tls import context_of
from nrm.server.tls_certificates import WRITTEN_BY_OTHERS, see_that_it_is_closed

Said = TypeVar("Said")
Stamp = Tuple[int, int, int, int]


class Watched(Generic[Said]):
    """What some files say. They are read anew once they have changed and then stayed for a second, so that none is read
    while it is written, nor one of two. Those that can't be read then leave it as it was."""

    def __init__(self, name: str, paths: Sequence[str], read: Callable[..., Said]) -> None:
        self.name, self.paths, self.read = name, paths, read
        self.stamps = self.seen = self.stamps_now()  # as they were when they were read, and when they were seen last
        self.said = read(*paths)

    def stamps_now(self) -> list[Stamp | None]:
        """What tells of each file whether it has changed."""
        return [stamp_of(it) for it in self.paths]

    def has_changed(self, tell: Callable[..., None]) -> bool:
        """Reads the files anew if they have changed, tells it, and gives whether it could. Is called once a second."""
        before, self.seen = self.seen, self.stamps_now()
        if self.seen == self.stamps or self.seen != before:
            return False
        self.stamps = self.seen
        try:
            self.said = self.read(*self.paths)
        except Stop as fault:
            tell(f"{self.name}-fault", why=str(fault))
            return False
        tell(f"{self.name}-read", files=",".join(self.paths))
        return True


def stamp_of(path: str) -> Stamp | None:
    """What tells whether a file has changed."""
    try:
        found = os.stat(path)
    except OSError:
        return None
    return found.st_ino, found.st_size, found.st_mtime_ns, found.st_ctime_ns


def closed_access(path: str) -> Access:
    """The desks of a file, which its owner alone may write."""
    access = read_access(path)
    see_that_it_is_closed(path, WRITTEN_BY_OTHERS, "those who write it can do everything at the server", "go-w")
    return access


@dataclass(frozen=True)
class Guard:
    """The file of the desks that may come, and those of certificate and key, as far as they are named."""
    desks: str | None = None
    certificate: str | None = None
    key: str | None = None

    def access(self) -> Watched[Access] | None:
        """The desks that may come."""
        return Watched("desks", [self.desks], closed_access) if self.desks else None

    def context(self) -> Watched[ssl.SSLContext] | None:
        """What TLS is spoken with."""
        if not (self.certificate and self.key):
            return None
        return Watched("certificate", [self.certificate, self.key], context_of)
