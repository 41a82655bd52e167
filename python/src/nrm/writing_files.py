"""The files that a run writes: each is made beside its place, and all come there at the end of a good run, or none.

A link that stands in such a place is a Stop, since what it leads to may be another's; a device or a pipe is written to.
"""
from __future__ import annotations

import contextlib
import os
import secrets
import stat
import sys
from types import TracebackType
from typing import IO

from nrm import Stop, bytes_in, said


class Output:
    """Files that are written when the block of a `with` ends without an error, behind what it has printed."""

    def __init__(self) -> None:
        self.beside: dict[str, str] = {}  # of each place, the path of what stands beside it
        self.through: dict[str, bytes] = {}  # what goes to devices and pipes

    def __enter__(self) -> Output:
        return self

    def add(self, path: str, content: str | bytes, encoding: str = "utf-8") -> str:
        """Makes the file of a path beside it, and gives the path."""
        is_device = self.see(path)
        data = content if isinstance(content, bytes) else content.encode(encoding)
        if is_device:
            self.through[path] = data
            return path
        try:
            self.beside[path] = made_beside(path, data)
        except OSError as fault:
            raise Stop(f"{said(path)}: {fault.strerror}")
        return path

    def text(self, path: str) -> str:
        """The text of a file that is made."""
        return (self.through.get(path) or bytes_in(self.beside[path])).decode()

    def see(self, path: str) -> bool:
        """Sees that a file can be put at a path, before there is something to put; whether a device is there."""
        if path in self.beside or path in self.through:
            raise Stop(f"{said(path)} would be written twice: name another file for one of the two")
        return is_through(path)

    def __exit__(self, kind: type[BaseException] | None, _: BaseException | None, __: TracebackType | None) -> None:
        try:
            if kind is None:
                if sys.stdout:
                    sys.stdout.flush()
                self.put()
        finally:
            for path in self.beside.values():
                with contextlib.suppress(OSError):
                    os.remove(path)

    def put(self) -> None:
        """Puts each file into its place."""
        for path, data in self.through.items():
            with open(path, "wb") as file:
                file.write(data)
        for path in list(self.beside):
            os.replace(self.beside[path], path)
            del self.beside[path]


def is_through(path: str) -> bool:
    """Whether what is written to a path goes through it, since a device or a pipe stands there. A Stop for a folder,
    and for a link to what would be written over."""
    try:
        kind, is_link = os.stat(path).st_mode, os.path.islink(path)
    except OSError:
        kind, is_link = 0, os.path.islink(path)
    if stat.S_ISDIR(kind):
        raise Stop(f"{said(path)} is a folder, not a file to write")
    is_device = kind != 0 and not stat.S_ISREG(kind)
    if is_link and not is_device:
        raise Stop(f"{said(path)} is a link, and links aren't followed: name the file that it leads to, or remove the "
                   f"link")
    return is_device


def made_beside(path: str, data: bytes) -> str:
    """Makes a file beside a path with the rights of the file that is there, and gives its own path."""
    made = f"{path}.{secrets.token_hex(4)}.new"
    with opened(made, "xb") as file:
        try:
            file.write(data)
            with contextlib.suppress(FileNotFoundError):
                os.fchmod(file.fileno(), stat.S_IMODE(os.stat(path).st_mode))
        except BaseException:
            os.remove(made)
            raise
    return made


def opened(path: str, mode: str) -> IO[bytes]:
    """A file that is opened to be written, and is no link."""
    is_through(path)
    return open(path, mode, opener=lambda name, flags: os.open(name, flags | os.O_NOFOLLOW, 0o666))
