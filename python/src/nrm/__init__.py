"""The tools beside `nrm`: network files read and explained, seasons played and shown, many desks at one controller.

Holds the version, `Stop`, the one error of a user's mistake, what is said of a name, and how a file is read and a
folder made so that a fault is one. `Desk`, by which a program of one's own asks a server for seats, is that of
`nrm.desk`.
"""
from __future__ import annotations

import importlib
import os
import unicodedata
from typing import TYPE_CHECKING

if TYPE_CHECKING:
    from nrm.desk import Desk as Desk
else:
    def __getattr__(name: str) -> object:
        """`Desk`, which is read when it is named, since no command needs it."""
        if name != "Desk":
            raise AttributeError(f"module {__name__!r} has no attribute {name!r}")
        return importlib.import_module("nrm.desk").Desk

__version__ = "v2.1.0"
UNSEEN = ("Cc", "Cf", "Cs", "Zl", "Zp")  # kinds of characters in Unicode


class Stop(Exception):
    """Why a command ends before it is done, in a sentence, and with which status."""

    def __init__(self, why: str, status: int = 1) -> None:
        super().__init__(why)
        self.status = status


def said(name: object, but: str = "") -> str:
    """A name of a file, or another text from elsewhere, as it is said: what isn't a sign of its own in it, such as a
    control character or one that turns the line round, is written out, but for some that may stand."""
    return "".join(it if it in but or unicodedata.category(it) not in UNSEEN else
                   it.encode("unicode_escape", "surrogatepass").decode() for it in str(name))


def bytes_in(path: str, most: int = -1) -> bytes:
    """The bytes of the file at a path, or the first of them."""
    try:
        with open(path, "rb") as file:
            return file.read(most)
    except OSError as fault:
        raise Stop(f"{said(path)}: {fault.strerror}")


def make_folder(path: str) -> None:
    """Makes the folder at a path if it isn't there."""
    try:
        os.makedirs(path, exist_ok=True)
    except FileExistsError:
        raise Stop(f"{said(path)} is a file, not a folder")
