"""What stands at the head of a page or a summary: the files, the day, the seed and the versions that it was made of.

SOURCE_DATE_EPOCH, where it is set, says the day, so that a page comes out the same.
"""
from __future__ import annotations

import datetime
import hashlib
import os
from typing import Mapping, Sequence

from nrm import Stop, __version__, said
from nrm.program import Program

DIGITS = 12  # of a checksum that is shown
Made = Sequence[tuple[str, str]]  # what something was made of: the name of each thing, and a text


def today() -> str:
    """The day, as 2025-03-07."""
    seconds = os.environ.get("SOURCE_DATE_EPOCH", "")
    if not seconds:
        return datetime.date.today().isoformat()
    try:
        return datetime.datetime.fromtimestamp(int(seconds), datetime.timezone.utc).date().isoformat()
    except (ValueError, OverflowError, OSError):
        raise Stop(f"SOURCE_DATE_EPOCH is {seconds[:40]}, which isn't a time in seconds")


def checked(text: str, checksum: str) -> str:
    """A text with the beginning of the checksum of what it names."""
    return f"{text} (sha256 {checksum[:DIGITS]}..)"


def made_of(kinds: Mapping[str, Mapping[str, bytes]], program: Program, seed: int | None = None) -> Made:
    """What something was made of: of each kind the files by their names, the day, the seed if there is one, and the
    versions."""
    found = [(kind, ", ".join(checked(said(name), hashlib.sha256(data).hexdigest()) for name, data in files.items()))
             for kind, files in kinds.items()]
    found += [("date", today()), *([] if seed is None else [("seed", str(seed))])]
    runs = said(os.path.basename(program.words[0]))  # where it lies is nobody's affair who reads the page
    return [*found, ("versions", f"nrm-tools {__version__}, {checked(runs, program.checksum())}")]


def lines_of(made: Made) -> list[str]:
    """The same as lines of text."""
    return [f"{name}: {text}" for name, text in made]
