"""The list of names at a path: which name of a network file stands for which text of a log.

A spreadsheet takes a text that begins with `=`, `+`, `-`, `@` or a tab for a formula, and runs it. So a ' stands before
such a text in the list, and is left out where the list is read.
"""
from __future__ import annotations

import csv
import io
import os
import re
from typing import Iterable, Mapping, Sequence

from nrm import Stop, bytes_in, said
from nrm.limits import MOST_NAME_BYTES
from nrm.network import NAME
from nrm.records.log_rows import text_in

HEADINGS = ["name", "stands for"]
FORMULA = re.compile(r"'*[=+\-@\t\r]")


def as_text(text: str) -> str:
    """A text as it stands in a list: no spreadsheet takes it for a formula."""
    return f"'{text}" if FORMULA.match(text) else text


def as_meant(text: str) -> str:
    """The text of a field of a list."""
    return text[1:] if text.startswith("'") and FORMULA.match(text) else text


def names_in(path: str | None) -> dict[str, str]:
    """The names of a list at a path, by what they stand for; none where there is no list yet."""
    if path is None or not os.path.exists(path):
        return {}
    text = text_in(path)
    reader = csv.reader(io.StringIO(text, newline=""), delimiter=";" if text.startswith("name;") else ",", strict=True)
    try:
        first, *rows = [(reader.line_num, row) for row in reader] or [(1, [])]
    except csv.Error:
        raise Stop(f"{said(path)} isn't a list of names: line {reader.line_num} or one above it has a quote that isn't "
                   "closed")
    if first[1] != HEADINGS:
        raise Stop(f"{said(path)} isn't a list of names: its first row must be `name,stands for`")
    names: dict[str, str] = {}
    for line, (name, *stands_for) in ((line, list(map(as_meant, row))) for line, row in rows if row):
        if len(stands_for) != 1 or not NAME.fullmatch(name) or name in names.values() or stands_for[0] in names:
            raise Stop(f"{said(path)} isn't a list of names: line {line} must have a name of its own, of 1 to "
                       f"{MOST_NAME_BYTES} of A-Z, 0-9 and -, and one text that it stands for")
        names[stands_for[0]] = name
    return names


def texts_in(path: str | None) -> dict[str, str]:
    """What the names of a list at a path stand for; none where no list is said."""
    if path is not None:
        bytes_in(path, 0)  # it is there
    return {name: text for text, name in names_in(path).items()}


def list_of(names: Mapping[str, str]) -> str:
    """The text of a list of names, in their order."""
    rows = sorted((name, text) for text, name in names.items())
    return text_of_rows([HEADINGS, *rows])


def text_of_rows(rows: Iterable[Sequence[str]]) -> str:
    """The text of a file for spreadsheets."""
    text = io.StringIO()
    csv.writer(text, lineterminator="\n").writerows([list(map(as_text, row)) for row in rows])
    return text.getvalue()
