"""The rows of a log: its text, its headings, and what stands below those that are asked for. None is lost in silence.
"""
from __future__ import annotations

import codecs
import csv
import io
import itertools
from dataclasses import dataclass
from typing import Iterator, Sequence

from nrm import Stop, bytes_in, said

SEPARATORS = [",", ";", "\t", "|"]
MOST_ABOVE = 100  # rows above the headings
MOST_TEXT = 60  # that is shown of a line
MOST_SHOWN = 5  # texts
OF_A_SPREADSHEET = (b"PK\x03\x04", b"\xd0\xcf\x11\xe0")  # how .xlsx and .ods begin, and .xls


def text_in(path: str) -> str:
    """The text of the log, or of the list of names, at a path."""
    csv.field_size_limit(2**31 - 1)
    data = bytes_in(path)
    if data.startswith(OF_A_SPREADSHEET):
        raise Stop(f"{said(path)} is a spreadsheet's own file: save it as CSV, or "
                   f"run `soffice --headless --convert-to csv {said(path)}`")
    if data.startswith((b"\xff\xfe", b"\xfe\xff")):
        return data.decode("utf-16", "replace")
    try:
        return data.decode("utf-8-sig")
    except UnicodeDecodeError:
        return data.removeprefix(codecs.BOM_UTF8).decode("cp1252", "replace")


def cut_short(text: str) -> str:
    """A text as it is told, and of a long one the beginning."""
    return text if len(text) <= MOST_TEXT else text[:MOST_TEXT] + ".."


def some_of(texts: Sequence[str], most: int = MOST_SHOWN, others: str = "more") -> str:
    """Some texts, and how many others there are."""
    more = f" and {len(texts) - most} {others}" if len(texts) > most else ""
    return f"{', '.join(texts[:most])}{more}"


@dataclass(frozen=True)
class LogRow:
    """A row of a log: the line of the file in which it begins, and what stands in the columns that are asked for."""
    line: int
    fields: list[str]


class Log:
    """The rows of a log, and how many lines are none: down to the headings, empty, or within a row that goes on.

    Lines that can't be read are a Stop, or, where faults are gathered, told with what is wrong with them.
    """

    def __init__(self, path: str, columns: Sequence[str], is_multiline: bool = False, gathers: bool = False) -> None:
        text = text_in(path)
        self.path, self.is_multiline, self.lines = path, is_multiline, list(io.StringIO(text, newline=""))
        try:
            found = ((it, self.headings(it, columns)) for it in SEPARATORS)
            separator, places = next((it for it in found if it[1]), ("", []))
        except csv.Error as fault:
            raise Stop(f"{said(path)} can't be read as fields with separators between them: {fault}")
        if not places:
            raise Stop(f"{said(path)} {what_is_there(text, columns)}")
        self.rows: list[LogRow] = []
        self.faults: list[tuple[int, str]] = []  # lines, and what is told of them
        self.empty = self.within = 0
        for line, ends, fields in self.records(separator, gathers):
            self.within += ends - line
            if any(map(str.strip, fields)):
                self.rows.append(LogRow(line, [fields[at].strip() if at < len(fields) else "" for at in places]))
            else:
                self.empty += 1

    def headings(self, separator: str, columns: Sequence[str]) -> list[int]:
        """Where the columns stand, by the first row that has all of them as headings; nowhere if there is none."""
        reader, before = csv.reader(self.lines, delimiter=separator), 0
        for fields in itertools.islice(reader, MOST_ABOVE):
            if places := places_of(columns, fields):
                self.above = before
                self.above = next(self.records(separator))[1]
                return places
            before = reader.line_num
        return []

    def records(self, separator: str, gathers: bool = False) -> Iterator[tuple[int, int, list[str]]]:
        """The records below the headings, each with the lines in which it begins and ends. One that doesn't end as it
        should is a Stop; or, where faults are gathered and each record is a line, one of them."""
        if self.is_multiline:
            yield from self.records_of_lines(separator)
            return
        for line, text in enumerate(self.lines[self.above:], self.above + 1):
            try:
                fields = next(csv.reader([text], delimiter=separator, strict=True), list[str]())
            except csv.Error as fault:
                why = self.no_record(line, line, "end of data" in str(fault))
                if not gathers:
                    raise self.refused(line, why) from None
                self.faults.append((line, self.shown(line, why)))
            else:
                yield line, line, fields

    def records_of_lines(self, separator: str) -> Iterator[tuple[int, int, list[str]]]:
        """The records below the headings, each of one line or more."""
        reader, begins = csv.reader(self.lines[self.above:], delimiter=separator, strict=True), self.above + 1
        while True:
            try:
                fields = next(reader, None)
            except csv.Error as fault:
                ends = self.above + reader.line_num
                raise self.refused(begins, self.no_record(begins, ends, "end of data" in str(fault)))
            if fields is None:
                return
            ends = self.above + reader.line_num
            yield begins, ends, fields
            begins = ends + 1

    def no_record(self, begins: int, ends: int, is_open: bool) -> str:
        """What is wrong with a record that doesn't end as it should, as shows in a line, or by an open quote."""
        if is_open and not self.is_multiline:
            return ("a quote is opened in it and isn't closed in it, which would take the lines below with it: "
                    "close it or remove it; --multiline allows fields with line feeds")
        if is_open:
            return "a quote is opened in it that is closed nowhere: close it or remove it"
        return (f"a quote is opened and closed in it{f', in line {ends},' if ends > begins else ''} and more text "
                "follows it: close it at the end of its field, or write a quote within a field twice")

    def shown(self, line: int, why: str) -> str:
        """A line that can't be read, and what is wrong with it."""
        text = cut_short(self.lines[line - 1].rstrip("\r\n"))
        return f"line {line} can't be read: {why}\n    {text}"

    def refused(self, line: int, why: str) -> Stop:
        """A Stop for a line."""
        return Stop(f"{said(self.path)}: {self.shown(line, why)}")

    def told(self) -> str:
        """How many rows were read of how many lines, and what the other lines were."""
        more = f", lines within fields {self.within}" if self.within else ""
        more += f", open or broken quotes {len(self.faults)}" if self.faults else ""
        return (f"rows read {len(self.rows)} of {len(self.lines)} lines; down to the headings {self.above}, "
                f"empty {self.empty}{more}")


def what_is_there(text: str, columns: Sequence[str]) -> str:
    """What is said of a log without a row that has all columns: the row that has most of them, and which it lacks."""
    rows = (row for it in SEPARATORS
            for row in itertools.islice(csv.reader(text.splitlines(), delimiter=it), MOST_ABOVE))
    headings = min(rows, key=lambda row: len(lacking(columns, row)), default=list[str]())
    lacks = lacking(columns, headings)
    if len(lacks) == len(columns):
        return f"has no row of headings with {', '.join(columns)}; it begins with {text.lstrip()[:100]!r}"
    return f"has no column {', '.join(lacks)}; its headings are {', '.join(filter(None, map(str.strip, headings)))}"


def plain(names: Sequence[str]) -> list[str]:
    """Names of columns as they are compared."""
    return [it.strip().lower() for it in names]


def lacking(columns: Sequence[str], fields: Sequence[str]) -> list[str]:
    """The columns that a row of headings lacks."""
    there = plain(fields)
    return [it for it, wanted in zip(columns, plain(columns)) if wanted not in there]


def places_of(columns: Sequence[str], fields: Sequence[str]) -> list[int]:
    """Where the columns stand in a row of headings; nowhere where it has not all of them."""
    if lacking(columns, fields):
        return []
    headings, wanted = plain(fields), plain(columns)
    for it in wanted:
        if headings.count(it) > 1:
            raise Stop(f"the log has two columns {it}: give one of them another heading")
    return [headings.index(it) for it in wanted]
