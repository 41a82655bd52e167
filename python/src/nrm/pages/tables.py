"""Tables as text, and names with the texts that they stand for."""
from __future__ import annotations

import dataclasses
import re
from dataclasses import dataclass
from fractions import Fraction
from typing import Iterable, Mapping, Sequence, Union

ZERO = re.compile(r"-?0(\.0+)?( %)?")
Cell = Union[str, int, Fraction, None]


def text_of_cell(value: Cell, decimal: bool) -> str:
    """The text of a number, a name or of nothing: of a number with a comma for thousands, or as a spreadsheet takes
    it."""
    if decimal and isinstance(value, Fraction):
        return f"{float(value):.2f}"
    if not decimal and isinstance(value, (int, Fraction)):
        return f"{int(value):,}" if value == int(value) else str(value)
    return "" if value is None else str(value)


def with_text(name: str, texts: Mapping[str, str]) -> str:
    """A name, and beside it the text that it stands for if it has another one."""
    return f"{name}: {texts[name]}" if texts.get(name, name) != name else name


@dataclass(frozen=True)
class Table:
    """A table: its title, the heads of its columns, and rows of numbers, names or nothing, the name of each first."""
    title: str
    heads: Sequence[str]
    rows: Sequence[Sequence[Cell]]
    decimal: bool = False

    def cells(self) -> list[list[str]]:
        """The texts of the rows."""
        return [[text_of_cell(it, self.decimal) for it in row] for row in self.rows]

    def is_nothing(self) -> bool:
        """Whether each of its numbers is 0."""
        return all(cell == "" or ZERO.fullmatch(cell) for row in self.cells() for cell in row[1:])

    def with_texts(self, texts: Mapping[str, str]) -> Table:
        """The table with the texts that names of its rows stand for beside them."""
        rows = [[with_text(name, texts) if isinstance(name, str) else name, *rest] for name, *rest in self.rows]
        return dataclasses.replace(self, rows=rows)

    def text(self) -> str:
        """The table as lines of text, its columns to the right but for the first."""
        rows = [list(self.heads), *self.cells()]
        widths = [max(map(len, column)) for column in zip(*rows)]
        aligned = [[name.ljust(widths[0]), *map(str.rjust, rest, widths[1:])] for name, *rest in rows]
        return "\n".join([self.title, "", *[f"  {'  '.join(it)}".rstrip() for it in aligned], ""])

    def show(self) -> None:
        """Prints the table behind an empty line."""
        print("\n" + self.text(), end="")


def told_of(tables: Iterable[Table]) -> tuple[list[Table], list[str]]:
    """The tables that say something, and a sentence that names the others, if there are some."""
    every = list(tables)
    empty = "; ".join(it.title for it in every if it.is_nothing())
    return [it for it in every if not it.is_nothing()], [f"All numbers are 0 in: {empty}."] if empty else []
