"""A page of HTML that stands alone: headings, text, tables and pictures in one file, without scripts or links.

It is made for a wide and a narrow screen, light or dark, for paper and for a reader that speaks: tables have heads and
a caption, pictures a title and a description, and what is wider than the screen moves in a box of its own. jinja2 makes
it of the templates in `static` and escapes each name and text; what is put in as it stands is the pictures, which
matplotlib has escaped.
"""
from __future__ import annotations

import itertools
import re
from dataclasses import dataclass
from pathlib import Path
from typing import Any, Sequence, Union

from nrm.pages.tables import Table

STATIC = Path(__file__).with_name("static")
COLOURS = {"#000000": "var(--ink)", "#ffffff": "var(--paper)", "#eeeeee": "var(--soft)"}  # light or dark, as the page
STYLE = re.compile(r'style="[^"]*"')
OF_TITLE = re.compile(r"<(title|desc|metadata)\b.*?</\1>", re.S)


@dataclass(frozen=True)
class Picture:
    """A picture: the attributes and the inside of its SVG element, its title, and what it shows in words."""
    number: int
    title: str
    description: str
    attributes: str
    inside: str
    is_large: bool


def with_colours_of_page(style: str) -> str:
    """A style of a picture in which black, white and the lightest grey are the colours of the page."""
    return re.sub("#[0-9a-f]{6}", lambda it: COLOURS.get(it[0], it[0]), style)


class Page:
    """A page that is written part by part, each a kind and what there is of it. Its verdict comes first, in a
    sentence, and below it what the page was made of, each thing with its name."""

    def __init__(self, title: str, verdict: str = "", made_of: Sequence[tuple[str, str]] = ()) -> None:
        self.title, self.verdict, self.made_of, self.numbers = title, verdict, made_of, itertools.count(1)
        self.parts: list[tuple[str, Union[str, Table, Picture]]] = []

    def heading(self, text: str) -> None:
        """Begins a section."""
        self.parts.append(("heading", text))

    def text(self, text: str) -> None:
        """Adds a paragraph."""
        self.parts.append(("text", text))

    def table(self, table: Table) -> None:
        """Adds a table, whose first column names the rows."""
        self.parts.append(("table", table))

    def picture(self, svg: str, title: str, description: str, is_large: bool = False) -> None:
        """Adds a picture, the text of an SVG file, with a title and what it shows in words."""
        number = next(self.numbers)
        body = OF_TITLE.sub("", svg[svg.index("<svg"):])
        body = STYLE.sub(lambda it: with_colours_of_page(it[0]), body)
        body = re.sub(r'\b(id="|href="#|url\(#)', rf"\1picture-{number}-", body)  # no name stands twice on a page
        attributes, _, inside = body[len("<svg"):].partition(">")
        attributes = re.sub(r'\s(width|height|role|aria-\w+)="[^"]*"', "", attributes)
        picture = Picture(number, title, description, attributes, inside.rstrip(), is_large)
        self.parts.append(("picture", picture))

    def html(self) -> str:
        """The page as text."""
        return f"{templates().get_template('page.html').render(page=self)}\n"


def templates(*folders: Path) -> Any:
    """What makes pages of templates, those of some folders too, with each name and text escaped."""
    import jinja2  # here, since who makes no page needs none
    return jinja2.Environment(loader=jinja2.FileSystemLoader([*folders, STATIC]), autoescape=True, trim_blocks=True,
                              lstrip_blocks=True, undefined=jinja2.StrictUndefined)


