"""What all pictures have in common: panels with a legend below, colours with marks, files that are the same each time.

Colours are those of Okabe and Ito, which colour-blind readers tell apart; each has a mark, a dash or a hatch of its own
too. It needs matplotlib: who draws asks `nrm.libraries` first.
"""
from __future__ import annotations

import io
import os
import textwrap
from typing import Any, Callable, Iterable, Iterator

import matplotlib

from nrm import make_folder
from nrm.writing_files import Output

matplotlib.use("Agg")
import matplotlib.pyplot as pyplot  # noqa: E402, behind the choice of what draws

BLACK, ORANGE, SKY, GREEN, YELLOW, BLUE, VERMILLION, PURPLE = (
    "#000000", "#E69F00", "#56B4E9", "#009E73", "#F0E442", "#0072B2", "#D55E00", "#CC79A7")
STYLES = {"first": (ORANGE, "o", ":"), "bid": (BLUE, "s", "-"), "davn": (VERMILLION, "^", "--"),
          "averaged": (GREEN, "v", (0, (6, 1, 1, 1))), "bound": (BLACK, "D", "-.")}
SHADE = "#EEEEEE"
MOST_LINES, LINE_OF_A_TITLE = 2, 0.14  # of a text below a title, and its inches
AMOUNTS = "{x:,.0f}"
WIDTH = 8.3  # inches of 100 dots: as wide as a page of a repository
SETTINGS: dict[str, Any] = {
    "svg.hashsalt": "nrm", "svg.fonttype": "none", "font.size": 8.5, "axes.titlesize": 8.5, "axes.spines.top": False,
    "axes.spines.right": False, "hatch.linewidth": 0.5, "lines.markersize": 4.5, "lines.linewidth": 1.3,
    "legend.frameon": False, "figure.dpi": 100, "text.parse_math": False}  # a name is no formula; since 3.6
WITHOUT_DATE: dict[str, dict[str, Any]] = {"png": {"Software": None}, "svg": {"Date": None, "Creator": None}}
Figure = Any  # matplotlib has no types
Axes = Any


def panels(count: int, columns: int, height: float, legend: int, left: float = 0.65, across: float = 0.25,
           share_x: bool = True, share_y: bool = True, titles: Iterable[str] = ()) -> tuple[Figure, list[Axes]]:
    """A figure with that many panels, each of a height in inches, and room below for so many rows of a legend, and
    above each panel for the lines of its title."""
    columns = min(columns, count)
    rows = -(-count // columns)
    below, more = 0.7 + 0.18 * legend, LINE_OF_A_TITLE * max((it.count("\n") for it in titles), default=0)
    above, between = 0.3 + more, 0.42 + more
    tall = above + rows * height + (rows - 1) * between + below
    wide = (WIDTH - left - 0.2 - (columns - 1) * across) / columns
    figure, axes = pyplot.subplots(rows, columns, squeeze=False, sharex=share_x, sharey=share_y, figsize=(WIDTH, tall))
    figure.subplots_adjust(left=left / WIDTH, right=1 - 0.2 / WIDTH, top=1 - above / tall, bottom=below / tall,
                           wspace=across / wide, hspace=between / height)
    for axis in axes.flat[count:]:
        axis.set_visible(False)
    return figure, list(axes.flat[:count])


def label(figure: Figure, across: str, up: str, handles: list[Any], columns: int = 4) -> None:
    """Puts the words below and beside the panels, and the legend below them."""
    tall, box = figure.get_size_inches()[1], figure.subplotpars
    middle = (box.left + box.right) / 2
    figure.text(middle, box.bottom - 0.42 / tall, across, ha="center")
    figure.text(0.08 / WIDTH, (box.bottom + box.top) / 2, up, va="center", rotation="vertical")
    figure.legend(handles=handles, loc="lower center", ncol=columns, bbox_to_anchor=(middle, 0), handlelength=3)


def style(name: str, text: str | None = None) -> dict[str, Any]:
    """The colour, the mark and the dash of a mode or of the bound, with its text in the legend."""
    colour, mark, dash = STYLES[name]
    return {"color": colour, "marker": mark, "linestyle": dash, "label": text or name}


def titled(title: str, text: str, letters: int) -> str:
    """A title, and below it a text of so many letters in a line, if there is one."""
    return "\n".join([title, *textwrap.wrap(text, letters, max_lines=MOST_LINES, placeholder=" ..")])


def in_amounts(axis: Any) -> None:
    """Has an axis tell amounts, with a comma for thousands."""
    axis.set_major_formatter(matplotlib.ticker.StrMethodFormatter(AMOUNTS))


def in_few_numbers(axis: Any) -> None:
    """Has an axis tell a few whole numbers."""
    axis.set_major_locator(matplotlib.ticker.MaxNLocator(4, integer=True))


def written(figures: Iterable[tuple[str, Callable[[], Figure]]], folder: str, output: Output,
            kinds: Iterable[str] = tuple(WITHOUT_DATE)) -> Iterator[str]:
    """Draws figures, each with its name, has them written in files of these kinds, and gives the paths of these."""
    make_folder(folder)
    known = {name: value for name, value in SETTINGS.items() if name in matplotlib.rcParams}
    with matplotlib.rc_context(known):
        for name, make in figures:
            figure = make()
            for kind in kinds:
                path = os.path.join(folder, f"{name}.{kind}")
                picture = io.BytesIO()
                figure.savefig(picture, format=kind, metadata=WITHOUT_DATE[kind])
                yield output.add(path, picture.getvalue())
            pyplot.close(figure)
