"""Charts of many numbers, narrow so that their text can be read on a phone: a histogram, spans, means and courses with
intervals.
"""
from __future__ import annotations

import math
from typing import Sequence

import matplotlib.ticker
from matplotlib.pyplot import subplots

from nrm.pages.figures import BLACK, SKY, STYLES, VERMILLION, Axes, Figure, in_amounts

WIDE, ROW = 4.4, 0.34  # inches
GREY = "#BBBBBB"
STEPS = 30  # of a histogram, some
Point = tuple[float, float, float]  # a place, a mean, and half of its interval


def chart(high: float, across: str, up: str) -> tuple[Figure, Axes]:
    """A chart of a height, and what its axes measure."""
    figure, axis = subplots(figsize=(WIDE, high), layout="constrained")
    axis.set_xlabel(across)
    axis.set_ylabel(up)
    axis.xaxis.set_major_locator(matplotlib.ticker.MaxNLocator(5))
    return figure, axis


def histogram(values: Sequence[int], across: str, up: str) -> Figure:
    """How many of some values lie in each of some 30 equal steps; a line at 0 and one at their mean."""
    low, high = min(0, *values), max(0, *values)
    width = max(1, math.ceil((high - low) / STEPS))
    first = math.floor(low / width)
    counts = [0] * (math.floor(high / width) - first + 1)
    for value in values:
        counts[math.floor(value / width) - first] += 1
    figure, axis = chart(2.3, across, up)
    lefts = [(first + at) * width for at in range(len(counts))]
    colours = [SKY if left >= 0 else GREY for left in lefts]
    axis.bar(lefts, counts, width, align="edge", color=colours, edgecolor=BLACK, linewidth=0.5)
    axis.axvline(0, color=BLACK, linewidth=1.5)
    axis.axvline(sum(values) / len(values), color=VERMILLION, linewidth=2, linestyle="--")
    axis.yaxis.set_major_locator(matplotlib.ticker.MaxNLocator(5, integer=True))
    in_amounts(axis.xaxis)
    in_amounts(axis.yaxis)
    return figure


def named_rows(axis: Axes, names: Sequence[str]) -> None:
    """Has the rows of a chart tell names, the first one at the top."""
    axis.set_yticks(range(len(names)), names)
    axis.set_ylim(len(names) - 0.5, -0.5)
    axis.spines["left"].set_visible(False)
    axis.tick_params(axis="y", length=0)


def intervals(named: Sequence[tuple[str, str, float, float]], across: str) -> Figure:
    """For each name with its look, a mean with half of its interval to each side; and a line at 0."""
    figure, axis = chart(0.6 + ROW * len(named), across, "")
    axis.axvline(0, color=BLACK, linewidth=1)
    for at, (_, look, mean, half) in enumerate(named):
        colour, mark, _ = STYLES[look]
        axis.errorbar([mean], [at], xerr=[half], color=colour, marker=mark, linestyle="", elinewidth=2, capsize=3)
    named_rows(axis, [name for name, *_ in named])
    in_amounts(axis.xaxis)
    return figure


def spans(named: Sequence[tuple[str, str, Sequence[float], float]], across: str) -> Figure:
    """For each name with its look, its sorted values and a mark: from the 5th to the 95th of a hundred thin, from the
    25th to the 75th thick, and the mark."""
    figure, axis = chart(0.6 + ROW * len(named), across, "")
    for at, (_, look, values, middle) in enumerate(named):
        colour, mark, _ = STYLES[look]
        fifth, quarter = len(values) // 20, len(values) // 4
        axis.plot([values[fifth], values[-1 - fifth]], [at, at], color=colour, linewidth=2, solid_capstyle="butt")
        axis.plot([values[quarter], values[-1 - quarter]], [at, at], color=colour, linewidth=9, solid_capstyle="butt")
        axis.plot([middle], [at], color=colour, marker=mark, markersize=8, markeredgecolor="#FFFFFF")
    named_rows(axis, [name for name, *_ in named])
    return figure


def courses(named: Sequence[tuple[str, Sequence[Point]]], across: str, up: str) -> Figure:
    """For each name, which is its look too, its points with their intervals, joined in a line."""
    figure, axis = chart(3, across, up)
    for name, course in named:
        colour, mark, dash = STYLES[name]
        axis.errorbar(*zip(*course), color=colour, marker=mark, linestyle=dash, elinewidth=1, label=name)
    axis.xaxis.set_major_locator(matplotlib.ticker.MaxNLocator(6, integer=True))
    axis.margins(y=0.05)
    in_amounts(axis.yaxis)
    axis.legend(loc="lower center", bbox_to_anchor=(0.5, 1), ncol=len(named), handlelength=3)
    return figure
