"""The pictures of thresholds, and of EMSR-b beside the optimum."""
from __future__ import annotations

from typing import Any, Mapping, Sequence

from matplotlib.lines import Line2D
from matplotlib.patches import Patch

from nrm.legs.fare_groupings import Grouping
from nrm.legs.leg_classes import FareClass, Policy
from nrm.pages.figures import (BLACK, BLUE, SHADE, VERMILLION, Axes, Figure, in_amounts, in_few_numbers, label, panels,
                               titled)

LETTERS_OF_A_TITLE = 40
CENTRE: dict[str, Any] = {"color": VERMILLION, "marker": "^", "linestyle": "", "clip_on": False, "zorder": 3}
CUT: dict[str, Any] = {"color": BLACK, "linewidth": 0.7, "linestyle": (0, (3, 2))}
OPTIMUM, EMSR = ({"color": BLUE, "linestyle": "-"}, "s",
                 "optimum"), ({"color": VERMILLION, "linestyle": "--"}, "^", "EMSR-b")


def thresholds(groupings: Sequence[Grouping], texts: Mapping[str, str]) -> Figure:
    """The fares on each leg, as high as the seats asked for, in their groups, with the cuts and the centres."""
    titles = [titled(it.leg, texts.get(it.leg, ""), LETTERS_OF_A_TITLE) for it in groupings]
    figure, axes = panels(len(groupings), 3, 1.35, 1, across=0.3, share_x=False, share_y=False, titles=titles)
    for axis, it, title in zip(axes, groupings, titles):
        draw_fares(axis, it)
        axis.set_title(title)
    label(figure, "fare, currency units", "seats asked for, in all histories",
          [Line2D([], [], color=BLUE, marker="o", markersize=3, linewidth=2, label="a fare"),
           Line2D([], [], **CUT, label="cut between two groups"),
           Line2D([], [], **CENTRE, label="centre of a group"), Patch(facecolor=SHADE, label="every other group")])
    return figure


def draw_fares(axis: Axes, it: Grouping) -> None:
    """Draws the fares of a leg into a panel."""
    fares, asked = list(it.asked), list(it.asked.values())
    edges = [(fare + below) / 2 for fare, below in zip(fares, fares[1:]) if it.group(fare) < it.group(below)]
    wide = (fares[0] - fares[-1]) / 20 or fares[0] / 20
    ends = [fares[0] + wide, *edges, fares[-1] - wide]
    for high, low in list(zip(ends, ends[1:]))[1::2]:
        axis.axvspan(low, high, color=SHADE, linewidth=0)
    axis.vlines(fares, 0, asked, color=BLUE, linewidth=2)
    axis.plot(fares, asked, color=BLUE, marker="o", linestyle="", markersize=3)
    for cut in it.cuts.thresholds:
        axis.axvline(cut, **CUT)
    axis.plot(it.cuts.centres, [0] * len(it.cuts.centres), **CENTRE)
    axis.set_xlim(ends[-1], ends[0])
    axis.set_ylim(bottom=0)
    in_few_numbers(axis.xaxis)
    in_few_numbers(axis.yaxis)


def optimum(classes: Sequence[FareClass], optimal: Policy, emsr: Policy) -> Figure:
    """The mean revenue from each number of seats, what the last one adds, and the seats protected from each class."""
    figure, (value, price, protected) = panels(3, 1, 1.9, 1, left=1.35, share_y=False)
    looks = [(optimal, OPTIMUM), (emsr, EMSR)]
    for (policy, (look, mark, _)), shift in zip(looks, (-0.12, 0.12)):
        means = [float(it) for it in policy.values]
        value.plot(range(len(means)), means, **look)
        price.plot(range(1, len(means)), [b - a for a, b in zip(means, means[1:])], **look, drawstyle="steps-mid")
        protected.plot(policy.protected, [at + shift for at in range(len(classes))], color=look["color"], linestyle="",
                       marker=mark, clip_on=False)
    value.set_title("mean revenue of a history from so many seats, currency units")
    price.set_title("bid price: what the last of so many seats adds, currency units")
    protected.set_title("seats that are protected from each class")
    protected.set_yticks(range(len(classes)), [f"{it.name}\n{it.fare}" for it in classes])
    protected.set_ylim(len(classes) - 0.5, -0.5)
    value.set_xlim(0, max(1, len(optimal.values) - 1))
    for axis in (value, price):
        axis.set_ylim(bottom=0)
        in_amounts(axis.yaxis)
    label(figure, "seats", "", [Line2D([], [], **look, marker=mark, label=text) for _, (look, mark, text) in looks])
    return figure
