"""The pictures of one season in the three modes: bid prices, the seats of a leg, revenue and refusals."""
from __future__ import annotations

from textwrap import shorten
from typing import Any, Callable, Iterator, Sequence

from matplotlib.lines import Line2D
from matplotlib.patches import Patch

from nrm.pages.figures import (BLACK, BLUE, GREEN, ORANGE, PURPLE, SETTINGS, SHADE, SKY, VERMILLION, YELLOW, Axes,
                               Figure, in_amounts, label, panels, style, titled)
from nrm.pages.tables import with_text
from nrm.seasons.results import per_cent
from nrm.seasons.season_course import ModeCourse, Season

Look = tuple[str, str]  # a colour and a hatch
BANDS: list[Look] = [(VERMILLION, "////"), (ORANGE, "----"), (GREEN, "\\\\\\\\"), (YELLOW, "||||"), (PURPLE, "xxxx"),
                     (SKY, "++++"), (VERMILLION, "----"), (ORANGE, "////"), (GREEN, "||||")]
SOLD, OPEN, CLOSED = (BLUE, ""), ("#FFFFFF", ""), ("#BBBBBB", "")
SEATS_LINE: dict[str, Any] = {"color": BLACK, "linewidth": 1.3, "linestyle": "--", "clip_on": False}
PLAN_LINE: dict[str, Any] = {"color": BLACK, "linewidth": 0.5, "linestyle": (0, (1, 2))}
LINE = "line of the stream"
PRODUCTS_IN_A_PANEL = 32
LEFT, LETTER = 1.35, 0.07  # inches: room for the name of a product, and for a letter of its text
LETTERS_OF_A_TITLE, MOST_OF_A_TEXT = 40, 60
WIDEST_TITLE = 22  # letters that fit above one of five panels


def figures(season: Season) -> Iterator[tuple[str, Callable[[], Figure]]]:
    """The pictures by their names, each as what draws it."""
    yield "bid-prices", lambda: bid_prices(season)
    yield "seats", lambda: seats(season)
    yield "revenue", lambda: revenue(season)
    if any(season.courses[0].asked.values()):
        yield "refused", lambda: refused(season)


def mark_plans(axis: Axes, season: Season) -> None:
    """Draws a thin line where the network was optimised again."""
    for number, name in season.stream.points:
        if name.startswith("period"):
            axis.axvline(number, **PLAN_LINE)


def plan_mark() -> Any:
    """The sign of that line in the legend."""
    return Line2D([], [], **PLAN_LINE, label="reoptimised")


def bid_prices(season: Season) -> Figure:
    """The bid price of each leg, under the modes that have prices."""
    legs, priced = season.network.legs, season.courses[1:]
    names = {it.name: f"{it.name}, {it.authorised} {'seats' if it.authorised == it.seats else 'authorised'}"
             for it in legs.values()}
    size = SETTINGS["axes.titlesize"] * min(1, WIDEST_TITLE / max(map(len, names.values())))
    titles = {it: titled(names[it], season.texts.get(it, ""), WIDEST_TITLE) for it in legs}
    figure, axes = panels(len(legs), 5, 1.25 if len(legs) > 5 else 2, 1, titles=titles.values())
    for axis, leg in zip(axes, legs):
        mark_plans(axis, season)
        for it in priced:
            axis.plot([point.number for point in it.points], [float(point.plan.prices[leg]) for point in it.points],
                      drawstyle="steps-post", **style(it.mode))
        axis.set_title(titles[leg], fontsize=size)
    most = max(1.0, *[float(price) for it in priced for point in it.points for price in point.plan.prices.values()])
    axes[0].set_ylim(-0.05 * most, 1.05 * most)
    label(figure, LINE, "bid price, currency units",
          [*[Line2D([], [], **style(it.mode)) for it in priced], plan_mark()])
    return figure


def bands(course: ModeCourse, authorised: int) -> tuple[list[int], list[tuple[int, ...]]]:
    """A leg's authorised seats behind each line that changes them, with the numbers of these lines: from the top those
    protected for bucket 1, for buckets 1 and 2, and so on, then those left to all, then those sold."""
    levels: Sequence[int] = ()
    points, numbers, found = list(course.points), list[int](), list[list[int]]()
    for number, sold in enumerate(course.course):
        while points and points[0].number <= number:
            levels = points.pop(0).plan.protections.get(course.leg, ())
        protected = [min(level, authorised - sold) for level in levels]
        now = [b - a for a, b in zip([0, *protected], [*protected, authorised - sold])] + [sold]
        if not found or now != found[-1] or number + 1 == len(course.course):
            numbers.append(number)
            found.append(now)
    return numbers, list(zip(*found))


def seats(season: Season) -> Figure:
    """The authorised seats of a leg in each mode: sold, left, and of those left, protected by bucket; and a line at its
    seats where these are fewer, or more, of which some are not authorised."""
    leg, courses = season.network.legs[season.leg], season.courses
    looks = BANDS[:len(leg.thresholds)]
    marks = [] if leg.authorised == leg.seats else [Line2D([], [], **SEATS_LINE, label=f"the leg's {leg.seats} seats")]
    marks += [patch(CLOSED, "not authorised")] if leg.authorised < leg.seats else []
    text = season.texts.get(leg.name, "")
    titles = [titled(f"{leg.name} under {it.mode}", text, LETTERS_OF_A_TITLE) for it in courses]
    figure, axes = panels(len(courses), 3, 2.5, -(-(3 + len(looks) + len(marks)) // 3), titles=titles)
    for axis, it, title in zip(axes, courses, titles):
        draw_bands(axis, it, leg.authorised, looks)
        mark_plans(axis, season)
        if marks:
            axis.axhline(leg.seats, **SEATS_LINE)
            axis.axhspan(leg.authorised, max(leg.authorised, leg.seats), facecolor=CLOSED[0], linewidth=0)
        axis.set_title(title)
        axis.margins(x=0, y=0)
    protected = [patch(look, f"left, protected for bucket{f's 1 to {b}' if b > 1 else ' 1'}")
            for b, look in enumerate(looks, 1)]
    handles = [patch(SOLD, "sold"), patch(OPEN, "left, not protected"), *protected, *marks, plan_mark()]
    label(figure, LINE, "seats", handles, 3)
    return figure


def draw_bands(axis: Axes, course: ModeCourse, authorised: int, looks: Sequence[Look]) -> None:
    """Draws the seats of a leg in a mode into a panel."""
    numbers, found = bands(course, authorised)
    top = [authorised] * len(numbers)
    for (colour, hatch), band in zip([*looks[:len(found) - 2], OPEN, SOLD], found):
        bottom = [a - b for a, b in zip(top, band)]
        axis.fill_between(numbers, bottom, top, step="post", facecolor=colour, hatch=hatch, edgecolor=BLACK,
                          linewidth=0)
        top = bottom
    axis.plot(numbers, found[-1], drawstyle="steps-post", color=BLACK, linewidth=0.8)


def patch(look: Look, text: str) -> Any:
    """A sign of a band in the legend."""
    return Patch(facecolor=look[0], hatch=look[1], edgecolor=BLACK, linewidth=0.5, label=text)


def revenue(season: Season) -> Figure:
    """The revenue of each mode beside the bound of hindsight."""
    figure, (axis,) = panels(1, 1, 2.8, 2, left=0.85)
    mark_plans(axis, season)
    first = season.courses[0].points
    last, handles = first[-1].bound, []
    courses: dict[str, list[tuple[int, Any]]] = {"bound": [(point.number, point.bound) for point in first]}
    courses.update({it.mode: [(point.number, point.revenue) for point in it.points] for it in season.courses})
    for name, course in courses.items():
        drawn = [(number, float(amount)) for number, amount in course if amount is not None]
        share = f", at the end {per_cent(drawn[-1][1], float(last))} of it" if last and name != "bound" else ""
        look = style(name, "bound of hindsight" if name == "bound" else name + share)
        axis.plot(*zip(*drawn), **look)
        handles.append(Line2D([], [], **look))
    in_amounts(axis.yaxis)
    axis.set_ylim(bottom=0)
    label(figure, LINE, "revenue, currency units", [handles[0], plan_mark(), *handles[1:]], 3)
    return figure


def refused(season: Season) -> Figure:
    """Of each product, the share of the requests that were refused."""
    asked = season.courses[0].asked
    names = [name for name, count in asked.items() if count]
    texts = {name: f"{shorten(with_text(name, season.texts), MOST_OF_A_TEXT, placeholder=' ..')} ({asked[name]})"
             for name in names}
    left = max(LEFT, LETTER * max(map(len, texts.values())))
    columns = 1 if left > LEFT else 2
    size = min(-(-len(names) // columns), PRODUCTS_IN_A_PANEL)
    if columns == 1:
        size = -(-len(names) // -(-len(names) // PRODUCTS_IN_A_PANEL))  # panels of one size
    parts = [names[at:at + size] for at in range(0, len(names), size)]
    figure, axes = panels(len(parts), columns, max(0.2 * size, 1.5), 1, left=left, across=LEFT, share_y=False)
    looks = {it.mode: {**style(it.mode), "linestyle": "", "markersize": 3.6} for it in season.courses}
    for axis, part in zip(axes, parts):
        for at in range(0, len(part), 2):
            axis.axhspan(at - 0.5, at + 0.5, color=SHADE, linewidth=0)
        for it, shift in zip(season.courses, (-0.3, 0.0, 0.3)):
            shares = [100 * it.refused[name] / it.asked[name] for name in part]
            axis.plot(shares, [at + shift for at in range(len(part))], **looks[it.mode], clip_on=False)
        axis.set_yticks(range(len(part)), [texts[name] for name in part])
        axis.set_ylim(size - 0.5, -0.5)
        axis.set_xlim(-3, 103)
        axis.tick_params(axis="y", length=0)
    label(figure, "share of the requests that were refused, %", "product (its requests)",
          [Line2D([], [], **look) for look in looks.values()])
    return figure
