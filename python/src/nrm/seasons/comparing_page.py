"""What is told of many seasons in words and pictures, and the page with all of it.

The pictures are drawn when they are asked for, since that takes matplotlib.
"""
from __future__ import annotations

import math
from dataclasses import dataclass
from typing import Any, Callable, Iterator, Mapping, Sequence

from nrm.pages.heads import Made
from nrm.pages.page import Page
from nrm.pages.tables import Table, with_text
from nrm.seasons.averaged_prices import AVERAGED
from nrm.seasons.comparing_tables import Study
from nrm.seasons.drawing import Settings
from nrm.seasons.ranking import Ranking, errors_for
from nrm.seasons.results import Results, amount, per_cent

Span = tuple[str, str, Sequence[float], float]  # a name, its look, the shares of seasons, and that of all together
MOST_SPANS, MOST_MEANS, MOST_HISTOGRAMS = 60, 12, 12
DEMAND_IN_WORDS = {"histories": "the requests of a history, all equally likely",
                   "independent": "the requests of a history for each product, drawn apart",
                   "poisson": "Poisson numbers about the mean of the histories, for each product and period apart"}


@dataclass(frozen=True)
class SeasonPicture:
    """A picture: the name of its file, its title, what it shows in words, and what draws it."""
    name: str
    title: str
    about: str
    draw: Callable[[], Any]


# Words


def about(seasons: int, settings: Settings, results: Mapping[str, Results]) -> Iterator[str]:
    """What was done, in sentences."""
    parties = [f"{size} with weight {weight}" if len(settings.parties) > 1 else str(size)
               for size, weight in settings.parties]
    yield (f"{seasons:,} seasons, drawn by seed {settings.seed}. Demand: {DEMAND_IN_WORDS[settings.demand]}. "
           f"Order in a period: {settings.order}. Parties: {', '.join(parties)}.")
    if settings.cancel:
        yield (f"Each booking was cancelled with probability {settings.cancel:g}. The bound counts all requests, "
               "cancelled ones too, and bounds the revenue of the bookings that stand; what is withheld is beside it.")
    if settings.show is not None:
        yield (f"Each seat booked at the end was taken with probability {settings.show:g}. Denied are seats taken "
               f"beyond the physical seats of their leg, at {settings.denied_cost:,} each; empty are physical seats "
               "that nobody took. The bound doesn't count either of them.")
    if settings.leave_out:
        yield "Plans were made without the history that was played."
    if AVERAGED in settings.modes:
        yield (f"Under {AVERAGED} the prices were the mean of those of each history by itself, computed again at the "
               "start of each period; a request below them wasn't sent, and `nrm run first` answered the others.")
    if len(results) > 1:
        yield "Season by season all networks get the same draws."
    if settings.by_product:
        yield ("They differ in more than their legs: each product's requests are drawn by its name, so those for one "
               "that is the same in two networks are the same.")
    if len(results) > 2:
        yield (f"Beside the most, intervals are of {errors_for(len(results)):.2f} standard errors to each side, so "
               "that those of all pairs hold at once in 95 of 100 such runs or more. What truly earns most is then the "
               "one marked so or one whose interval reaches 0.")
    yield f"Seasons whose revenue is above the bound: {sum(it.above_bound for it in results.values())}."


# Pictures


def pictures(study: Study) -> Iterator[SeasonPicture]:
    """The pictures of a study."""
    if study.seats:
        yield of_authorised(study, *study.seats)
    elif 1 < len(study.results) <= MOST_SPANS // len(study.settings.modes):
        yield of_networks(study)
    spans = [(study.named(name, mode), mode, it.shares(mode), 100 * it.share(mode))
             for name, it in study.results.items() for mode in it.modes]
    if all(values for _, _, values, _ in spans) and len(spans) <= MOST_SPANS:
        yield of_shares(spans)
    if not study.seats and len(study.results) <= MOST_HISTOGRAMS:
        for at, (name, it) in enumerate(study.results.items()):
            number = f"-{at + 1}" if len(study.results) > 1 else ""
            for mode, other in it.pairs():
                title = f"{study.of(name)}{mode} less {other}, season by season"
                yield of_differences(f"differences-{mode}-{other}{number}", title, mode, it.differences(mode, other))


def of_shares(spans: Sequence[Span]) -> SeasonPicture:
    """The share of the bound in the seasons of each mode."""
    from nrm.pages import charts
    marks = "; ".join(f"{name} {per_cent(mark, 100)}" for name, _, _, mark in spans[:MOST_MEANS])
    words = ("The thin line goes from the 5th to the 95th of a hundred seasons, the thick line from the 25th to the 75th. "
             f"The mark is at the share of all seasons together: {marks}.")
    return SeasonPicture("shares", "Share of the bound by mode", words,
                         lambda: charts.spans(spans, "share of the bound, %"))


def of_differences(name: str, title: str, mode: str, values: Sequence[int]) -> SeasonPicture:
    """By how much a mode is ahead of another, season by season."""
    from nrm.pages import charts
    words = (f"The differences are from {min(values):,} to {max(values):,}. Their mean is "
             f"{amount(sum(values) / len(values))}, which the broken line shows; {mode} is ahead in {per_cent(sum(v > 0 for v in values), len(values))} of "
             "the seasons, which are blue.")
    return SeasonPicture(name, title, words, lambda: charts.histogram(values, "currency units", "seasons"))


def of_authorised(study: Study, leg: str, seats: Mapping[str, int]) -> SeasonPicture:
    """What each mode earns less than with the authorised seats that are its best."""
    from nrm.pages import charts
    courses = [(mode, sorted(points_of(it, seats))) for mode, it in study.rankings.items()]
    tops = "; ".join(f"under {mode} at {seats[it.best]}" for mode, it in study.rankings.items())
    words = ("What a season brings beside the authorised seats that earn most in each mode, with its interval at 95 "
             f"per cent for all. Most is earned {tops}.")
    title = f"What is earned by the authorised seats of {with_text(leg, study.texts)}"
    return SeasonPicture("authorised", title, words,
                         lambda: charts.courses(courses, f"authorised seats of {leg}",
                                                "beside the most, currency units"))


def of_networks(study: Study) -> SeasonPicture:
    """What each network earns less than the best, in each mode."""
    from nrm.pages import charts
    named = [(study.named(name, mode), mode, *beside_best(it, name))
             for mode, it in study.rankings.items() for name in it.means]
    tops = "; ".join(f"under {mode} by {it.best}" for mode, it in study.rankings.items())
    words = ("What a season brings with each network beside the one that earns most in the mode, with its interval at "
             f"95 per cent for all. Most is earned {tops}.")
    return SeasonPicture("networks", "What each network earns beside the best", words,
                         lambda: charts.intervals(named, "beside the most, currency units a season"))


def beside_best(ranking: Ranking, name: str) -> tuple[float, float]:
    """How much more a network earns than the best, and half of the interval, or 0 where one season tells none."""
    less = ranking.less.get(name)
    if less is None:
        return 0.0, 0.0
    half = less.half(ranking.errors)
    return -less.mean, half if math.isfinite(half) else 0.0


def points_of(ranking: Ranking, seats: Mapping[str, int]) -> Iterator[tuple[float, float, float]]:
    """By authorised seats, how much more is earned than with the best, and half of the interval."""
    for name in ranking.means:
        yield (float(seats[name]), *beside_best(ranking, name))


# The page


def page(first: str, made_of: Made, sentences: Sequence[str], tables: Sequence[Table], shown: Sequence[SeasonPicture],
         drawn: Mapping[str, str]) -> str:
    """The page of a run, with what it says first and what it was made of at its front: its pictures are those of which
    there is the text of an SVG file, by their names."""
    made = Page("Simulated seasons", first, made_of)
    made.text(" ".join(sentences))
    if drawn:
        made.heading("Pictures")
    for it in shown:
        made.picture(drawn[it.name], it.title, it.about)
    made.heading("Tables")
    for table in tables:
        made.table(table)
    return made.html()
