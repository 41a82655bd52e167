"""What a run of many seasons says, in sentences that come first: which is best, by how much, and how sure that is.

Each number is in the form that it has in the tables.
"""
from __future__ import annotations

from typing import Iterator, Sequence

from nrm.legs.joined_legs import said_of_joined, wanted_in_histories
from nrm.seasons.comparing_tables import Study
from nrm.seasons.ranking import Ranking
from nrm.seasons.results import Estimate, Results, amount, per_cent

MOST_NAMED = 6


def verdict(study: Study) -> str:
    """What a run says first, and of each network whose joined legs make it one of another train."""
    if len(study.results) > 1:
        first = " ".join(of_networks(study))
    else:
        [it] = study.results.values()
        first = of_modes(it) if len(it.modes) > 1 else of_a_mode(it, it.modes[0])
    return first + "".join(said_of_joined(it, study.texts, wanted_in_histories(it), f"histories of {name}")
                           for name, it in study.networks.items())


def of_a_mode(it: Results, mode: str) -> str:
    """What one mode earns by itself."""
    mean = Estimate.of(it.earned[mode])
    between = "in one season, which says nothing of others" if it.seasons < 2 else f"a season, {interval(mean)}"
    share = f": {per_cent(it.share(mode), 1)} of the bound" if it.mean_bound() else ""
    return f"{mode} earns {amount(mean.mean)} {between}{share}, with these thresholds and demand drawn so."


def of_modes(it: Results) -> str:
    """Which mode earns most, and by how much more than each other."""
    best, second, *others = sorted(it.modes, key=lambda mode: -it.mean(mode, "earned"))
    more = [f"{amount(Estimate.of(it.differences(best, other)).mean)} more than {other}" for other in others]
    return (f"{beside(best, second, it.differences(best, second))}"
            f"{''.join(f', and {text}' for text in more)}, with these thresholds and demand drawn so.")


def interval(mean: Estimate) -> str:
    """Between which amounts something lies."""
    low, high = mean.ends()
    return f"between {low} and {high} at 95 per cent"


def beside(best: str, other: str, differences: Sequence[int]) -> str:
    """How much more the best earns than another on the same draws, and how sure that is."""
    mean = Estimate.of(differences)
    if len(differences) < 2:
        return f"{best} earns {amount(mean.mean)} more than {other} in one season, which says nothing of others"
    if not any(differences):
        return f"{best} and {other} earn the same in each season"
    if mean.mean > mean.half():
        return f"{best} earns {amount(mean.mean)} a season more than {other}, {interval(mean)}"
    return (f"{best} and {other} can't be told apart by these seasons: {best} earns {amount(mean.mean)} a season more, "
            f"between {amount(mean.half() - mean.mean)} less and {amount(mean.half() + mean.mean)} more at 95 per cent")


# Networks


def of_networks(study: Study) -> Iterator[str]:
    """With which network and mode most is earned; then for each mode which network earns most, and which can't be
    told from it."""
    most = max(study.rankings.values(), key=lambda it: it.means[it.best])
    if len(study.rankings) > 1:
        earned = amount(most.means[most.best])
        yield f"Most is earned by {called(study, most.best)} under {most.mode}, {earned} a season."
    for ranking in sorted(study.rankings.values(), key=lambda it: -it.means[it.best]):
        yield of_a_ranking(study, ranking) + "."


def of_a_ranking(study: Study, ranking: Ranking) -> str:
    """What is said of networks in a mode."""
    best, names = called(study, ranking.best), list(ranking.means)
    earned = {it: study.results[it].earned[ranking.mode] for it in names}
    if all(values == earned[ranking.best] for values in earned.values()):
        return f"Under {ranking.mode} all earn the same in each season"
    if len(names) == 2:
        differences = [a - b for a, b in zip(earned[names[0]], earned[names[1]])]
        return f"Under {ranking.mode} {beside(best, called(study, names[1]), differences)}"
    alike, nearest = ranking.alike(), ranking.nearest_told()
    said = f"Under {ranking.mode} {best} earns most of {len(names)}, {amount(ranking.means[ranking.best])} a season; "
    if len(alike) == len(names) - 1:
        return f"{said}none of the others can be told from it"
    said += f"{listed([shortly(study, it) for it in alike])} can't be told from it, and " if alike else ""
    assert nearest, "not all are alike"
    low, high = ranking.less[nearest].ends(ranking.errors)
    return (f"{said}the nearest of the others, {shortly(study, nearest)}, earns "
            f"{amount(ranking.less[nearest].mean)} less, between {low} and {high} at 95 per cent for all")


def called(study: Study, name: str) -> str:
    """How a network is called: by the authorised seats that differ alone, or by its name."""
    return f"{study.seats[0]} with {shortly(study, name)} authorised seats" if study.seats else name


def shortly(study: Study, name: str) -> str:
    """The same where it stands beside others."""
    return str(study.seats[1][name]) if study.seats else name


def listed(names: Sequence[str]) -> str:
    """Names as they are listed, the first ones if they are many."""
    if len(names) > MOST_NAMED:
        return f"{', '.join(names[:MOST_NAMED])} and {len(names) - MOST_NAMED} more"
    return " and ".join(filter(None, [", ".join(names[:-1]), names[-1]]))
