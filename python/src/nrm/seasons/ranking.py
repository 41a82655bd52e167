"""Networks in a mode by what they earn on the same draws: the best, what each other earns less, which are told from it.

Many networks are many chances to be misled. So the intervals are wider the more there are, by Bonferroni's rule over
each two of them: in 95 of 100 such runs or more all hold at once, and then the network that truly earns most is the
first one or one that can't be told from it.
"""
from __future__ import annotations

from dataclasses import dataclass
from statistics import NormalDist
from typing import Mapping

from nrm.network import Network
from nrm.seasons.results import NINETY_FIVE, Estimate, Results

MISLED = 0.05  # the share of runs whose intervals may mislead


def errors_for(count: int) -> float:
    """So many standard errors are taken to each side where so many networks are compared."""
    return NINETY_FIVE if count <= 2 else NormalDist().inv_cdf(1 - MISLED / (count * (count - 1)))


@dataclass(frozen=True)
class Ranking:
    """Networks in a mode by what they earn on the same draws.

    mode    the mode
    means   of each network what it earns a season, that which earns most first
    less    of each but the first, what it earns less than the first
    errors  so many standard errors are taken to each side
    """
    mode: str
    means: dict[str, float]
    less: dict[str, Estimate]
    errors: float

    @classmethod
    def of(cls, mode: str, results: Mapping[str, Results]) -> Ranking:
        """The ranking of some networks by their names."""
        means = {it: results[it].mean(mode, "earned") for it in results}
        best, *others = sorted(means, key=lambda it: -means[it])
        earned = {it: results[it].earned[mode] for it in results}
        less = {it: Estimate.of([a - b for a, b in zip(earned[best], earned[it])]) for it in others}
        return cls(mode, {it: means[it] for it in (best, *others)}, less, errors_for(len(means)))

    @property
    def best(self) -> str:
        """The network that earns most."""
        return next(iter(self.means))

    def is_told(self, name: str) -> bool:
        """Whether a network can be told from the best."""
        less = self.less[name]
        return less.mean > less.half(self.errors)

    def alike(self) -> list[str]:
        """The networks that can't be told from the best, which they are beside."""
        return [it for it in self.less if not self.is_told(it)]

    def nearest_told(self) -> str | None:
        """Of the networks that can be told from the best, the one that earns most."""
        return next((it for it in self.less if self.is_told(it)), None)


def seats_that_differ(networks: Mapping[str, Network]) -> tuple[str, dict[str, int]] | None:
    """The leg whose authorised seats alone differ between networks, and by their names its seats there; else None."""
    every = list(networks.values())
    if any(it.version != 2 for it in every):
        return None
    alike = len({str([row[:3] + row[4:] if row[0] == "leg" else row for row in it.rows()]) for it in every}) == 1
    legs = [leg for leg in every[0].legs if len({it.legs[leg].authorised for it in every}) > 1] if alike else []
    if len(legs) != 1:
        return None
    return legs[0], {name: it.legs[legs[0]].authorised for name, it in networks.items()}
