"""What averaged prices earn beside the three modes on the same requests, as tables."""
from __future__ import annotations

import itertools
from fractions import Fraction
from typing import Iterator, Mapping

from nrm.pages.tables import Cell, Table
from nrm.seasons.averaged_prices import AVERAGED, Prices, mean_of
from nrm.seasons.playing import Player
from nrm.seasons.results import Estimate, amount
from nrm.seasons.verdicts import beside


def prices_table(plan: Prices, histories: Mapping[int, Prices]) -> Table:
    """The prices of the plan, and the mean, the least and the greatest of the histories'."""
    mean = mean_of(list(histories.values()))
    rows = [[leg, *(f"{float(it):.1f}" for it in (plan[leg], mean[leg], *ends_of(leg, histories)))] for leg in plan]
    return Table("Bid prices at the opening, in currency units",
                 ["leg", "of the plan", "averaged", "least of a history", "greatest"], rows)


def beside_plan(plan: Prices, mean: Prices, histories: int) -> str:
    """How many legs the mean prices otherwise than the plan does, in a sentence."""
    above, below = sum(mean[leg] > plan[leg] for leg in plan), sum(mean[leg] < plan[leg] for leg in plan)
    return (f"Averaged over {histories} histories, the opening bid price is above the plan's on {above} of {len(plan)} "
            f"legs, and below it on {below}.")


def ends_of(leg: str, histories: Mapping[int, Prices]) -> tuple[Fraction, Fraction]:
    """The least and the greatest price of a leg."""
    prices = [it[leg] for it in histories.values()]
    return min(prices), max(prices)


class Compared:
    """The revenue of seasons in each mode, averaged prices among them."""

    def __init__(self, player: Player) -> None:
        self.player = player
        self.revenue: dict[str, list[int]] = {it: [] for it in player.settings.modes}

    def play(self, number: int) -> None:
        """Plays the season of a number in each way."""
        for mode, outcome in self.player.outcomes(self.player.season(number)).items():
            self.revenue[mode].append(outcome.revenue)

    def verdict(self) -> str:
        """What averaged prices earn beside the mode that earns most."""
        best = max((it for it in self.revenue if it != AVERAGED), key=lambda it: sum(self.revenue[it]))
        most, other = sorted((AVERAGED, best), key=lambda it: -sum(self.revenue[it]))
        differences = [a - b for a, b in zip(self.revenue[most], self.revenue[other])]
        return f"{beside(most, other, differences)}, with these thresholds and demand drawn so."

    def tables(self) -> Iterator[Table]:
        """What each way earns, and by how much any two differ."""
        rows: list[list[Cell]] = []
        for name, values in self.revenue.items():
            it = Estimate.of(values)
            rows.append([name, amount(it.mean), amount(it.error)])
        yield Table("The mean of a season, in currency units", ["", "revenue", "standard error"], rows)
        differ: list[list[Cell]] = []
        for low, high in itertools.combinations(self.revenue, 2):
            it = Estimate.of([a - b for a, b in zip(self.revenue[high], self.revenue[low])])
            share = 100 * it.mean * len(self.revenue[low]) / max(1, sum(self.revenue[low]))
            differ.append([f"{high} less {low}", amount(it.mean), amount(it.error), *it.ends(), f"{share:.2f} %"])
        yield Table("What one way earns more than another on the same requests, in currency units a season",
                    ["", "mean", "standard error", "from, at 95 %", "to", "share"], differ)
