"""What was found, judged: what each choice earns in seasons that the search hasn't seen, beside one that needs none,
and how much better the one that was found looks in its own.
"""
from __future__ import annotations

import math
from dataclasses import dataclass
from typing import Mapping, Sequence

from nrm.pages.tables import Cell, Table
from nrm.seasons.results import NINETY_FIVE, Estimate, amount
from nrm.seasons.search_fields import Earned

Seasons = Sequence[Earned]


def beside(some: Seasons, base: Seasons) -> Estimate:
    """How much more a season earns than another choice does on the same requests."""
    return Estimate.of([one.earned - other.earned for one, other in zip(some, base)])


@dataclass(frozen=True)
class Judged:
    """What the seasons of each choice earned, by its name: the one that was found, and the one that it is beside.

    seen, seen_base  what these two earned in the seasons of the search
    """
    found: str
    base: str
    unseen: Mapping[str, Seasons]
    seen: Seasons
    seen_base: Seasons

    def table(self, what: str, denied: str = "") -> Table:
        """What each choice earns in seasons that the search hasn't seen, with what is denied if that is to be told."""
        rows: list[list[Cell]] = []
        base = self.unseen[self.base]
        for name, seasons in self.unseen.items():
            more = beside(seasons, base)
            is_base = name == self.base
            ends: list[Cell] = [None] * 4 if is_base else [amount(more.mean), amount(more.error), *more.ends()]
            counts = [f"{sum(it.denied for it in seasons) / len(seasons):.2f}"] if denied else []
            rows.append([name, *counts, amount(sum(it.earned for it in seasons) / len(seasons)), *ends])
        heads = ["", *([denied] if denied else []), "earned", "more", "standard error", "from, at 95 %", "to"]
        return Table(f"Earned in {len(base):,} other seasons, by the {what}, in currency units a season", heads, rows)

    def sentences(self) -> list[str]:
        """What was found earns beside the other choice, and how much better it looked in its own seasons."""
        more = beside(self.unseen[self.found], self.unseen[self.base])
        seen = beside(self.seen, self.seen_base)
        of_base = sum(it.earned for it in self.unseen[self.base]) / len(self.unseen[self.base])
        share = 100 / of_base if of_base > 0 else 0.0
        low, high = more.mean - more.half(), more.mean + more.half()
        is_told = "" if low > 0 or high < 0 else ", which can't be told from 0"
        if self.unseen[self.found] == self.unseen[self.base] and self.seen == self.seen_base:
            return [f"The result earns as much as {self.base} in each season."]
        flattered, error = seen.mean - more.mean, math.hypot(seen.error, more.error)
        return [
            f"The result earns {amount(more.mean)} a season more than {self.base}{is_told}, between {amount(low)} "
            f"and {amount(high)} at 95 per cent; that is {share * more.mean:.2f} per cent, give or take "
            f"{share * more.half():.2f}.",
            f"In the {len(self.seen):,} seasons of the search, by which it was picked, that was {amount(seen.mean)}: "
            f"these flatter it by {amount(flattered)}, give or take {amount(NINETY_FIVE * error)}."]
