"""Thresholds that earn most in seasons, of those that rules propose: on all legs by one rule first, then leg by leg."""
from __future__ import annotations

import dataclasses
from typing import Iterator, Mapping

from nrm.legs.adjusted_thresholds import WAYS, adjusted_groupings
from nrm.legs.fare_groupings import groupings
from nrm.network import Network
from nrm.pages.tables import Table, with_text
from nrm.program import Program
from nrm.seasons.search_fields import Field, ProgressLine, Rows

OF_FILE, FOUND = "the file", "found"
Thresholds = Mapping[str, "tuple[int, ...]"]  # by leg


def proposed(path: str, network: Network, groups: int, program: Program) -> Iterator[tuple[str, Thresholds]]:
    """The thresholds of the file, and those of each rule in 2 to so many groups, by the rule's name."""
    of_file = {name: it.thresholds for name, it in network.legs.items()}
    yield OF_FILE, of_file
    for count in range(2, groups + 1):
        yield f"fares {count}", {**of_file, **{it.leg: it.cuts.thresholds
                                               for it in groupings(path, network, count, program)}}
        for way in WAYS:
            found = adjusted_groupings(path, network, way, count, program)
            yield f"{way} {count}", {**of_file, **{it.leg: it.cuts.thresholds for it in found}}


def rows_of_thresholds(network: Network, thresholds: Thresholds) -> Rows:
    """The rows of a network with other thresholds."""
    legs = {name: dataclasses.replace(it, thresholds=thresholds[name]) for name, it in network.legs.items()}
    return list(dataclasses.replace(network, legs=legs).rows())


class ThresholdSearch:
    """Proposals are tried on the same seasons: each on all legs, and those of each leg in the place of the best."""

    def __init__(self, network: Network, proposals: Mapping[str, Thresholds], field: Field, line: ProgressLine) -> None:
        self.network, self.proposals, self.field, self.line = network, proposals, field, line
        self.at = "all legs by one rule"

    def sum(self, thresholds: Thresholds) -> int:
        """What all seasons earn with some thresholds."""
        earned = self.field.sum(rows_of_thresholds(self.network, thresholds))
        self.line.say(f"{self.at}: {len(self.field.texts)} tried, "
                      f"{earned / len(self.field.numbers):,.1f} earned a season")
        return earned

    def best_rule(self) -> str:
        """The rule that earns most on all legs; of equal ones the first."""
        return max(self.proposals, key=lambda it: self.sum(self.proposals[it]))

    def from_rule(self, rule: str, sweeps: int) -> Thresholds:
        """The thresholds that are found from those of a rule, in so many sweeps over the legs, or in fewer if one
        changes nothing."""
        found = dict(self.proposals[rule])
        for sweep in range(1, sweeps + 1):
            before = dict(found)
            for number, leg in enumerate(found, 1):
                self.at = f"sweep {sweep}, leg {number} of {len(found)}"
                choices = dict.fromkeys([found[leg], *(it[leg] for it in self.proposals.values())])
                found[leg] = max(choices, key=lambda it: self.sum({**found, leg: it}))
            self.line.end(f"sweep {sweep} of at most {sweeps}: {len(self.field.texts)} tried, "
                          f"{self.sum(found) / len(self.field.numbers):,.1f} earned a season")
            if found == before:
                break
        return found


def table_of_thresholds(choices: Mapping[str, Thresholds], texts: Mapping[str, str]) -> Table:
    """The thresholds of each leg by each of some choices."""
    legs = next(iter(choices.values()))
    rows = [[with_text(leg, texts), *(" ".join(map(str, it[leg])) or "none" for it in choices.values())]
            for leg in legs]
    return Table("Thresholds", ["leg", *choices], rows)
