"""The results of a run of many seasons, as tables: modes, and networks, beside one another."""
from __future__ import annotations

import itertools
from typing import Iterator, Mapping, Sequence

from nrm.network import Network
from nrm.pages.tables import Cell, Table, with_text
from nrm.seasons.drawing import Settings
from nrm.seasons.ranking import Ranking, seats_that_differ
from nrm.seasons.results import Estimate, Results, amount, per_cent

MOST_PAIRED = 6  # networks, of which each two are told
OF_A_PAIR = ["", "mean", "standard error", "from, at 95 %", "to", "ahead in", "behind in"]


def row_of_pair(name: str, differences: Sequence[int]) -> list[Cell]:
    """What one earns more than another, by what it does season by season."""
    mean, seasons = Estimate.of(differences), len(differences)
    ahead, behind = sum(it > 0 for it in differences), sum(it < 0 for it in differences)
    return [name, amount(mean.mean), amount(mean.error), *mean.ends(), per_cent(ahead, seasons),
            per_cent(behind, seasons)]


class Study:
    """The results of one or more networks, whose names begin the rows of their tables if they are several.

    rankings  of each mode, the networks by what they earn in it
    seats     the leg whose authorised seats alone differ between networks, and these seats by network; else None
    """

    def __init__(self, networks: Mapping[str, Network], settings: Settings, results: Mapping[str, Results],
                 texts: Mapping[str, str] | None = None) -> None:
        self.networks, self.settings, self.results, self.texts = networks, settings, results, texts or {}
        self.departs, self.cancels = settings.show is not None, settings.cancel > 0
        self.rankings = {mode: Ranking.of(mode, results) for mode in settings.modes}
        self.seats = seats_that_differ(networks)

    def named(self, name: str, what: str) -> str:
        """What is told of a network, with its name if there are several."""
        return f"{name} {what}" if len(self.networks) > 1 else what

    def of(self, name: str) -> str:
        """How a title of a network begins."""
        return f"{name}: " if len(self.networks) > 1 else ""

    def tables(self) -> Iterator[Table]:
        """All tables, with the texts that names stand for."""
        yield from (it.with_texts(self.texts) for it in self.tables_of_names())

    def tables_of_names(self) -> Iterator[Table]:
        """All tables, those of networks beside one another first."""
        if len(self.networks) > 2 or self.seats:
            for mode in self.settings.modes:
                yield self.ranked(self.rankings[mode])
        if 1 < len(self.networks) <= MOST_PAIRED:
            for mode in self.settings.modes:
                yield self.paired_networks(mode)
        yield self.earnings()
        if len(self.settings.modes) > 1:
            yield self.paired()
        for name in self.networks:
            yield self.loads(name)
            yield self.refusals(name)

    def earnings(self) -> Table:
        """What each mode earns on the mean."""
        heads = ["", "revenue", *(["withheld"] if self.cancels else []), *(["denied", "empty"] if self.departs else []),
                 *(["earned"] if self.cancels or self.departs else []), "standard error", "of the bound"]
        rows: list[list[Cell]] = []
        for name, it in self.results.items():
            rows += [[self.named(name, mode), *self.earnings_of(it, mode)] for mode in it.modes]
            bound = it.mean_bound()
            rows.append([self.named(name, "bound"), "" if bound is None else amount(bound), *[None] * (len(heads) - 2)])
        return Table("The mean of a season, in currency units", heads, rows)

    def earnings_of(self, it: Results, mode: str) -> list[Cell]:
        """What a mode earns on the mean, behind its name."""
        return [amount(it.mean(mode, "revenue")),
                *([amount(it.mean(mode, "withheld"))] if self.cancels else []), *self.departures(it, mode),
                *([amount(it.mean(mode, "earned"))] if self.cancels or self.departs else []),
                amount(Estimate.of(it.earned[mode]).error), per_cent(it.share(mode), 1)]

    def departures(self, it: Results, mode: str) -> list[str]:
        """The denied boardings and the empty seats of a season on the mean, if departures are played."""
        return [f"{it.mean(mode, column):.2f}" for column in ("denied", "empty")] if self.departs else []

    def paired(self) -> Table:
        """What each mode earns more than another on the same requests."""
        rows = []
        for name, it in self.results.items():
            for mode, other in it.pairs():
                rows.append(row_of_pair(self.named(name, f"{mode} less {other}"), it.differences(mode, other)))
        return Table("What one mode earns more than another on the same requests, in currency units a season",
                     OF_A_PAIR, rows)

    def ranked(self, ranking: Ranking) -> Table:
        """What networks earn in a mode, and how far each is from the most: by their seats if these differ alone."""
        leg, by_seats = self.seats or ("", {})
        names = sorted(by_seats, key=lambda it: by_seats[it]) or list(ranking.means)
        rows = [[by_seats.get(it, it), *self.departures(self.results[it], ranking.mode),
                 amount(ranking.means[it]), *self.less_of(ranking, it)] for it in names]
        by_what = f"by the authorised seats of {with_text(leg, self.texts)}" if leg else "by network, the best first"
        return Table(f"What is earned under {ranking.mode}, {by_what}, in currency units a season",
                     ["authorised" if leg else "", *(["denied", "empty"] if self.departs else []), "earned",
                      "less than the most by", "standard error", "from, at 95 % for all", "to"], rows)

    def less_of(self, ranking: Ranking, name: str) -> list[Cell]:
        """How much less than the most a network earns in a mode, with the interval of the ranking."""
        if name == ranking.best:
            return ["most", None, None, None]
        less = ranking.less[name]
        return [amount(less.mean), amount(less.error), *less.ends(ranking.errors)]

    def paired_networks(self, mode: str) -> Table:
        """What each network earns more than another in a mode on the same draws."""
        earned = {name: it.earned[mode] for name, it in self.results.items()}
        rows = [row_of_pair(f"{b} less {a}", [of_b - of_a for of_b, of_a in zip(earned[b], earned[a])])
                for a, b in itertools.combinations(earned, 2)]
        return Table(f"What one network earns more than another under {mode} on the same draws, in currency units a "
                     "season", OF_A_PAIR, rows)

    def loads(self, name: str) -> Table:
        """The seats booked at the end, and taken at departure, of each leg."""
        it = self.results[name]
        shown = it.modes if self.departs else []
        rows: list[list[Cell]] = [
            [leg.name, leg.seats, leg.authorised,
             *(per_cent(it.mean(mode, f"booked {leg.name}"), leg.authorised) for mode in it.modes),
             *(per_cent(it.mean(mode, f"shown {leg.name}"), leg.seats) for mode in shown)]
            for leg in self.networks[name].legs.values()]
        heads = ["leg", "seats", "authorised", *it.modes, *(f"shown {mode}" for mode in shown)]
        return Table(f"{self.of(name)}Seats booked at the end, of the authorised seats of each leg"
                     + (", and taken at departure, of its physical seats" if self.departs else ""), heads, rows)

    def refusals(self, name: str) -> Table:
        """The share of the requests for each product that was refused."""
        products, it = self.networks[name].products, self.results[name]
        asked = {product: it.sums[it.modes[0]][f"asked {product}"] for product in products}
        rows: list[list[Cell]] = [
            [product, products[product].fare, f"{asked[product] / it.seasons:.2f}",
             *(per_cent(it.sums[mode][f"refused {product}"], asked[product]) for mode in it.modes)]
             for product in products]
        return Table(f"{self.of(name)}Requests for each product in a season, and the share of them that was refused",
                     ["product", "fare", "requests", *it.modes], rows)
