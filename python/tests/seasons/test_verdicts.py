"""What is said first, in each of its forms, has the numbers of the tables."""
from __future__ import annotations

import unittest
from typing import Mapping, Sequence

from nrm.network import Network
from nrm.seasons.comparing_tables import MOST_PAIRED, Study
from nrm.seasons.drawing import Settings
from nrm.seasons.verdicts import verdict
from seasons.made_results import network_of, results_of

Earned = Mapping[str, Sequence[int]]
SO = ", with these thresholds and demand drawn so."


def study_of(earned: Mapping[str, Earned], networks: Mapping[str, Network] | None = None) -> Study:
    """A study of some networks, of which is said what each mode earns."""
    modes = tuple(next(iter(earned.values())))
    return Study(networks or {name: network_of(fare=50 + at) for at, name in enumerate(earned)},
                 Settings(modes=modes, show=0.9), {name: results_of(it) for name, it in earned.items()})


class OfModes(unittest.TestCase):
    def test_the_best_beside_the_others(self) -> None:
        """By hand: 100, 102 and 98 more have the mean 100, the variance 4, and so an error of 1.2 and 97.7 to 102.3."""
        study = study_of({"N": {"first": [500, 500, 500], "bid": [900, 900, 900], "davn": [1000, 1002, 998]}})
        self.assertEqual(verdict(study), "davn earns 100.0 a season more than bid, between 97.7 and 102.3 at 95 per "
                         "cent, and 500.0 more than first" + SO)
        table = next(it for it in study.tables() if it.title.startswith("What one mode earns more"))
        self.assertEqual(table.cells()[2], ["davn less bid", "100.0", "1.2", "97.7", "102.3", "100.0 %", "0.0 %"])

    def test_what_cant_be_told_apart(self) -> None:
        for earned, wanted in (
                ({"bid": [900, 900], "davn": [902, 899]}, "davn and bid can't be told apart by these seasons: davn "
                 "earns 0.5 a season more, between 2.4 less and 3.4 more at 95 per cent" + SO),
                ({"bid": [900, 901], "davn": [900, 901]}, "bid and davn earn the same in each season" + SO),
                ({"bid": [900], "davn": [901]}, "davn earns 1.0 more than bid in one season, which says nothing of "
                 "others" + SO)):
            self.assertEqual(verdict(study_of({"N": earned})), wanted)

    def test_a_mode_by_itself(self) -> None:
        self.assertEqual(verdict(study_of({"N": {"bid": [900, 902]}})), "bid earns 901.0 a season, between 899.0 and "
                         "903.0 at 95 per cent: 90.1 % of the bound" + SO)
        self.assertEqual(verdict(study_of({"N": {"bid": [900]}})), "bid earns 900.0 in one season, which says nothing "
                         "of others: 90.0 % of the bound" + SO)


class OfNetworks(unittest.TestCase):
    def test_two(self) -> None:
        study = study_of({"A": {"bid": [800, 700], "davn": [900, 900, ]}, "B": {"bid": [800, 700], "davn": [930, 934]}})
        self.assertEqual(verdict(study), "Most is earned by B under davn, 932.0 a season. Under davn B earns 32.0 a "
                         "season more than A, between 28.1 and 35.9 at 95 per cent. Under bid all earn the same in "
                         "each season.")
        tables = {it.title: it.cells() for it in study.tables()}
        title = "What one network earns more than another under davn on the same draws, in currency units a season"
        self.assertEqual(tables[title], [["B less A", "32.0", "2.0", "28.1", "35.9", "100.0 %", "0.0 %"]])

    def test_more_than_two(self) -> None:
        """By hand: B less D is 5 on the mean, of 5, 8, 2 and 5, with an error of 1.225, of which it takes 2.638."""
        base = [800, 700, 900, 750]
        earned = {name: {"bid": [it + more for it, more in zip(base, add)]} for name, add in
                  (("A", (0, 0, 0, 0)), ("B", (10, 12, 8, 10)), ("C", (9, 13, 8, 8)), ("D", (5, 4, 6, 5)))}
        self.assertEqual(verdict(study_of(earned)), "Under bid B earns most of 4, 797.5 a season; C can't be told from "
                         "it, and the nearest of the others, D, earns 5.0 less, between 1.8 and 8.2 at 95 per cent for "
                         "all.")
        ranked = {it.title: it.cells() for it in study_of(earned).tables()}
        title = "What is earned under bid, by network, the best first, in currency units a season"
        self.assertEqual(ranked[title][::3],
                         [["B", "0.00", "1.00", "797.5", "most", "", "", ""],
                          ["A", "0.00", "1.00", "787.5", "10.0", "0.8", "7.8", "12.2"]])
        same = {name: {"bid": [it + at for it in base]} for at, name in enumerate("AB")}
        noise = {"C": {"bid": [801, 650, 951, 753]}}
        self.assertEqual(verdict(study_of({**same, **noise})), "Under bid C earns most of 3, 788.8 a season; none of "
                         "the others can be told from it.")

    def test_by_authorised_seats(self) -> None:
        networks = {f"N{it}": network_of(authorised=it) for it in (5, 4, 3)}
        earned = {"N5": {"bid": [700, 600]}, "N4": {"bid": [720, 620]}, "N3": {"bid": [720, 621]}}
        study = study_of(earned, networks)
        self.assertEqual(verdict(study), "Under bid AB with 3 authorised seats earns most of 3, 670.5 a season; 4 "
                         "can't be told from it, and the nearest of the others, 5, earns 20.5 less, between 19.3 and "
                         "21.7 at 95 per cent for all.")
        ranked = next(study.tables())
        self.assertEqual([row[0] for row in ranked.cells()], ["3", "4", "5"])
        self.assertEqual(ranked.heads[0], "authorised")

    def test_pairs_of_many_networks_are_left_to_the_ranking(self) -> None:
        for count, wanted in ((MOST_PAIRED, 1), (MOST_PAIRED + 1, 0)):
            study = study_of({f"N{it}": {"bid": [700 + it, 600]} for it in range(count)})
            titles = [it.title for it in study.tables()]
            self.assertEqual(sum(it.startswith("What one network earns more") for it in titles), wanted)
            self.assertEqual(sum(it.startswith("What is earned under bid") for it in titles), 1)
