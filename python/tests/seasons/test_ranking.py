"""The best of some networks, and which can't be told from it: the truly best is hardly ever left out."""
from __future__ import annotations

import random
import unittest

from nrm.seasons.ranking import Ranking, errors_for, seats_that_differ
from nrm.seasons.results import NINETY_FIVE
from seasons.made_results import network_of, results_of


class Rankings(unittest.TestCase):
    def test_the_best_and_those_that_cant_be_told_from_it(self) -> None:
        """By hand: B less A is 10 in each season; B less C is 3 on the mean, of 0, 6, 0 and 6: its error is 1.73."""
        earned = {"A": [90, 96, 80, 106], "B": [100, 106, 90, 116], "C": [100, 100, 90, 110]}
        ranking = Ranking.of("bid", {name: results_of({"bid": values}) for name, values in earned.items()})
        self.assertEqual((ranking.best, list(ranking.means)), ("B", ["B", "C", "A"]))
        self.assertEqual((ranking.less["A"].mean, ranking.less["A"].error), (10, 0))
        self.assertEqual(ranking.less["C"].mean, 3)
        self.assertAlmostEqual(ranking.less["C"].error, 3 ** 0.5)
        self.assertEqual((ranking.alike(), ranking.nearest_told()), (["C"], "A"))

    def test_what_is_the_same_cant_be_told_from_the_best(self) -> None:
        ranking = Ranking.of("bid", {name: results_of({"bid": [5, 7]}) for name in "AB"})
        self.assertEqual((ranking.alike(), ranking.nearest_told()), (["B"], None))

    def test_one_season_tells_nothing(self) -> None:
        ranking = Ranking.of("bid", {name: results_of({"bid": [at]}) for at, name in enumerate("ABC")})
        self.assertEqual((ranking.best, ranking.alike()), ("C", ["B", "A"]))

    def test_the_interval_is_wider_the_more_there_are(self) -> None:
        """By a table of the normal distribution: 0.025 over the pairs, of which 5 networks have 10, is 0.0025."""
        for count, wanted in ((1, 1.96), (2, 1.96), (3, 2.394), (5, 2.807), (20, 3.649)):
            self.assertAlmostEqual(errors_for(count), wanted, 3)

    def test_the_truly_best_is_left_out_seldom(self) -> None:
        """Of 20 networks that earn nearly the same, where it is hardest; plain intervals leave it out often."""
        draw, runs, left_out, by_plain = random.Random(3), 300, 0, 0
        for _ in range(runs):
            of_season = [draw.gauss(0, 300) for _ in range(40)]
            drawn = {f"N{at}": [round(10_000 + it + draw.gauss(0.1 * (at == 0), 100)) for it in of_season]
                     for at in range(20)}
            ranking = Ranking.of("bid", {name: results_of({"bid": values}) for name, values in drawn.items()})
            if ranking.best != "N0":
                less = ranking.less["N0"]
                left_out += ranking.is_told("N0")
                by_plain += less.mean > less.half(NINETY_FIVE)
        self.assertLessEqual(left_out / runs, 0.05)
        self.assertGreater(by_plain / runs, 0.1)


class Seats(unittest.TestCase):
    def test_networks_that_differ_in_the_authorised_seats_of_a_leg_alone(self) -> None:
        found = seats_that_differ({"B": network_of(authorised=4), "A": network_of(authorised=3)})
        self.assertEqual(found, ("AB", {"B": 4, "A": 3}))
        for other in (network_of(authorised=4, fare=51), network_of(authorised=4, thresholds=",20"),
                      network_of(seats=4, authorised=4), network_of()):
            self.assertIsNone(seats_that_differ({"A": network_of(), "B": other}))
