"""What was found is judged by other seasons, and what its own flatter it by is told."""
from __future__ import annotations

import unittest

from nrm.seasons.search_fields import Earned
from nrm.seasons.search_judging import Judged


def seasons(*earned: int) -> list[Earned]:
    return [Earned(it, number % 2) for number, it in enumerate(earned)]


class Judging(unittest.TestCase):
    def test_by_hand(self) -> None:
        unseen = {"plain": seasons(100, 200, 300, 400), "found": seasons(110, 230, 310, 430)}
        judged = Judged("found", "plain", unseen, seasons(150, 250), seasons(100, 210))
        self.assertEqual(judged.sentences(), [
            "The result earns 20.0 a season more than plain, between 8.7 and 31.3 at 95 per cent; that is 8.00 per cent, give or "
            "take 4.53.",
            "In the 2 seasons of the search, by which it was picked, that was 45.0: these flatter it by 25.0, give or "
            "take 15.0."])
        self.assertEqual(judged.table("seats", "denied").text().splitlines()[2:5], [
            "         denied  earned  more  standard error  from, at 95 %    to",
            "  plain    0.50   250.0",
            "  found    0.50   270.0  20.0             5.8            8.7  31.3"])

    def test_what_is_the_same_is_told(self) -> None:
        same = seasons(100, 200)
        judged = Judged("found", "plain", {"plain": same, "found": same}, seasons(1, 2), seasons(1, 2))
        self.assertEqual(judged.sentences(), ["The result earns as much as plain in each season."])

    def test_what_may_be_nothing_is_told(self) -> None:
        unseen = {"plain": seasons(100, 200), "found": seasons(130, 190)}
        [first, _] = Judged("found", "plain", unseen, seasons(1, 2), seasons(1, 2)).sentences()
        self.assertIn("10.0 a season more than plain, which can't be told from 0, between -29.2 and 49.2", first)
