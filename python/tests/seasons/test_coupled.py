"""Networks that differ in more than their legs get the same requests where they are the same."""
from __future__ import annotations

import random
import re
import unittest

from nrm import bytes_in
from nrm.network import Network, rows_of
from nrm.seasons.coupled import poisson_at, season_of, together
from nrm.seasons.drawing import DEMANDS, DrawnSeason, Settings
from seasons.clusters import LOG, SEASON

EVERYTHING = Settings(parties=((1, 80), (2, 15), (4, 5)), cancel=0.2, show=0.9, by_product=True)
TEXT = bytes_in(SEASON).decode()


def network_in(text: str) -> Network:
    """The network of a file's text."""
    return Network.of(rows_of(text.encode()))


def told_of(season: DrawnSeason, without: str = "") -> list[tuple[str, bool, int]]:
    """The requests of a season in their order, whether each is cancelled, and how many of its seats are taken."""
    cancelled = {at for some in season.cancellations.values() for at in some}
    assert season.shows is not None
    return [(line, at in cancelled, season.shows[at]) for at, line in enumerate(season.lines)
            if not line.startswith("hindsight") and (not without or without not in line)]


class Coupled(unittest.TestCase):
    def test_draws_are_together_where_more_than_legs_differs(self) -> None:
        base = network_in(TEXT)
        for text, wanted in ((TEXT, False), (re.sub("leg,VIE-LHR-2,48,50,.*", "leg,VIE-LHR-2,40,30", TEXT), False),
                             (TEXT.replace(",430,", ",431,"), True)):
            self.assertEqual(together(Settings(), [base, network_in(text)]).by_product, wanted)
        self.assertFalse(together(Settings(), [base]).by_product)

    def test_fares_and_legs_change_no_request(self) -> None:
        base, other = network_in(TEXT), network_in(TEXT.replace(",430,", ",431,").replace(",48,50", ",30,30"))
        for number in range(3):
            a, b = (season_of(it, EVERYTHING, "", number) for it in (base, other))
            self.assertEqual((a.lines, a.cancellations, a.shows), (b.lines, b.cancellations, b.shows))

    def test_a_product_that_differs_changes_its_own_requests_alone(self) -> None:
        """In the demand, or as it isn't there; but for the places of cancellations, which the season's end says."""
        base = network_in(TEXT)
        more = network_in(re.sub(r"(demand,VIE-LHR-2Q,\d+),\d+", r"\1,40", TEXT))
        less = network_in("".join(it for it in TEXT.splitlines(keepends=True) if ",VIE-LHR-2Q," not in it))
        for other in (more, less):
            for number in range(3):
                a, b = (season_of(it, EVERYTHING, "", number) for it in (base, other))
                self.assertEqual(told_of(a, "VIE-LHR-2Q"), told_of(b, "VIE-LHR-2Q"))
                self.assertNotEqual(a.lines, b.lines)

    def test_what_is_drawn_of_a_request_is_right_and_in_its_place(self) -> None:
        network = network_in(bytes_in(LOG).decode())
        requests = cancelled = seats = taken = 0
        for number in range(300):
            season = season_of(network, EVERYTHING, "", number)
            self.assertEqual(season.lines, season_of(network, EVERYTHING, "", number).lines, "the same each time")
            for behind, some in season.cancellations.items():
                for at in some:
                    self.assertTrue(season.lines[at].startswith("book ") and at <= behind <= len(season.lines) - 2)
            for line, is_cancelled, shows in told_of(season):
                if line.startswith("book "):
                    requests, cancelled = requests + 1, cancelled + is_cancelled
                    seats, taken = seats + int(line.split()[2]), taken + shows
        self.assertAlmostEqual(cancelled / requests, 0.2, 1)
        self.assertAlmostEqual(taken / seats, 0.9, 1)

    def test_numbers_of_poisson_rise_with_the_mean(self) -> None:
        for mean in (0.3, 5.0, 40.0):
            drawn = [poisson_at(mean, random.Random(it)) for it in range(2000)]
            average = sum(drawn) / len(drawn)
            variance = sum((it - average) ** 2 for it in drawn) / len(drawn)
            self.assertLess(abs(average - mean), 4 * (mean / len(drawn)) ** 0.5)
            self.assertLess(abs(variance / mean - 1), 0.2)
            more = [poisson_at(mean * 1.05, random.Random(it)) for it in range(2000)]
            self.assertTrue(all(a <= b for a, b in zip(drawn, more)))
        self.assertEqual(poisson_at(0.0, random.Random(1)), 0)

    def test_every_demand_and_order_is_drawn(self) -> None:
        network = network_in(TEXT)
        for demand in DEMANDS:
            for order in ("mixed", "low-first"):
                season = season_of(network, Settings(demand=demand, order=order, by_product=True), "", 1)
                self.assertEqual((season.history is None, season.lines[-1]), (demand != "histories", "hindsight"))
                part = [network.products[it.split()[1]].fare for it in season.lines[:50] if it.startswith("book")]
                self.assertEqual(part == sorted(part), order == "low-first")
