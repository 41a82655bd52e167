"""Seasons are drawn from the histories: means, order, what is cancelled, and that seats change no request."""
from __future__ import annotations

import csv
import itertools
import math
import random
import re
import unittest
from fractions import Fraction
from typing import Sequence

import reference
from harness import PlaceTest
from nrm import bytes_in
from nrm.network import Network, Row, rows_of
from nrm.replies import MODES
from nrm.seasons.coupled import season_of
from nrm.seasons.drawing import DEMANDS, DrawnSeason, Settings, drawn_season, identity
from nrm.seasons.playing import ProgramTime, played
from seasons.clusters import HUB, LOG, SEASON, by_one_process


def spread(values: Sequence[float]) -> float:
    """The standard error of the mean."""
    mean = sum(values) / len(values)
    return math.sqrt(sum((it - mean) ** 2 for it in values) / (len(values) - 1) / len(values))


class Drawn(unittest.TestCase):
    def test_drawn_means_are_those_of_the_histories(self) -> None:
        for name in (LOG, SEASON):
            network, count = Network.read(name), 400
            for demand, by_product in itertools.product(DEMANDS, (False, True)):
                settings = Settings(demand=demand, parties=((1, 80), (2, 15), (4, 5)), by_product=by_product)
                drawn = [self.seats_drawn(network, season_of(network, settings, "test", it)) for it in range(count)]
                for product, by_period in network.mean_demand.items():
                    for period, mean in enumerate(by_period):
                        values = [it.get((product, period), 0) for it in drawn]
                        self.assertLessEqual(abs(sum(values) / count - mean), 4 * spread(values) + 1e-9,
                                             f"{name} {demand} {by_product} {product} {period + 1}")

    def seats_drawn(self, network: Network, season: DrawnSeason) -> dict[tuple[str, int], int]:
        """The seats that a season asks for, by product and period."""
        seats: dict[tuple[str, int], int] = {}
        period = 0
        for line in season.lines:
            words = line.split()
            if words[0] == "reoptimise":
                self.assertEqual(int(words[1]), period + 2)
                period += 1
            elif words[0] == "book":
                seats[words[1], period] = seats.get((words[1], period), 0) + int(words[2])
        self.assertEqual((season.lines[-1], period), ("hindsight", network.periods - 1))
        return seats

    def test_requests_come_in_the_order_that_is_asked_for(self) -> None:
        network = Network.read(HUB)

        def fares(order: str) -> list[list[int]]:
            lines = "\n".join(drawn_season(network, Settings(order=order), random.Random(5)).lines)
            return [[network.products[it.split()[1]].fare for it in part.splitlines() if it.startswith("book")]
                    for part in re.split("reoptimise .", lines)]
        self.assertEqual(fares("low-first"), [sorted(it) for it in fares("mixed")])
        self.assertNotEqual(fares("mixed"), fares("low-first"))

    def test_seats_and_thresholds_are_no_part_of_what_is_drawn_from(self) -> None:
        text = bytes_in(SEASON).decode()
        other = re.sub("leg,VIE-LHR-2,48,50,.*", "leg,VIE-LHR-2,48,30", text)
        self.assertNotEqual(text, other)
        found = [identity(Network.of(rows))
                 for rows in (rows_in(text), rows_in(other), rows_in(text.replace(",430,", ",431,")))]
        self.assertEqual((found[0] == found[1], found[0] == found[2]), (True, False))


def rows_in(text: str) -> list[Row]:
    """The rows of a network file's text."""
    return list(rows_of(text.encode()))


class Played(PlaceTest):
    def test_no_season_beats_the_bound(self) -> None:
        for name in (LOG, HUB):
            for demand in DEMANDS:
                text = by_one_process(self.program, name, Settings(seed=3, demand=demand, order="low-first"), 10)
                rows = csv.DictReader(text.splitlines())
                beats = [it["season"] for it in rows if not 0 <= int(it["revenue"]) <= float(it["bound"])]
                self.assertEqual(beats, [], f"{name} {demand}")

    def test_cancellations_are_of_bookings_that_stand(self) -> None:
        """By the program that was written apart, `tests/reference.py`, asked line by line."""
        network, settings, cancelled = Network.read(LOG), Settings(cancel=0.4, parties=((1, 1), (3, 1))), 0
        for number in range(6):
            season = drawn_season(network, settings, random.Random(number))
            for mode in MODES:
                found = played(network, season, self.program, mode, LOG, ProgramTime())
                session, numbers = reference.Session(reference.network_of(bytes_in(LOG)), mode), dict[int, int]()
                for at, line in enumerate(season.lines):
                    reply = session.reply(line.encode()).decode()
                    if reply.startswith("ok "):
                        numbers[at] = int(reply.split()[1])
                    for booked_at in season.cancellations.get(at, ()):
                        self.assertLessEqual(booked_at, at, "a cancellation before its booking")
                        if booked_at in numbers:
                            reply = session.reply(f"cancel {numbers[booked_at]}".encode())
                            cancelled += reply.startswith(b"cancelled ")
                last = session.reply(b"hindsight").decode().split()
                wanted = Fraction(last[1]), int(last[3]), int(last[5])
                self.assertEqual((found.bound, found.revenue, found.withheld), wanted, f"season {number} {mode}")
        self.assertGreater(cancelled, 10)
