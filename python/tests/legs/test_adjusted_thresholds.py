"""Thresholds from adjusted fares part them at the largest gaps, or as close to their centres as can be."""
from __future__ import annotations

import itertools
import random
import unittest
from fractions import Fraction

from harness import EXAMPLES, PlaceTest
from nrm.legs.adjusted_thresholds import adjusted_fare, adjusted_groupings, by_gaps, described, halfway, leg_alone
from nrm.network import Network, Product
from nrm.replies import plan_of

LOG = str(EXAMPLES / "log" / "network.csv")
SEASON = str(EXAMPLES / "season" / "network.csv")


class ByHand(unittest.TestCase):
    def test_a_product_brings_what_its_other_legs_leave(self) -> None:
        product = Product("P", 300, ("A", "B", "C"))
        prices = {"A": Fraction(50), "B": Fraction(1, 3), "C": Fraction(400)}
        self.assertEqual([adjusted_fare(product, it, prices) for it in product.legs],
                         [Fraction(300 * 3 - 1, 3) - 400, Fraction(-150), Fraction(300 * 3 - 1, 3) - 50])

    def test_fares_count_in_whole_numbers_and_at_least_as_one(self) -> None:
        network = Network.read(LOG)
        alone = leg_alone(network, "ZRH-VIE", {"ZRH-VIE": Fraction(999), "VIE-BUD": Fraction(801, 10)})
        self.assertEqual({it.name: (it.fare, it.legs) for it in alone.products.values()},
                         {"ZV-Y": (320, ("ZRH-VIE",)), "ZV-Q": (110, ("ZRH-VIE",)), "ZB-Y": (349, ("ZRH-VIE",)),
                          "ZB-Q": (69, ("ZRH-VIE",))})
        self.assertEqual([it.demand for it in alone.products.values()],
                         [network.products[it].demand for it in alone.products])
        dear = leg_alone(network, "ZRH-VIE", {"ZRH-VIE": Fraction(0), "VIE-BUD": Fraction(500)})
        self.assertEqual([dear.products[it].fare for it in ("ZB-Y", "ZB-Q")], [1, 1])

    def test_a_threshold_parts_two_fares(self) -> None:
        for high, low in ((2, 1), (3, 1), (350, 320), (321, 320)):
            self.assertTrue(low < halfway(high, low) <= high, (high, low))
        self.assertEqual(halfway(320, 110), 215)

    def test_the_largest_gaps_part_first_and_of_equal_ones_the_dearest(self) -> None:
        asked = {400: 1, 300: 5, 290: 0, 190: 2, 150: 3}
        cuts = [by_gaps("A", asked, it).cuts.thresholds for it in range(1, 7)]
        self.assertEqual(cuts, [(), (350,), (350, 240), (350, 240, 170), (350, 295, 240, 170), (350, 295, 240, 170)])

    def test_a_centre_has_half_of_its_group_above_it(self) -> None:
        found = described("A", {400: 1, 300: 5, 290: 4, 190: 2, 150: 0}, [240])
        self.assertEqual((found.cuts.centres, found.cuts.cost), ((300, 190), 100 + 40))


class WithProgram(PlaceTest):
    def test_they_are_the_adjusted_fares_of_the_plan(self) -> None:
        for path in (LOG, SEASON):
            plan = self.program.told(plan_of, "plan", "davn", path)
            network = Network.read(path)
            for (leg, product), nest in plan.nests.items():
                self.assertEqual(adjusted_fare(network.products[product], leg, plan.prices), nest.adjusted)
            self.assertEqual(len(plan.nests), sum(len(it.legs) for it in network.products.values()))

    def test_the_least_cost_is_that_of_all_groupings(self) -> None:
        for groups in (2, 3):
            for found in adjusted_groupings(SEASON, Network.read(SEASON), "cost", groups, self.program):
                every = [described(found.leg, found.asked, [halfway(*it) for it in some]).cuts.cost
                         for count in range(groups)
                         for some in itertools.combinations(zip(list(found.asked), list(found.asked)[1:]), count)]
                self.assertEqual(found.cuts.cost, min(every))
                same = described(found.leg, found.asked, found.cuts.thresholds)
                self.assertEqual((same.cuts.cost, len(same.cuts.centres)), (found.cuts.cost, len(found.cuts.centres)))

    def test_they_are_told_and_written(self) -> None:
        for way, cuts in (("gaps", ["215,90", "260,140"]), ("cost", ["215,90", "260,140"])):
            out = self.told("thresholds", LOG, 3, "--adjusted", way, "--out", way, *self.with_program)
            legs = [it for it in (self.folder / way).read_text().splitlines() if it.startswith("leg")]
            self.assertEqual(legs, [f"leg,ZRH-VIE,8,{cuts[0]}", f"leg,VIE-BUD,6,{cuts[1]}"], way)
            self.want_in(out, f"\n{way}\n")
            self.nrm("print", way)
        self.stopped("thresholds", LOG, 3, "--search", "--adjusted", "gaps", status=2, says="can't be used with --adjusted")

    def test_every_network_gets_thresholds_that_the_program_takes(self) -> None:
        """Also one whose prices leave products next to nothing, or less."""
        draw = random.Random(7)
        rows = ["periods,2,2", "leg,A,3", "leg,B,2", "leg,C,4"]
        for number in range(12):
            legs = draw.sample("ABC", draw.randint(1, 3))
            rows.append(f"product,P{number},{draw.randint(1, 400)},{','.join(legs)}")
        rows += [f"demand,P{number},{history},{draw.randint(0, 3)},{draw.randint(0, 3)}"
                 for number in range(12) for history in (1, 2)]
        path = self.file("made.csv", "\n".join([*rows, ""]))
        for way, groups in itertools.product(("gaps", "cost"), (1, 4, 10)):
            self.told("thresholds", path, groups, "--adjusted", way, "--out", "new.csv", *self.with_program)
            self.want_in(self.nrm("print", "new.csv"), "leg,A,3,3")
