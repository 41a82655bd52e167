"""What network files say of the products of a sale: a product that was never open, the dear and the cheap, and parts
that are busy apart."""
from __future__ import annotations

import unittest

from nrm.network import Product
from nrm.records.estimate_products import classes_of
from records.made_sales import CLOSURES, TWO, SalePlace

NEVER = TWO + "2025-03-10,2025-03-14,B,4\n2025-03-04,2025-03-07,B,4\n"
SHUT = CLOSURES + "2025-03-07,B,2025-02-25 00:00,2025-03-02 00:00\n2025-03-14,B,2025-03-04 00:00,2025-03-09 00:00\n"
ALL_SHUT = CLOSURES + "2025-03-07,C,2025-02-20,\n2025-03-14,C,2025-02-20,\n"
NETWORK = "periods,1,2\nleg,L,9\nleg,M,9\nproduct,A,9,L\nproduct,B,5,L\nproduct,C,4,M\ndemand,B,1,4,1\n"
MEAN = ["--mean", "--opens", "10"]


class NeverOpen(SalePlace):
    """Of A 1 seat a departure is booked in period 1 and 4 in period 2, and of B 4 in period 2; B was never open in
    period 1."""

    def of(self, product: str, out: str) -> list[str]:
        """The rows of demand of a product."""
        return [it for it in out.splitlines() if it.startswith(f"demand,{product},")]

    def test_by_the_course_of_its_class(self) -> None:
        """So B would have been asked for once in period 1."""
        found = self.demand(MEAN, NEVER, SHUT)
        self.assertEqual(self.of("B", found.out), ["demand,B,1,1,4", "demand,B,2,1,4"])
        self.want_in(found.err, "B was never open in period 1: its demand there isn't known, and is taken from its own "
                                "rate elsewhere by the course of its class: 1.00 seats a departure\n")
        self.want_in(found.report, "\nB,B,4.00,80.0,5.00,,1\n")

    def test_by_an_earlier_network(self) -> None:
        """Which says 4."""
        path = self.file("before.csv", NETWORK)
        found = self.demand([*MEAN, "--before", path], NEVER, SHUT)
        self.assertEqual(self.of("B", found.out), ["demand,B,1,4,4", "demand,B,2,4,4"])
        self.want_in(found.err, f"its demand there isn't known, and is taken from {path}: 4.00 seats a departure\n")
        path = self.file("three.csv", NETWORK.replace("periods,1,2", "periods,1,3").replace("4,1\n", "4,1,0\n"))
        self.want_in(self.refused(["--before", path], NEVER, SHUT), "three.csv has 3 periods, and --cuts makes 2")

    def test_in_no_period_at_all(self) -> None:
        """It has no row, or by its class the mean of those that were open: A and B with 5 and 4 seats, so 4.5; of its
        own class alone where a network says which that is."""
        found = self.demand(MEAN, NEVER, ALL_SHUT)
        self.assertEqual(self.of("C", found.out), [])
        self.want_in(found.err, "C was never open in period 1 to 2: its demand there isn't known, and it has no row, "
                                "as if nobody had asked; --before NETWORK takes what was asked for earlier, and "
                                "--like-class the mean of the products of its class\n")
        found = self.demand([*MEAN, "--like-class"], NEVER, ALL_SHUT)
        self.want_in(found.err, "and is taken from the mean rate of its class by the course of its class: 4.50 seats a "
                                "departure\n")
        self.assertEqual(sum(int(seats) for row in self.of("C", found.out) for seats in row.split(",")[3:]), 9)
        path = self.file("network.csv", NETWORK)
        for text, seats in ((NETWORK, "4.00"), (NETWORK.replace("C,4,M", "C,20,M"), "5.00")):
            found = self.demand([*MEAN, "--like-class", "--network", self.file("network.csv", text)], NEVER, ALL_SHUT)
            self.want_in(found.err, f"by the course of its class: {seats} seats a departure\n")
        before = self.file("before.csv", NETWORK + "demand,C,1,2,3\n")
        found = self.demand([*MEAN, "--network", path, "--before", before], NEVER, ALL_SHUT)
        self.assertEqual(self.of("C", found.out), ["demand,C,1,2,3", "demand,C,2,2,3"])


class Networks(SalePlace):
    def test_its_rows_stay(self) -> None:
        """With the histories that were made, its version, and the demand in the place of its own."""
        text = "periods,9,9,2\nleg,L,9,10\nproduct,A,9,L\nrefund,A,20\ndemand,A,1,1,1,1,1,1,1,1,1,1\n"
        made = self.demand(["--network", self.file("n.csv", text)], TWO).out.splitlines()
        self.assertEqual(made[:4], ["periods,6,2,2", "leg,L,9,10", "product,A,9,L", "refund,A,20"])
        self.assertEqual(len(made), 10)
        err = self.refused(["--network", self.file("n.csv", text.replace("A", "X"))], TWO)
        self.want_in(err, "has no row for these products of the log")

    def test_parts_are_busy_by_themselves(self) -> None:
        """Twelve departures, of which A is booked thrice as much in each second one, and C, which shares no leg, in
        the others."""
        rows = ["Booked on,Departure,Product,Seats"]
        for it in range(12):
            month, day = divmod(it * 2, 28)
            departs = f"2025-{3 + month:02}-{day + 1:02}"
            rows += [f"{departs},{departs},{name},{30 if it % 2 == odd else 10}" for name, odd in (("A", 0), ("C", 1))]
        network = self.file("n.csv", NETWORK.replace("product,B,5,L\n", "").split("demand")[0])
        err = self.demand([*MEAN, "--network", network], "\n".join([*rows, ""])).err
        for part in ("A", "C"):
            self.want_in(err, f"strengths of the departures in the part of {part}: from 0.5")
        self.want_in(self.demand(MEAN, "\n".join([*rows, ""])).err, "strengths of the departures: alike\n")


class Classes(unittest.TestCase):
    def test_the_dear_and_the_cheap(self) -> None:
        """By the middle of the fares of a journey; a journey of one fare by the fares of all."""
        products = [Product("A", 300, ("L",)), Product("B", 100, ("L",)), Product("C", 199, ("L",)),
                    Product("D", 500, ("M",)), Product("E", 50, ("L", "M"))]
        self.assertEqual(classes_of(products), [[0, 3], [1, 2, 4]])
        self.assertEqual(classes_of(products[3:4]), [[0]])
