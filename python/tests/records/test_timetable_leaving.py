"""What is proposed to be left out makes parts that fit; on a line nothing cheaper does, by all that could be tried."""
from __future__ import annotations

import csv
import itertools
import random
import re
import sys
import unittest
from typing import Iterator, Sequence

from harness import EXAMPLES, PlaceTest
from nrm.network import Network, Product
from nrm.records.timetable_leaving import FileLimits, Proposal, proposal, worth
from nrm.records.timetable_parts import Part, parts_of

FEW = FileLimits(legs=3, products=4)


def product(name: str, legs: Sequence[str], asked: int) -> Product:
    """A product at a fare of 1 for which so much was asked."""
    return Product(name, 1, tuple(legs), demand={1: (asked,)})


def line_of(draw: random.Random, count: int) -> tuple[list[str], list[Product]]:
    """The legs of a line in their order, and products on one to three neighbours."""
    legs = [f"L{it}" for it in range(count)]
    spans = [(at, size) for size in (1, 2, 3) for at in range(count - size + 1) if size == 2 or draw.random() < 0.7]
    return legs, [product(f"P{at}-{size}", legs[at:at + size], draw.randint(0, 9)) for at, size in spans]


def least_left_out(legs: Sequence[str], sold: Sequence[Product], limits: FileLimits) -> int:
    """The least worth that can be left out, by trying every set of products that may be kept."""
    least = sum(map(worth, sold))
    for chosen in itertools.product((True, False), repeat=len(sold)):
        left_out = sum(worth(it) for it, is_kept in zip(sold, chosen) if not is_kept)
        if left_out < least and fits([it for it, is_kept in zip(sold, chosen) if is_kept], legs, limits):
            least = left_out
    return least


def fits(kept: Sequence[Product], legs: Sequence[str], limits: FileLimits) -> bool:
    """Whether each part of what is kept is within the limits."""
    return all(len(it.legs) <= limits.legs and len(it.products) <= limits.products
               for it in parts_of(legs, {it.name: it.legs for it in kept}))


def proposed(legs: Sequence[str], sold: Sequence[Product], limits: FileLimits) -> Proposal:
    """What is proposed for a part with these legs and products."""
    return proposal(Part(list(legs), [it.name for it in sold]), {it.name: it for it in sold}, limits)


def networks(count: int) -> Iterator[tuple[list[str], list[Product]]]:
    """Legs with products on any one to three of them."""
    for number in range(count):
        draw = random.Random(number)
        legs = [f"L{it}" for it in range(6)]
        yield legs, [product(f"P{it}", draw.sample(legs, draw.randint(1, 3)), draw.randint(0, 9)) for it in range(11)]


class Proposals(unittest.TestCase):
    def test_on_a_line_nothing_cheaper_can_be_left_out(self) -> None:
        for number in range(12):
            legs, sold = line_of(random.Random(number), 6)
            found = proposed(legs, sold[:13], FEW)
            self.assertEqual(sum(map(worth, found.left_out)), least_left_out(legs, sold[:13], FEW), number)

    def test_elsewhere_it_is_seldom_much_dearer(self) -> None:
        """On networks of no order at all: never more than half again as much as the least, and mostly the least."""
        pairs = []
        for legs, sold in networks(12):
            found = proposed(legs, sold, FEW)
            pairs.append((sum(map(worth, found.left_out)), least_left_out(legs, sold, FEW)))
        self.assertTrue(all(least <= told <= 1.5 * least for told, least in pairs), pairs)
        self.assertGreaterEqual(sum(told == least for told, least in pairs), 6, pairs)

    def test_parts_fit_and_have_all_that_isnt_left_out(self) -> None:
        for legs, sold in networks(30):
            found = proposed(legs, sold, FEW)
            kept = [it for it in sold if it not in found.left_out]
            self.assertTrue(fits(kept, legs, FEW))
            self.assertEqual(sorted(name for it in found.parts for name in it.products), sorted(it.name for it in kept))
            self.assertEqual([worth(it) for it in found.left_out], sorted(map(worth, found.left_out)))

    def test_of_too_many_products_on_few_legs_the_cheapest_go(self) -> None:
        sold = [product(f"P{it}", ["L0", "L1"], it) for it in range(1, 8)]
        self.assertEqual([it.name for it in proposed(["L0", "L1"], sold, FEW).left_out], ["P1", "P2", "P3"])


class Told(PlaceTest):
    """What is told of two timetables that are made by a script."""

    def split(self, *more: str) -> tuple[str, int]:
        """What is told of the trains, and the status."""
        out, err, status = self.ran("split", "trains.csv", "parts", *more)
        self.assertEqual(err, "")
        return out, status

    def test_what_is_proposed_can_be_left_out(self) -> None:
        for name in ("trains", "line"):
            made = self.finished(sys.executable, "-B", EXAMPLES / "line" / "make.py", name).out
            self.file("trains.csv", made)
            out, status = self.split()
            self.assertEqual(status, 1)
            with open(self.folder / "parts" / "left-out.csv", encoding="ascii", newline="") as file:
                listed = list(csv.DictReader(file))
            shares = [float(it["share %"]) for it in listed]
            self.assertEqual(shares, sorted(shares), "the cheapest first")
            network = Network.read(str(self.folder / "trains.csv"))
            every = sum(map(worth, network.products.values()))
            for it in listed:
                self.assertAlmostEqual(float(it["share %"]), 100 * worth(network.products[it["product"]]) / every, 2)
            self.assertRegex(out, f"proposed: without {len(listed)} of its products, [0-9.]+ % of what was asked for")
            left_out = sum(worth(network.products[it["product"]]) for it in listed)
            share = f"{100 * left_out / every:.2f} % of what was asked for at its fare"
            self.assertEqual(out.splitlines()[0], "No file was written of trains.csv; 1 part is too large, and would "
                             f"fit into files without {len(listed)} of the products, {share}.")
            out, status = self.split("--leave-out", "parts/left-out.csv")
            self.assertEqual(status, 0, out)
            kept, in_all = len(network.products) - len(listed), len(network.products)
            self.assertRegex(out.splitlines()[0], f"^[23] files have {kept} of {in_all} products of trains.csv; left "
                             f"out: {len(listed)}, {share}.$")
            self.assertRegex(out, f"left out: products {len(listed)}, [0-9.]+ % of what was asked for at its fare")
            files = sorted((self.folder / "parts").glob("part-*.csv"))
            self.assertEqual(len(files), len(re.findall("^parts/part-.*: legs", out, re.M)))
            for it in files:
                self.nrm("print", it)
            with open(self.folder / "parts" / "parts.csv", encoding="ascii", newline="") as file:
                rows = {it["product"]: it["file"] for it in csv.DictReader(file)}
            self.assertEqual(rows.keys(), network.products.keys())
            self.assertEqual({it for it, path in rows.items() if not path}, {it["product"] for it in listed})
            for path in files:
                path.unlink()

    def test_products_over_more_than_four_legs_are_told(self) -> None:
        made = self.finished(sys.executable, "-B", EXAMPLES / "line" / "make.py", "whole").out
        self.file("trains.csv", made)
        out, status = self.split()
        self.assertEqual(status, 1)
        self.assertEqual(out.splitlines()[:3], [
            "1 file has all 21 products of trains.csv; `nrm` refuses those over more than 4 legs, 3 in all.", "",
            "products over more than 4 legs, which no file takes: L1-5, L2-6, L1-6; docs/network-file.md, 'Why the "
            "limits', describes ways out"])
        self.nrm("print", "parts/part-1.csv", status=3)
        self.file("list.csv", "L1-5\nL2-6\nL1-6\n")
        self.assertEqual(self.split("--leave-out", "list.csv")[1], 0)
        self.nrm("print", "parts/part-1.csv")

    def test_what_isnt_in_the_timetable_cant_be_left_out(self) -> None:
        path = self.file("trains.csv", "periods,1,1\nleg,A,1\nproduct,P,5,A\n")
        self.stopped("split", path, "parts", "--leave-out", self.file("list.csv", "product\nQ,5\n"),
                     says="there is no product Q")
