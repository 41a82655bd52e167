"""What to leave out of a part of a timetable so that network files take the rest: the products that are worth least.

Legs are put into orders, that of the file and others in which each leg comes next to those that it shares most with. Of
each order all ways to cut it into files are gone through by dynamic programming: what is kept are the products within
one file, of those beyond the limit the dearest. The best of all orders is proposed. So if the legs of one line stand
in their order, nothing cheaper can be left out; elsewhere something cheaper may be found by hand.
"""
from __future__ import annotations

import heapq
from dataclasses import dataclass
from typing import Iterator, Mapping, Sequence

from nrm.limits import MOST_LEGS, MOST_PRODUCTS
from nrm.network import Product
from nrm.records.timetable_parts import Part, parts_of

MOST_STEPS = 4_000_000  # about, in all orders
Value = tuple[int, int, int]  # what is kept: its worth, its products, and the files, with a sign since few are better


@dataclass(frozen=True)
class FileLimits:
    """How many legs and products a file takes."""
    legs: int = MOST_LEGS
    products: int = MOST_PRODUCTS


def worth(product: Product) -> int:
    """What was asked for of a product in all histories, at its fare."""
    return product.fare * product.demand_in_all()


@dataclass(frozen=True)
class Proposal:
    """The products to leave out of a part, that which is worth least first, and the parts that are then left."""
    left_out: list[Product]
    parts: list[Part]


def proposal(part: Part, products: Mapping[str, Product], limits: FileLimits = FileLimits()) -> Proposal:
    """What to leave out of a part."""
    sold = [products[it] for it in part.products]
    best: tuple[Value, list[list[str]]] | None = None
    for order in orders(part.legs, sold, limits):
        found = cut_of(order, sold, limits)
        if best is None or found[0] > best[0]:
            best = found
    assert best, "there is an order"
    kept = set(kept_in(best[1], sold, limits))
    left_out = sorted((it for it in sold if it.name not in kept), key=worth)
    rest = parts_of(part.legs, {it.name: it.legs for it in sold if it.name in kept})
    return Proposal(left_out, rest)


# Orders


def orders(legs: Sequence[str], sold: Sequence[Product], limits: FileLimits) -> Iterator[Sequence[str]]:
    """Orders of the legs that are tried: that of the file, and from as many legs as there is time for the one in which
    each leg has most in common with those before it."""
    yield legs
    count = max(2, min(len(legs), MOST_STEPS // (len(sold) * limits.legs)))
    on_leg: dict[str, list[Product]] = {it: [] for it in legs}
    for product in sold:
        for leg in product.legs:
            on_leg[leg].append(product)
    for at in range(count):
        yield attracted(legs[at * len(legs) // count], legs, on_leg)


def attracted(start: str, legs: Sequence[str], on_leg: Mapping[str, Sequence[Product]]) -> list[str]:
    """The order from a leg in which each has most in common with those before it, by the worth of the products."""
    place = {leg: at for at, leg in enumerate(legs)}
    shared, order, left = dict.fromkeys(legs, 0), list[str](), set(legs)
    waiting = [(0, -1, start)]
    while left:
        _, _, leg = heapq.heappop(waiting) if waiting else (0, 0, min(left, key=place.__getitem__))
        if leg not in left:
            continue
        left.remove(leg)
        order.append(leg)
        for product in on_leg[leg]:
            for other in product.legs:
                if other in left:
                    shared[other] += worth(product) + 1
                    heapq.heappush(waiting, (-shared[other], place[other], other))
    return order


# Cuts of an order


def cut_of(order: Sequence[str], sold: Sequence[Product], limits: FileLimits) -> tuple[Value, list[list[str]]]:
    """The cut of an order into pieces that keeps most, with what it keeps."""
    place = {leg: at for at, leg in enumerate(order)}
    ending: list[list[tuple[int, int]]] = [[] for _ in order]  # by the last place of a product: the first, its worth
    for product in sold:
        places = [place[it] for it in product.legs]
        ending[max(places)].append((min(places), worth(product)))
    best: list[Value] = [(0, 0, 0)] + [(-1, 0, 0)] * len(order)
    begun = [0] * (len(order) + 1)
    for first in range(len(order)):
        kept, total = list[int](), 0
        for last in range(first, min(len(order), first + limits.legs)):
            for begins, value in ending[last]:
                if begins >= first:
                    heapq.heappush(kept, value)
                    total += value - (heapq.heappop(kept) if len(kept) > limits.products else 0)
            found = (best[first][0] + total, best[first][1] + len(kept), best[first][2] - 1)
            if found > best[last + 1]:
                best[last + 1], begun[last + 1] = found, first
    pieces, end = list[list[str]](), len(order)
    while end:
        pieces.append(list(order[begun[end]:end]))
        end = begun[end]
    return best[-1], pieces[::-1]


def kept_in(pieces: Sequence[Sequence[str]], sold: Sequence[Product], limits: FileLimits) -> Iterator[str]:
    """The products that are within a piece, of each piece as many as a file takes, the dearest."""
    piece_of = {leg: at for at, piece in enumerate(pieces) for leg in piece}
    within: list[list[Product]] = [[] for _ in pieces]
    for product in sold:
        at = {piece_of[it] for it in product.legs}
        if len(at) == 1:
            within[at.pop()].append(product)
    for some in within:
        yield from (it.name for it in sorted(some, key=worth, reverse=True)[:limits.products])
