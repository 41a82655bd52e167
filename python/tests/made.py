"""Networks, timetables and lines that tests of several modules are made of, and what `tests/reference.py` answers."""
from __future__ import annotations

import random
from typing import Iterable, Sequence

import reference

FEW = "periods,2,1\nleg,A,1\nproduct,P,5,A\n"
SECOND = """periods,2,2,2
leg,AB,3,5,300,90
leg,BC,9,2
leg,CD,4,4,80
product,AC,500,AB,BC
product,AB,200,AB
refund,AB,33
product,BC,120,BC
product,CD,90,CD
refund,AC,0
refund,CD,100
demand,AC,1,1,2
demand,AB,2,4,3
demand,AB,1,5,0
demand,BC,1,6,1
demand,CD,2,0,3
"""
OF_REFUNDS = ["book AB 4", "cancel 1", "book AC 1", "reoptimise 2", "book AC 1", "cancel 2", "book AB 2", "book CD 3",
              "cancel 9", "cancel 3"]


def made_timetable(draw: random.Random, parts: Sequence[int]) -> tuple[list[list[object]], list[list[str]]]:
    """The rows of a timetable of parts, mixed, and the legs of each part."""
    legs = [[f"L{part}-{at}" for at in range(size)] for part, size in enumerate(parts)]
    products = [(f"P{part}-{at}", draw.randint(50, 500), [some[at], *([some[at + 1]] if at + 1 < len(some) else [])])
                for part, some in enumerate(legs) for at in range(len(some))]
    every = [it for some in legs for it in some]
    draw.shuffle(every)
    draw.shuffle(products)
    rows = [["periods", 2, 2], *[["leg", it, draw.randint(1, 9)] for it in every],
            *[["product", name, fare, *used] for name, fare, used in products],
            *[["demand", name, history, draw.randint(0, 5), draw.randint(0, 5)] for name, _, _ in products
              for history in (1, 2)]]
    return rows, legs


def reference_replies(mode: str, network: str, lines: Iterable[str]) -> list[str]:
    """What `tests/reference.py` answers."""
    session = reference.Session(reference.network_of(network.encode()), mode)
    return [session.reply(line.encode()).decode() for line in lines]
