#!/usr/bin/env python3
"""Networks for studies of control, each made from a seed: a train, a line with journeys over one to four legs, a hub.

    bench/studied.py train|line|spokes [--seed S] > NETWORK

train   one train of four legs with 120 seats, five stops, and nine fares for each of the ten journeys: 90 products
line    one train of six legs with 100 seats, and three fares for each of the 18 journeys over one to four legs
spokes  four legs to a hub and four from it with 50 to 90 seats, and three fares on each leg and each way over the hub

Each has 20 histories of eight periods. A fare grows with the 0.8th power of the legs of a journey, and with its rank;
what is asked for at it falls. Dear requests come late, and cheap ones early. A history has a gamma factor of its own
about 1, with a coefficient of variation of a quarter, and numbers of the Poisson distribution about what that gives: on
the mean as many seats are asked for on a leg as 1.2 times the seats there are. No leg has thresholds.
"""
import random
import sys
from collections import Counter

from nrm.commands.running import parser
from nrm.network import text_of, whole
from nrm.seasons.drawing import poisson
from running import NAME, end

HISTORIES, PERIODS = 20, 8
LOAD = 1.2  # what is asked for on the mean of the legs, in their seats
OF_DEPARTURE = 0.25  # the coefficient of variation of a history's factor
POWER = 0.8  # by which a fare grows with the legs


def journeys_of_a_line(legs, longest):
    """The journeys over neighbouring legs."""
    return [legs[first:last] for first in range(len(legs))
            for last in range(first + 1, min(len(legs), first + longest) + 1)]


def train(draw):
    """Four legs of one train, and nine fares."""
    legs = {f"T-{it}": 120 for it in "ABCD"}
    return legs, journeys_of_a_line(list(legs), 4), 9


def line(draw):
    """Six legs of one train, and three fares."""
    legs = {f"L-{it}": 100 for it in "ABCDEF"}
    return legs, journeys_of_a_line(list(legs), 4), 3


def spokes(draw):
    """Four legs to a hub and four from it, and three fares."""
    legs = {f"{side}{number}": draw.randrange(50, 91, 5) for side in ("IN", "OUT") for number in range(1, 5)}
    inbound, outbound = list(legs)[:4], list(legs)[4:]
    return legs, [[it] for it in legs] + [[a, b] for a in inbound for b in outbound], 3


MADE = {"train": train, "line": line, "spokes": spokes}


def products_of(journeys, fares, draw):
    """Each product: its name, its fare, its legs, its rank from 0, the dearest, to 1, and the share of its demand."""
    products = []
    for number, legs in enumerate(journeys):
        level, wanted = 40 * len(legs) ** POWER * draw.uniform(0.9, 1.1), draw.uniform(0.6, 1.4)
        for at in range(fares):
            rank = at / (fares - 1)
            products.append((f"J{number:02}-{at + 1}", round(level * 4 ** (1 - rank)), legs, rank,
                             wanted * (0.5 + rank)))
    return products


def course(rank, period):
    """The share of a product's demand in a period: of the dearest ones three times as much in the last as in the first,
    and of the cheapest the other way round."""
    at = period / (PERIODS - 1)
    weights = [3 ** ((1 - 2 * rank) * (it / (PERIODS - 1))) for it in range(PERIODS)]
    return 3 ** ((1 - 2 * rank) * at) / sum(weights)


def rows(legs, journeys, fares, draw):
    """The rows of a network file."""
    products = products_of(journeys, fares, draw)
    asked = Counter()
    for _, _, used, _, share in products:
        asked.update(dict.fromkeys(used, share))
    scale = LOAD * sum(legs.values()) / sum(asked.values())
    yield ["periods", HISTORIES, PERIODS]
    yield from (["leg", *it] for it in legs.items())
    yield from (["product", name, fare, *used] for name, fare, used, *_ in products)
    for history in range(1, HISTORIES + 1):
        factor = draw.gammavariate(OF_DEPARTURE ** -2, OF_DEPARTURE ** 2)
        for name, _, _, rank, share in products:
            means = [factor * scale * share * course(rank, it) for it in range(PERIODS)]
            yield ["demand", name, history, *(poisson(it, draw) for it in means)]


def main():
    words = parser(NAME, __doc__)
    words.add_argument("made", choices=MADE)
    words.add_argument("--seed", type=whole, default=1)
    given = words.parse_args()
    draw = random.Random(f"{given.seed} {given.made}")
    print(text_of(rows(*MADE[given.made](draw), draw)), end="")


if __name__ == "__main__":
    end(main)
