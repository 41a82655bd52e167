"""Legs that were joined at stops: which more seats are wanted of than they have, and what is said of such a network.

Each amount on it is one of another train, since a journey from or to a stop that is joined takes a seat on all of it.
"""
from __future__ import annotations

from collections import Counter
from dataclasses import dataclass
from typing import Mapping, Sequence

from nrm.network import Network

JOINED_AT = ", joined at "  # behind the text of a leg, and before the stops that it passes


@dataclass(frozen=True)
class Full:
    """A leg that more seats are wanted of than it has: the most of a season, its own seats, and in how many seasons."""
    leg: str
    most: int
    seats: int
    seasons: int


def fullest(wanted: Sequence[Mapping[str, int]], seats: Mapping[str, int]) -> list[Full]:
    """The legs of which more seats are wanted than they have, by what each season wants, the fullest first."""
    found = [Full(leg, max(it.get(leg, 0) for it in wanted), there, sum(it.get(leg, 0) > there for it in wanted))
             for leg, there in seats.items()]
    return sorted((it for it in found if it.seasons), key=lambda it: (it.seats - it.most, it.leg))


# What is said of a network whose list of names says that legs were joined


def said_of_joined(network: Network, texts: Mapping[str, str], wanted: Sequence[Mapping[str, int]],
                   which: str) -> str:
    """What is said first of a network with joined legs of which more seats are wanted than they have; nothing of
    others. What is wanted is said by leg, of each season of some kind."""
    seats = {name: leg.authorised for name, leg in network.legs.items() if JOINED_AT in texts.get(name, "")}
    full = fullest(wanted, seats)
    if not full:
        return ""
    it, stops = full[0], texts[full[0].leg].partition(JOINED_AT)[2]
    more = f" (and so it is on {len(full) - 1} more)" if len(full) > 1 else ""
    times = f"in {it.seasons} of {len(wanted)} {which}" if len(wanted) > 1 else f"in this {which}"
    return (f" But the leg {it.leg} was joined at {stops}: a journey from or to there takes a seat on all of it, and "
            f"{times} up to {it.most:,} seats are asked for of its {it.seats:,}{more}. What ran may have sold them "
            "all, so these amounts and the bound are of another train.")


def wanted_in_histories(network: Network) -> list[Counter[str]]:
    """The seats of each leg that each history of a network asks for."""
    wanted = [Counter[str]() for _ in range(network.histories)]
    for product in network.products.values():
        for history, seats in enumerate(wanted, 1):
            seats.update(dict.fromkeys(product.legs, product.demand_in(history)))
    return wanted
