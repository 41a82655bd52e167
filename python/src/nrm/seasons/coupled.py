"""Seasons of networks that differ in more than their legs: what is alike in them gets the same requests.

The history comes from the seed and the number of the season, and all else of a product from its name too; so a product
that another network has as well asks for the same there, in the same order, and what both earn can be compared season
by season. Each season by itself is drawn as `drawing` draws it.
"""
from __future__ import annotations

import dataclasses
import itertools
import math
import random
from typing import Iterator, NamedTuple, Sequence

from nrm.network import Network, Product
from nrm.seasons.drawing import (LARGEST_STEP, DrawnSeason, Settings, drawn_season, generator, identity, lines_for,
                                 request_of, stream_of)


class OwnRequest(NamedTuple):
    """A request with what is drawn of it: its place among those of its period, its line, where its booking is
    cancelled, from 0 for its own line to 1 for the last one, or None, and how many of its seats are taken."""
    place: float
    line: str
    cancelled: float | None
    shows: int


def together(settings: Settings, networks: Sequence[Network]) -> Settings:
    """The settings by which networks get the same draws, whatever differs in them."""
    return dataclasses.replace(settings, by_product=len({identity(it) for it in networks}) > 1)


def season_of(network: Network, settings: Settings, of_network: str, number: int) -> DrawnSeason:
    """The season of a number on a network, of which the identity is known."""
    if settings.by_product:
        return season_by_product(network, settings, number)
    return drawn_season(network, settings, generator(settings.seed, of_network, number))


def season_by_product(network: Network, settings: Settings, number: int) -> DrawnSeason:
    """A season of a number, each product's requests by themselves."""
    of_all = generator(settings.seed, "", number)
    history = one_of(network.histories, of_all) if settings.demand == "histories" else None
    periods: list[list[OwnRequest]] = [[] for _ in range(network.periods)]
    for it in network.products.values():
        draw = generator(settings.seed, it.name, number)
        for period, seats in enumerate(own_demand(network, it, settings, history, draw)):
            periods[period].extend(own_requests(it.name, seats, settings, draw))
    for some in periods:
        some.sort(key=lambda it: it.place)
        if settings.order == "low-first":
            some.sort(key=lambda it: network.products[it.line.split(" ")[1]].fare)
    season = DrawnSeason(history, stream_of(network, lambda period: [it.line for it in periods[period]]))
    places = [at for at, line in enumerate(season.lines) if request_of(line)]
    shows = [0] * len(season.lines)
    for at, request in zip(places, itertools.chain(*periods)):
        shows[at] = request.shows
        if request.cancelled is not None:
            behind = at + int(request.cancelled * (len(season.lines) - 1 - at))
            season.cancellations.setdefault(behind, []).append(at)
    season.shows = None if settings.show is None else shows
    return season


def one_of(histories: int, draw: random.Random) -> int:
    """The number of a history, each as likely, by one number that is drawn: near by where there are a few more."""
    return 1 + int(draw.random() * histories)


def own_demand(network: Network, product: Product, settings: Settings, history: int | None,
               draw: random.Random) -> Sequence[int]:
    """The seats that are asked for of a product, by period."""
    if settings.demand == "poisson":
        return [poisson_at(mean, draw) for mean in network.mean_demand[product.name]]
    chosen = one_of(network.histories, draw) if history is None else history
    return product.demand.get(chosen, (0,) * network.periods)


def own_requests(product: str, seats: int, settings: Settings, draw: random.Random) -> Iterator[OwnRequest]:
    """The requests for a product's seats in a period, with what is drawn of each."""
    sizes, weights = zip(*settings.parties)
    for line in lines_for(product, seats, sizes, weights, draw):
        place, gone, where = draw.random(), draw.random(), draw.random()
        party = (request_of(line) or ("", 0))[1]
        shows = sum(draw.random() < settings.show for _ in range(party)) if settings.show is not None else 0
        yield OwnRequest(place, line, where if gone < settings.cancel else None, shows)


def poisson_at(mean: float, draw: random.Random) -> int:
    """A number of the Poisson distribution, by its quantiles: that of a little more demand is as great or greater."""
    drawn = 0
    while mean > 0:
        step = min(mean, LARGEST_STEP)
        left, chance, count = draw.random(), math.exp(-step), 0
        while left > chance > 0:
            left, count = left - chance, count + 1
            chance *= step / count
        drawn, mean = drawn + count, mean - step
    return drawn
