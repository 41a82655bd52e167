"""Seasons that are drawn from the histories of a network.

All numbers are drawn by Python's own generator, from the seed, what the network file says of products and demand, and
the number of the season: so a season is the same wherever and whenever it is drawn, and the same on two networks that
differ in their legs' seats or thresholds alone; `coupled` is for those that differ in more.
"""
from __future__ import annotations

import functools
import hashlib
import itertools
import math
import random
from collections import Counter
from dataclasses import dataclass, field
from typing import Callable, Iterable, Mapping, Sequence

from nrm.network import Network, rows_of, text_of
from nrm.replies import MODES

DEMANDS, ORDERS = ("histories", "independent", "poisson"), ("mixed", "low-first")
LARGEST_PARTY = 999
LARGEST_STEP = 16  # of a mean whose exponential is taken at once
LINES_REMEMBERED, NETWORKS_REMEMBERED = 65_536, 8  # by a process
SeatsAskedFor = Mapping[str, Sequence[int]]  # by product and period


@dataclass(frozen=True)
class Settings:
    """How seasons are drawn and played.

    modes        in which they are played, those of the program; behind them `averaged` if averaged prices are too
    demand       histories, independent or poisson
    order        mixed or low-first, of the requests of a period
    parties      sizes of parties and their weights; a request is for a seat if there is one pair (1, weight)
    cancel       the probability that a booking is cancelled, 0 to 1
    show         the probability that a booked seat is taken at departure, 0 to 1; None if departures aren't played
    denied_cost  what a denied boarding costs, in currency units
    leave_out    whether plans are made without the history that is played
    by_product   whether each product's numbers are drawn from its name, as networks that differ in more than legs take
    """
    seed: int = 1
    modes: tuple[str, ...] = MODES
    demand: str = "histories"
    order: str = "mixed"
    parties: tuple[tuple[int, float], ...] = ((1, 1),)
    cancel: float = 0.0
    show: float | None = None
    denied_cost: int = 0
    leave_out: bool = False
    by_product: bool = False


@dataclass(frozen=True)
class Requests:
    """So many requests for a product, each for a party of this size."""
    product: str
    party: int
    count: int


@dataclass
class DrawnSeason:
    """A season's requests in their order, which each mode gets.

    history        the one that is played, or None
    lines          of the stream, without line feeds: requests, `reoptimise` and at the end `hindsight`
    cancellations  behind each line, the numbers of the lines whose bookings are cancelled there
    shows          of each line, how many seats of the party are taken at departure; None if departures aren't played
    """
    history: int | None
    lines: list[str]
    cancellations: dict[int, list[int]] = field(default_factory=dict)
    shows: list[int] | None = None

    @functools.cached_property
    def stream(self) -> bytes:
        """The lines as the program takes them."""
        return "\n".join([*self.lines, ""]).encode()

    def tally(self, chosen: Iterable[int] | None = None) -> list[Requests]:
        """How often each request stands in the lines, or in those that a byte other than 0 chooses."""
        counts = Counter(self.lines if chosen is None else itertools.compress(self.lines, chosen))
        return [Requests(*request, count) for line, count in counts.items() if (request := request_of(line))]

    @functools.cached_property
    def asked(self) -> dict[str, int]:
        """How many requests for each product stand in the lines."""
        return by_product(self.tally())


def by_product(tally: Iterable[Requests]) -> dict[str, int]:
    """How many requests for each product are in a tally."""
    requests: dict[str, int] = {}
    for it in tally:
        requests[it.product] = requests.get(it.product, 0) + it.count
    return requests


def identity(network: Network) -> str:
    """A digest of what its seasons are drawn from: the periods, products, fares and demand of a network."""
    kept = (row for row in network.rows(legs=()) if row[0] != "refund")
    return hashlib.sha256(text_of(row[:3] if row[0] == "periods" else row for row in kept).encode()).hexdigest()


@functools.lru_cache(NETWORKS_REMEMBERED)
def network_in(source: bytes) -> tuple[Network, str]:
    """The network of a file's bytes, and its identity; nobody may change it, since many batches share it."""
    network = Network.of(rows_of(source))
    return network, identity(network)


def generator(seed: int, of_network: str, number: int) -> random.Random:
    """The generator of a season's random numbers: of a seed, the identity of a network, and the season's number."""
    return random.Random(int.from_bytes(hashlib.sha256(f"{seed} {number} {of_network}".encode()).digest(), "big"))


def poisson(mean: float, draw: random.Random) -> int:
    """A number of the Poisson distribution: how many uniform numbers it takes to multiply below e to the -mean."""
    drawn = 0
    while mean > 0:
        step = min(mean, LARGEST_STEP)
        least, product, mean = math.exp(-step), draw.random(), mean - step
        while product > least:
            drawn, product = drawn + 1, product * draw.random()
    return drawn


def seats_asked_for(network: Network, history: int) -> dict[str, Sequence[int]]:
    """The seats that were asked for in a history, by product and period."""
    none = (0,) * network.periods
    return {name: it.demand.get(history, none) for name, it in network.products.items()}


def drawn_demand(network: Network, demand: str, draw: random.Random) -> tuple[int | None, SeatsAskedFor]:
    """The history that is played, if one is, and the seats that are asked for by product and period."""
    if demand == "histories":
        history = draw.randint(1, network.histories)
        return history, seats_asked_for(network, history)
    if demand == "independent":
        none, every = (0,) * network.periods, network.products.items()
        return None, {name: it.demand.get(draw.randint(1, network.histories), none) for name, it in every}
    means = network.mean_demand.items()
    return None, {product: [poisson(mean, draw) for mean in by_period] for product, by_period in means}


def lines_for(product: str, seats: int, sizes: Sequence[int], weights: Sequence[float],
              draw: random.Random) -> list[str]:
    """The requests for a product's seats in a period, as lines, each of a party; the last is cut to the seats left."""
    if sizes == (1,):
        return [f"book {product} 1"] * seats
    lines = []
    while seats:
        [party] = draw.choices(sizes, weights)
        lines.append(f"book {product} {min(party, seats)}")
        seats -= min(party, seats)
    return lines


@functools.lru_cache(LINES_REMEMBERED)
def request_of(line: str) -> tuple[str, int] | None:
    """The product and the party that a line asks for; None if it is no request."""
    if not line.startswith("book "):
        return None
    _, product, party = line.split(" ")
    return product, int(party)


def mixed(lines: Sequence[str], draw: random.Random) -> list[str]:
    """The lines in an order that is drawn, each as likely, in half the time of Python's `shuffle`."""
    return [lines[at] for at in sorted(range(len(lines)), key=[draw.random() for _ in lines].__getitem__)]


def ordered(network: Network, seats: SeatsAskedFor, settings: Settings, draw: random.Random) -> list[str]:
    """The lines of a stream, period after period, each in the order of the settings."""
    sizes, weights = zip(*settings.parties)

    def requests_in(period: int) -> list[str]:
        lines: list[str] = []
        for product, by_period in seats.items():
            if by_period[period]:
                lines += lines_for(product, by_period[period], sizes, weights, draw)
        lines = mixed(lines, draw)
        if settings.order == "low-first":
            lines.sort(key=lambda line: network.products[line.split(" ")[1]].fare)
        return lines

    return stream_of(network, requests_in)


def stream_of(network: Network, requests_in: Callable[[int], list[str]]) -> list[str]:
    """The lines of a stream, from the requests in each period: before each but the first a new plan, then the bound."""
    lines = requests_in(0)
    for period in range(1, network.periods):
        lines += [f"reoptimise {period + 1}", *requests_in(period)]
    return [*lines, "hindsight"]


def drawn_season(network: Network, settings: Settings, draw: random.Random) -> DrawnSeason:
    """A season that is drawn as the settings say."""
    history, seats = drawn_demand(network, settings.demand, draw)
    season = DrawnSeason(history, ordered(network, seats, settings, draw))
    if settings.cancel:
        for at, line in enumerate(season.lines):
            if request_of(line) and draw.random() < settings.cancel:
                season.cancellations.setdefault(draw.randint(at, len(season.lines) - 2), []).append(at)
    if settings.show is not None:
        parties = [(request_of(line) or ("", 0))[1] for line in season.lines]
        season.shows = [sum(draw.random() < settings.show for _ in range(party)) for party in parties]
    return season


def history_again(network: Network, history: int, draw: random.Random) -> DrawnSeason:
    """A history as a season: its requests, a seat each, in the order of the periods and shuffled within each."""
    seats = seats_asked_for(network, history)

    def requests_in(period: int) -> list[str]:
        lines = [f"book {product} 1" for product, by_period in seats.items() for _ in range(by_period[period])]
        draw.shuffle(lines)
        return lines

    return DrawnSeason(history, stream_of(network, requests_in))
