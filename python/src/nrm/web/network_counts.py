"""What the lines of a network come to: seats, bookings, revenue, answers and refusals, counted as they are read.

The network file says fares and legs, and each row one more line. A booking stands in arrays by its number, with some
thirty bytes, since there may be millions. What is shown is a `CountedNetwork`, made anew when rows have come and never
changed.
"""
from __future__ import annotations

from array import array
from collections import Counter, deque
from dataclasses import dataclass, field
from typing import Mapping, NamedTuple

from nrm.network import Network
from nrm.replies import Answer, Cancelled, NoAnswer, NoFare, NoLeg, Optimised, Overflow, Sold, Unknown, answer_of

MOST_REFUSALS = 50
MINUTES = 60  # for which requests are counted
STANDS = -1  # in the place of the amount that was given back
IN_WORDS = {Sold: "sold", NoLeg: "no leg", NoFare: "no fare", Unknown: "unknown", Cancelled: "cancelled",
            Optimised: "optimised", Overflow: "overflow"}
REFUSALS = (NoLeg, NoFare, Unknown, Overflow)


class JournalRow(NamedTuple):
    """A row of the journal; the time is in milliseconds since 1970 began."""
    number: int
    at: int
    desk: str
    line: str
    reply: str


class StrangeRow(ValueError):
    """A row that nothing could have been answered so: somebody has changed the journal."""


@dataclass(frozen=True)
class CountedBooking:
    """A booking: which line sold it and which gave it back, and the amount given back."""
    number: int
    product: str
    party: int
    fare: int
    sold_by: int
    cancelled_by: int | None = None
    amount: int | None = None


@dataclass(frozen=True)
class LegSeen:
    """A leg: the authorised seats, and those sold and left of them."""
    name: str
    authorised: int
    sold: int

    @property
    def left(self) -> int:
        return self.authorised - self.sold


@dataclass(frozen=True)
class ProductSeen:
    """A product: its fare and legs, the bookings that stand, their seats, and what they earn."""
    name: str
    fare: int
    legs: tuple[str, ...]
    bookings: int
    seats: int

    @property
    def revenue(self) -> int:
        return self.fare * self.seats


@dataclass(frozen=True)
class CountedNetwork:
    """A network as its first lines, so many, make it."""
    lines: int = 0
    legs: tuple[LegSeen, ...] = ()
    products: tuple[ProductSeen, ...] = ()
    answers: Mapping[tuple[str, str], int] = field(default_factory=dict)
    refusals: tuple[JournalRow, ...] = ()  # the last ones, the latest first
    plans: int = 0  # how many were made
    revenue: int = 0
    withheld: int = 0
    minutes: Mapping[int, int] = field(default_factory=dict)  # requests by the minute since 1970 began

    @property
    def sold(self) -> int:
        """Seats of the bookings that stand, each once for each leg."""
        return sum(it.sold for it in self.legs)

    @property
    def authorised(self) -> int:
        return sum(it.authorised for it in self.legs)

    def a_minute(self, now: int) -> list[int]:
        """The requests of each of the last minutes, the current one last; the time is in milliseconds."""
        return [self.minutes.get(it, 0) for it in range(now // 60_000 - MINUTES + 1, now // 60_000 + 1)]


class Counts:
    """The counts of one network."""

    def __init__(self, network: Network) -> None:
        self.products = list(network.products.values())
        self.places = {it.name: at for at, it in enumerate(self.products)}
        self.legs = network.legs
        self.sold_on = dict.fromkeys(network.legs, 0)
        self.seats, self.bookings = [0] * len(self.products), [0] * len(self.products)
        self.answers: Counter[tuple[str, str]] = Counter()
        self.minutes: Counter[int] = Counter()
        self.refusals: deque[JournalRow] = deque(maxlen=MOST_REFUSALS)
        self.lines = self.plans = self.revenue = self.withheld = 0
        self.product_of, self.party_of = array("H"), array("H")  # by the number of the booking, from 1
        self.sold_by, self.cancelled_by, self.amount_of = array("q"), array("q"), array("q")

    def take(self, row: JournalRow) -> None:
        """Takes the next row; a StrangeRow leaves all as it was."""
        try:
            answer = answer_of(row.reply.encode("latin-1", "replace"))
            kind, *words = row.line.split(" ")
            self.see(row, kind, words, answer)
        except (NoAnswer, ValueError, LookupError) as fault:
            raise StrangeRow(f"row {row.number}, `{row.line}` with the reply `{row.reply}`, isn't one that a "
                             "server writes") from fault
        self.lines = row.number
        self.answers[kind, IN_WORDS[type(answer)]] += 1
        if kind == "book":
            self.minutes[row.at // 60_000] += 1
        if isinstance(answer, REFUSALS):
            self.refusals.appendleft(row)

    def see(self, row: JournalRow, kind: str, words: list[str], answer: Answer) -> None:
        """Counts what a line has changed."""
        if row.number != self.lines + 1 or type(answer) not in IN_WORDS:
            raise ValueError(row.number)
        if kind == "book" and isinstance(answer, Sold):
            [name, party] = words
            self.sell(row.number, answer.number, self.places[name], int(party))
        elif kind == "cancel" and isinstance(answer, Cancelled):
            [number] = words
            self.give_back(row.number, int(number), answer)
        elif kind == "reoptimise":
            self.plans += isinstance(answer, Optimised)
        elif kind not in ("book", "cancel") or isinstance(answer, (Sold, Cancelled, Optimised)):
            raise ValueError(kind)

    def sell(self, row: int, number: int, place: int, party: int) -> None:
        """A booking is sold."""
        if number != len(self.sold_by) + 1 or party < 1:
            raise ValueError(number)
        self.product_of.append(place)
        self.party_of.append(party)
        self.sold_by.append(row)
        self.cancelled_by.append(0)
        self.amount_of.append(STANDS)
        self.move(place, party, 1)

    def give_back(self, row: int, number: int, answer: Cancelled) -> None:
        """A booking is cancelled."""
        if number != answer.number or not 1 <= number <= len(self.sold_by) or self.amount_of[number - 1] != STANDS:
            raise ValueError(number)
        place, party = self.product_of[number - 1], self.party_of[number - 1]
        self.cancelled_by[number - 1], self.amount_of[number - 1] = row, answer.amount
        self.move(place, party, -1)
        self.withheld += party * self.products[place].fare - answer.amount

    def move(self, place: int, party: int, sign: int) -> None:
        """So many seats of a product are sold, or given back."""
        product = self.products[place]
        for leg in product.legs:
            self.sold_on[leg] += sign * party
        self.seats[place] += sign * party
        self.bookings[place] += sign
        self.revenue += sign * party * product.fare

    def booking(self, number: int) -> CountedBooking | None:
        """The booking of a number, if there was one."""
        if not 1 <= number <= len(self.amount_of):  # which is the last to grow
            return None
        at = number - 1
        product, amount = self.products[self.product_of[at]], self.amount_of[at]
        stands = amount == STANDS
        return CountedBooking(number, product.name, self.party_of[at], product.fare, self.sold_by[at],
                              None if stands else self.cancelled_by[at], None if stands else amount)

    def seen(self) -> CountedNetwork:
        """All of it, as it is now."""
        last = max(self.minutes, default=0)
        for it in [it for it in self.minutes if it <= last - 2 * MINUTES]:
            del self.minutes[it]
        legs = tuple(LegSeen(it.name, it.authorised, self.sold_on[it.name]) for it in self.legs.values())
        products = tuple(ProductSeen(it.name, it.fare, it.legs, self.bookings[at], self.seats[at])
                         for at, it in enumerate(self.products))
        return CountedNetwork(self.lines, legs, products, dict(self.answers), tuple(self.refusals), self.plans,
                              self.revenue, self.withheld, dict(self.minutes))
