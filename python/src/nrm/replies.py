"""What the program writes, read: replies, plans, texts of legs, bounds, and the lines of `cuts` and `dp`.

Each is read here and nowhere else, into values with exact fractions.
"""
from __future__ import annotations

import re
from dataclasses import dataclass, field
from fractions import Fraction
from typing import Callable, Iterable, Iterator, NamedTuple, Sequence, Union

from nrm.network import fraction, whole

MODES = ("first", "bid", "davn")
MOST_SHOWN = 200  # of what is no answer


class NoAnswer(ValueError):
    """What came is no answer to what was asked: is it another program?"""


# Which reply belongs to which line

FURTHER = re.compile(rb"(on|product|nest|protect) |leg [^ ]+ [0-9]+/")  # a line within the text of a leg or a plan


def replies_of(lines: Iterable[bytes]) -> Iterator[bytes]:
    """The replies that lines of output make: those of a leg and of a plan have more than one line."""
    reply = b""
    for line in lines:
        if reply and not FURTHER.match(line):
            yield reply
            reply = b""
        reply += line
    if reply:
        yield reply


# What a reply says


@dataclass(frozen=True)
class Sold:
    """The party has its seats, by the booking of this number."""
    number: int


@dataclass(frozen=True)
class NoLeg:
    """This leg lacks the seats."""
    leg: str


@dataclass(frozen=True)
class Cancelled:
    """The booking of this number is gone, and this amount is given back, in currency units."""
    number: int
    amount: int


@dataclass(frozen=True)
class Optimised:
    """A plan is in force whose value is this in a history, on the mean, in currency units; none under `first`."""
    value: Fraction | None


@dataclass(frozen=True)
class Plain:
    """An answer that says nothing more than its name does."""


class NoFare(Plain):
    """There is room, and the fare is below the bid prices of the legs."""


class Unknown(Plain):
    """No product, no standing booking, no leg or no period is named so."""


class Overflow(Plain):
    """The program of the plan or of the bound is too large. The plan in force stays."""


class Memory(Plain):
    """There was too little memory, and nothing has changed."""


class StoreReply(Plain):
    """The store failed, and nothing has changed."""


class Denied(Plain):
    """The desk has no right to this, and nothing has changed."""


@dataclass(frozen=True)
class Available:
    """The largest party of which a request would be sold now, and what one seat more would be refused for; nothing if
    no line may ask for more."""
    party: int
    limit: NoLeg | NoFare | None


@dataclass(frozen=True)
class Leg:
    """A leg: its physical and authorised seats, those sold and left of the latter, and what each product has sold."""
    name: str
    seats: int
    authorised: int
    sold: int
    left: int
    products: dict[str, int]


class Nest(NamedTuple):
    """Of a product on a leg: its adjusted fare, and its bucket, from 1."""
    adjusted: Fraction
    bucket: int


@dataclass(frozen=True)
class Plan:
    """The plan in force. Under `first` all is empty; nests and protections are those of `davn` alone.

    value          the revenue still to come in a history, on the mean, in currency units
    allocation     of each product, the seats that it is allotted in a history, on the mean
    prices         of each leg, its bid price in currency units
    nests          of each leg and product on it, the adjusted fare and the bucket
    protections    of each leg, the seats that are protected for bucket 1, for buckets 1 and 2, and so on
    """
    value: Fraction | None = None
    allocation: dict[str, Fraction] = field(default_factory=dict)
    prices: dict[str, Fraction] = field(default_factory=dict)
    nests: dict[tuple[str, str], Nest] = field(default_factory=dict)
    protections: dict[str, tuple[int, ...]] = field(default_factory=dict)

    @property
    def mode(self) -> str:
        """The mode that makes such a plan."""
        return "first" if self.value is None else "davn" if self.protections else "bid"

    def protected_from(self, leg: str, product: str) -> int:
        """The seats of a leg that are protected from a product: those for the buckets above its own."""
        if self.mode != "davn":
            return 0
        bucket = self.nests[leg, product].bucket
        return self.protections[leg][bucket - 2] if bucket > 1 else 0


@dataclass(frozen=True)
class Hindsight:
    """What no choice of the requests so far could have exceeded, the revenue, and what was withheld."""
    bound: Fraction
    revenue: int
    withheld: int


Answer = Union[Sold, NoLeg, NoFare, Unknown, Cancelled, Optimised, Overflow, Memory, StoreReply, Denied, Available, Leg,
               Plan, Hindsight]
SAME: dict[str, Answer] = {
    "unknown": Unknown(), "overflow": Overflow(), "memory": Memory(), "store": StoreReply(), "no fare": NoFare(),
    "denied": Denied(), "first": Plan(), "optimised none": Optimised(None)}
FORMS: list[tuple[re.Pattern[str], Callable[..., Answer]]] = [
    (re.compile(r"ok ([0-9]+)"), lambda number: Sold(whole(number))),
    (re.compile(r"no ([A-Z0-9-]+)"), NoLeg),
    (re.compile(r"cancelled ([0-9]+) ([0-9]+)"), lambda number, amount: Cancelled(whole(number), whole(amount))),
    (re.compile(r"optimised ([0-9]+/[0-9]+)"), lambda value: Optimised(fraction(value))),
    (re.compile(r"hindsight ([0-9]+/[0-9]+) revenue ([0-9]+) withheld ([0-9]+)"),
     lambda bound, revenue, withheld: Hindsight(fraction(bound), whole(revenue), whole(withheld))),
    (re.compile(r"ask [A-Z0-9-]+ ([0-9]+) leg ([A-Z0-9-]+)"), lambda party, leg: Available(whole(party), NoLeg(leg))),
    (re.compile(r"ask [A-Z0-9-]+ ([0-9]+) fare"), lambda party: Available(whole(party), NoFare())),
    (re.compile(r"ask [A-Z0-9-]+ ([0-9]+) most"), lambda party: Available(whole(party), None)),
    (re.compile(r"ask [A-Z0-9-]+ unknown"), Unknown),
]


def answer_of(reply: bytes) -> Answer:
    """The answer that a reply means."""
    text = reply.decode("latin-1")
    text = text[:-1] if text.endswith("\n") else text
    if text in SAME:
        return SAME[text]
    try:
        if text.startswith("leg "):
            return leg_of(text.split("\n"))
        if text.startswith("value "):
            return plan_of(text.split("\n"))
        for form, answer in FORMS:
            if found := form.fullmatch(text):
                return answer(*found.groups())
    except (ValueError, IndexError):
        pass
    raise NoAnswer(repr(text[:MOST_SHOWN]))


def leg_of(lines: Sequence[str]) -> Leg:
    """The leg that the lines of a text tell of; a ValueError where they tell of none."""
    _, name, _, seats, _, authorised, _, sold, _, left = lines[0].split(" ")
    products = {product: whole(number) for _, _, product, number in (line.split(" ") for line in lines[1:])}
    return Leg(name, whole(seats), whole(authorised), whole(sold), whole(left), products)


def plan_of(lines: Sequence[str]) -> Plan:
    """The plan that the lines of a text tell; a ValueError or an IndexError where they tell none."""
    plan = Plan(value=fraction(lines[0].split(" ")[1]))
    for kind, name, *rest in (line.split(" ") for line in lines[1:]):
        if kind == "product":
            plan.allocation[name] = fraction(rest[0])
        elif kind == "leg":
            plan.prices[name] = fraction(rest[0])
        elif kind == "nest":
            plan.nests[name, rest[0]] = Nest(adjusted_of(rest[1]), whole(rest[2]))
        elif kind == "protect":
            plan.protections[name] = tuple(map(whole, rest))
    return plan


def adjusted_of(word: str) -> Fraction:
    """An adjusted fare, which is below 0 where the other legs of a product cost more than its fare."""
    return -fraction(word[1:]) if word.startswith("-") else fraction(word)


# What `nrm cuts` and `nrm dp` write


@dataclass(frozen=True)
class Cuts:
    """Thresholds of a leg, the highest first, the centre of each group of fares, and the cost."""
    thresholds: tuple[int, ...]
    centres: tuple[int, ...]
    cost: int


def cuts_of(leg: str, lines: Sequence[str]) -> Cuts:
    """What the lines of `nrm cuts` say of a leg; a ValueError where they say nothing of it."""
    words = [line.split(" ") for line in lines]
    if [it[:2] for it in words] != [["cuts", leg], ["centres", leg], ["cost", leg]]:
        raise ValueError(leg)
    thresholds, centres, (cost,) = (tuple(map(whole, it[2:])) for it in words)
    if len(centres) != len(thresholds) + 1:
        raise ValueError(leg)
    return Cuts(thresholds, centres, cost)


@dataclass(frozen=True)
class LegValue:
    """What a leg can earn by itself: the name and fare of each class, the highest first, the mean revenue of a history,
    and the seats that are protected for the first class, for the first two, and so on."""
    classes: tuple[tuple[str, int], ...]
    value: Fraction
    protections: tuple[int, ...]


def leg_value_of(leg: str, lines: Sequence[str]) -> LegValue:
    """What the lines of `nrm dp` say of a leg; a ValueError where they say nothing of it."""
    *classes, value, protections = (line.split(" ") for line in lines)
    heads = [*(it[:1] for it in classes), value[:2], protections[:2]]
    if heads != [*(["class"] for _ in protections[1:]), ["value", leg], ["protect", leg]]:
        raise ValueError(leg)
    [mean] = value[2:]
    return LegValue(tuple((name, whole(fare)) for _, name, fare in classes), fraction(mean),
                    tuple(map(whole, protections[2:])))
