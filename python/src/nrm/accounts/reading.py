"""The account of a line, read: what `nrm_why` writes, as values with exact fractions."""
from __future__ import annotations

import re
from dataclasses import dataclass
from fractions import Fraction
from typing import Sequence, Union

from nrm.network import whole
from nrm.replies import MOST_SHOWN, NoAnswer, adjusted_of

PARTS = {"NAME": "([A-Z0-9-]{1,12})", "NUMBER": "(0|[1-9][0-9]{0,39})",
         "FRACTION": "(-?(?:0|[1-9][0-9]{0,39})/[1-9][0-9]{0,39})"}


def form(text: str) -> re.Pattern[str]:
    """A line's form, in which the words above stand for what they name."""
    for word, part in PARTS.items():
        text = text.replace(word, part)
    return re.compile(text)


LINE = form("line NUMBER (.+)")
PLAN = form("plan (first|bid|davn) (?:opening|line NUMBER) period NUMBER")
PRODUCT = form("product NAME fare NUMBER refund NUMBER")
NEST = form("nest NAME fare FRACTION bucket NUMBER of NUMBER(?: from NUMBER)?(?: below NUMBER)?")
ENOUGH = form("enough NAME seats NUMBER buckets NUMBER mean FRACTION next FRACTION histories NUMBER over NUMBER")
DEMAND = form("demand NAME((?: [0-9]{1,9})+)")
LEG = form("leg NAME authorised NUMBER sold NUMBER left NUMBER protected NUMBER needs NUMBER (?:covers|short NUMBER)")
PRICE = form("price NAME FRACTION")
SUM = form("sum FRACTION fare NUMBER (?:reaches|below FRACTION)")
LARGEST = form("largest NUMBER then (.+)")
BOOKING = form("booking NUMBER product NAME party NUMBER fare NUMBER worth NUMBER refund NUMBER")
BACK = form("back NUMBER withheld NUMBER")
LEFT = form("left NAME NUMBER")
ANSWER = form("answer (.+)")


@dataclass(frozen=True)
class Enough:
    """What the seats that are protected come from: the mean fare of the first buckets, the fare of the next one, and of
    how many histories the demand for those buckets is greater than the seats."""
    seats: int
    buckets: int
    mean: Fraction
    next_fare: Fraction
    histories: int
    over: int
    demand: tuple[int, ...]


@dataclass(frozen=True)
class NestAccount:
    """The adjusted fare of the product on a leg, its bucket, of how many, the bucket's bounds where it has them, and
    what its protected seats come from where there are some."""
    fare: Fraction
    bucket: int
    buckets: int
    least: int | None
    below: int | None
    enough: Enough | None


@dataclass(frozen=True)
class LegAccount:
    """A leg of a request; `short` is None where it covers the request."""
    name: str
    authorised: int
    sold: int
    left: int
    protected: int
    needs: int
    short: int | None
    nest: NestAccount | None


@dataclass(frozen=True)
class Fares:
    """The bid price of each leg, their sum, the fare, and by how much it is below; None where it reaches the sum."""
    prices: tuple[tuple[str, Fraction], ...]
    sum: Fraction
    fare: int
    below: Fraction | None


@dataclass(frozen=True)
class RequestAccount:
    """A request for a known product: the plan in force, and the line that made it, 0 for the opening; what its legs
    had; the fare against bid prices where that was looked at; the largest party, and the answer to one seat more."""
    mode: str
    planned: int
    period: int
    product: str
    fare: int
    refund: int
    legs: tuple[LegAccount, ...]
    fares: Fares | None
    largest: int
    beyond: str


@dataclass(frozen=True)
class CancellationAccount:
    """A cancellation of a booking that stood."""
    number: int
    product: str
    party: int
    fare: int
    worth: int
    refund: int
    back: int
    withheld: int


@dataclass(frozen=True)
class Optimisation:
    """An optimisation of a period that the network has: the seats left on each leg."""
    left: tuple[tuple[str, int], ...]


Reasons = Union[RequestAccount, CancellationAccount, Optimisation, None]


@dataclass(frozen=True)
class Account:
    """The account of a line: its number, what it asked for, the reasons, and the answer, unless it is the text of a leg
    or of a plan; and the text itself."""
    number: int
    asked: str
    reasons: Reasons
    answer: str | None
    text: str


class AccountLines:
    """Lines that are taken one after the other."""

    def __init__(self, lines: Sequence[str]) -> None:
        self.lines, self.at = lines, 0

    def taken(self, wanted: re.Pattern[str]) -> tuple[str | None, ...] | None:
        """The parts of the next line, which is taken if it has the form that is wanted."""
        found = wanted.fullmatch(self.lines[self.at]) if self.at < len(self.lines) else None
        self.at += bool(found)
        return found.groups() if found else None

    def must(self, wanted: re.Pattern[str]) -> list[str]:
        """The parts of the next line, which must have a form; a part that isn't there is empty."""
        parts = self.taken(wanted)
        if parts is None:
            raise NoAnswer(repr("\n".join(self.lines[self.at:])[:MOST_SHOWN]))
        return [it or "" for it in parts]


def account_of(text: str) -> Account:
    """The account that a text is; a NoAnswer where it is none."""
    lines = AccountLines(text.split("\n")[:-1] if text.endswith("\n") else [])
    number, asked = lines.must(LINE)
    reasons = reasons_in(lines)
    answer = (lines.taken(ANSWER) or [None])[0]
    verb = asked.split(" ")[0]
    is_text = verb == "plan" or verb == "leg" and answer != "unknown"
    if lines.at < len(lines.lines) or (answer is None) != is_text:
        raise NoAnswer(repr(text[:MOST_SHOWN]))
    return Account(whole(number), asked, reasons, answer, text)


def reasons_in(lines: AccountLines) -> Reasons:
    """The reasons that the next lines tell, if they tell some."""
    if plan := lines.taken(PLAN):
        return request_in(lines, [it or "0" for it in plan])
    if booking := lines.taken(BOOKING):
        number, product, party, fare, worth, refund = [it or "" for it in booking]
        back, withheld = map(whole, lines.must(BACK))
        return CancellationAccount(whole(number), product, whole(party), whole(fare), whole(worth), whole(refund), back,
                                   withheld)
    left: list[tuple[str, int]] = []
    while found := lines.taken(LEFT):
        left.append((found[0] or "", whole(found[1] or "")))
    return Optimisation(tuple(left)) if left else None


def request_in(lines: AccountLines, plan: Sequence[str]) -> RequestAccount:
    """The request that the lines behind the one of its plan tell."""
    mode, planned, period = plan
    product, fare, refund = lines.must(PRODUCT)
    legs = [leg_in(lines)]
    while (more := next_leg_in(lines)) is not None:
        legs.append(more)
    prices: list[tuple[str, Fraction]] = []
    while found := lines.taken(PRICE):
        prices.append((found[0] or "", adjusted_of(found[1] or "")))
    fares = None
    if prices:
        total, compared, below = lines.must(SUM)
        fares = Fares(tuple(prices), adjusted_of(total), whole(compared), adjusted_of(below) if below else None)
    largest, beyond = lines.must(LARGEST)
    return RequestAccount(mode, whole(planned), whole(period), product, whole(fare), whole(refund), tuple(legs), fares,
                          whole(largest), beyond)


def next_leg_in(lines: AccountLines) -> LegAccount | None:
    """One leg more, if the next line is of one."""
    is_leg = lines.at < len(lines.lines) and lines.lines[lines.at].startswith(("leg ", "nest "))
    return leg_in(lines) if is_leg else None


def leg_in(lines: AccountLines) -> LegAccount:
    """The leg that the next lines tell of, with its nest if it has one."""
    nest, of_nest = None, lines.taken(NEST)
    if of_nest:
        _, fare, bucket, buckets, least, below = [it or "" for it in of_nest]
        nest = NestAccount(adjusted_of(fare), whole(bucket), whole(buckets), whole(least) if least else None,
                           whole(below) if below else None, enough_in(lines))
    name, *numbers, short = lines.must(LEG)
    if of_nest and of_nest[0] != name:
        raise NoAnswer(name)
    authorised, sold, left, protected, needs = map(whole, numbers)
    return LegAccount(name, authorised, sold, left, protected, needs, whole(short) if short else None, nest)


def enough_in(lines: AccountLines) -> Enough | None:
    """What protected seats come from, if the next two lines tell it."""
    told = lines.taken(ENOUGH)
    if not told:
        return None
    name, seats, buckets, mean, next_fare, histories, over = [it or "" for it in told]
    leg, demand = lines.must(DEMAND)
    if leg != name:
        raise NoAnswer(name)
    return Enough(whole(seats), whole(buckets), adjusted_of(mean), adjusted_of(next_fare), whole(histories),
                  whole(over), tuple(map(whole, demand.split(" ")[1:])))
