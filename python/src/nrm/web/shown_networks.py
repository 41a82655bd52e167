"""A network as the page shows it: rows of its tables, and its sentence. All is text and whole numbers."""
from __future__ import annotations

from dataclasses import dataclass
from typing import NamedTuple

from nrm.web.followed_journal import Followed
from nrm.web.network_counts import JournalRow, ProductSeen
from nrm.web.page_words import WIDE, amount, bars, curve, time_of, why_of
from nrm.web.priced_networks import PricedNetwork


class NetworkRow(NamedTuple):
    """A network in the table of all."""
    name: str
    mode: str
    lines: int
    minute: int  # requests in this minute
    hour: int
    sold: int
    seats: int
    state: str


class LegRow(NamedTuple):
    """A leg in its table, with the width of its bar and the points of its prices over time."""
    name: str
    authorised: int
    sold: int
    left: int
    bar: int
    price: str
    exact: str
    points: str


class RefusalRow(NamedTuple):
    """A refused line."""
    number: int
    at: str
    desk: str
    line: str
    why: str


@dataclass(frozen=True)
class ShownNetwork:
    """A network's page."""
    network: Followed
    sentence: str
    legs: tuple[LegRow, ...]
    products: tuple[ProductSeen, ...]
    refusals: tuple[RefusalRow, ...]
    money: tuple[tuple[str, str], ...]
    minutes: tuple[tuple[int, int, int], ...]
    hour: int
    most: int
    note: str | None


def row_of(it: Followed, now: int) -> NetworkRow:
    """A network in the table of all, at a time in milliseconds."""
    minutes = it.seen.a_minute(now)
    return NetworkRow(it.name, it.mode, it.lines, minutes[-1], sum(minutes), it.seen.sold, it.seen.authorised, it.state)


def view_of(it: Followed, look: PricedNetwork, now: int) -> ShownNetwork:
    """A network's page, at a time in milliseconds."""
    minutes = it.seen.a_minute(now)
    return ShownNetwork(it, sentence_of(it), tuple(leg_rows(it, look)), it.seen.products,
                       tuple(map(refusal_row, it.seen.refusals)), tuple(money_of(it, look)), tuple(bars(minutes)),
                       sum(minutes), max(minutes), look.why)


def sentence_of(it: Followed) -> str:
    """What is to be said of a network first."""
    seen = it.seen
    read = "" if it.fault or seen.lines >= it.lines else f" {seen.lines} of them are read so far."
    is_one = it.halted or it.is_ended or it.is_frozen
    state = "" if it.state == "open" else f" It is {it.state}." if is_one else f" {it.fault}."
    return (f"{seen.sold} of {seen.authorised} seats are sold, over all legs, by {it.lines} lines, and the bookings "
            f"that stand earn {amount(seen.revenue)}.{read}{state}")


def leg_rows(it: Followed, look: PricedNetwork) -> list[LegRow]:
    """The rows of the legs."""
    rows: list[LegRow] = []
    for leg in it.seen.legs:
        price = look.prices.get(leg.name)
        points = curve([them.prices[leg.name] for them in look.priced if leg.name in them.prices])
        rows.append(LegRow(leg.name, leg.authorised, leg.sold, leg.left,
                           WIDE * leg.left // leg.authorised if leg.authorised else 0,
                           "" if price is None else amount(price), "" if price is None else str(price), points))
    return rows


def refusal_row(row: JournalRow) -> RefusalRow:
    """A refused line."""
    return RefusalRow(row.number, time_of(row.at), row.desk, row.line, why_of(row))


def money_of(it: Followed, look: PricedNetwork) -> list[tuple[str, str]]:
    """What was earned, retained, and could have been earned."""
    bound = look.bound
    rows = [("Revenue of the bookings that stand", amount(it.seen.revenue)),
            ("Withheld of those that were cancelled", amount(it.seen.withheld))]
    if bound:
        then = f", when the revenue was {amount(bound.revenue)}" if bound.revenue != it.seen.revenue else ""
        rows.append(("Bound of hindsight", f"{amount(bound.bound)}{then}"))
    return rows
