"""What is sold, as an export shows it: the legs with their seats, and the products with their mean fares and legs."""
from __future__ import annotations

import csv
import io
from collections import defaultdict
from dataclasses import dataclass
from decimal import ROUND_HALF_UP, Decimal
from typing import Callable, Iterable, Iterator, Mapping, Sequence

from nrm import Stop, said
from nrm.legs.joined_legs import JOINED_AT
from nrm.limits import MOST_FARE, MOST_LEGS, MOST_LEGS_OF_A_PRODUCT, MOST_PRODUCTS, MOST_SEATS
from nrm.network import is_whole
from nrm.records.export_bookings import Booking
from nrm.records.export_codes import Names, Parts
from nrm.records.export_trains import TrainLeg, TrainLines
from nrm.records.fitting_names import fitting, free_name
from nrm.records.log_rows import SEPARATORS, some_of, text_in

CENTS = 100


@dataclass(frozen=True)
class OfferedProduct:
    """A product: its text, the parts of its name, and its legs."""
    text: str
    parts: Parts
    legs: tuple[TrainLeg, ...]


class Offer:
    """The legs and products of an export, by their texts."""

    def __init__(self, bookings: Sequence[Booking], lines: TrainLines) -> None:
        self.legs = {it.text: it for it in lines.legs()}
        self.products: dict[str, OfferedProduct] = {}
        for it in bookings:
            text = it.request.product
            if text not in self.products:
                parts = Parts(it.train, it.stops[0], it.stops[-1], it.fare_class)
                self.products[text] = OfferedProduct(text, parts, tuple(lines.legs_of(it.train, it.stops)))
        self.see_limits()

    def see_limits(self) -> None:
        """A Stop where this is more than a network file takes."""
        longest = max(self.products.values(), key=lambda it: len(it.legs))
        too_long = sum(len(it.legs) > MOST_LEGS_OF_A_PRODUCT for it in self.products.values())
        found = [f"{len(self.legs)} legs, and it takes {MOST_LEGS}"] if len(self.legs) > MOST_LEGS else []
        if len(self.products) > MOST_PRODUCTS:
            found.append(f"{len(self.products)} products, and it takes {MOST_PRODUCTS}")
        if too_long:
            found.append(f"{too_long} products of more than {MOST_LEGS_OF_A_PRODUCT} legs, such as {longest.text!r} of "
                         f"{len(longest.legs)}")
        if found:
            several = len({it.parts.train for it in self.products.values()}) > 1
            alone = ("Take each train alone, --only COLUMN TEXT..: where no product joins two trains, a file for each "
                     "costs nothing. Or join" if several else "Join")
            raise Stop(f"the export is more than a network file takes: {'; '.join(found)}. {alone} the legs at stops "
                       "that few use, --join STOP.., or leave products out, --without COLUMN TEXT..")

    def named(self, known: Mapping[str, str]) -> dict[str, str]:
        """A name for each leg and product: the one that is known, or one that its parts make."""
        parts = {text: Parts(it.train, it.first, it.last, "") for text, it in self.legs.items()}
        parts.update((text, it.parts) for text, it in self.products.items())
        made, names = Names(list(parts.values())), dict(known)
        for leg in self.legs.values():
            if earlier := next((it for it in known if it == leg.text or it.startswith(leg.text + JOINED_AT)), None):
                names[leg.text] = names.pop(earlier)
        for text, it in parts.items():
            if text not in names:
                names[text] = free_name(made.name(it) or fitting(text), set(names.values()))
        return names

    def listed(self, names: Mapping[str, str]) -> dict[str, str]:
        """The names as a list has them: by what they stand for, of a leg with the stops at which it was joined."""
        return {self.legs[text].listed if text in self.legs else text: name for text, name in names.items()}

    def rows(self, names: Mapping[str, str], seats: Mapping[str, int],
             fares: Mapping[str, int]) -> Iterator[list[object]]:
        """The rows of the legs and products of a network file."""
        yield from (["leg", names[it], seats[it]] for it in self.legs)
        for text, it in sorted(self.products.items(), key=lambda item: names[item[0]]):
            yield ["product", names[text], fares[text], *[names[leg.text] for leg in it.legs]]


# Fares


@dataclass
class Sums:
    """What the seats of a product cost together, and how many they are: those that stand, and those that were
    cancelled."""
    standing: Decimal = Decimal(0)
    seats: int = 0
    cancelled: Decimal = Decimal(0)
    seats_cancelled: int = 0

    def add(self, it: Booking) -> None:
        """Adds a booking that has a fare."""
        if it.fare is not None:
            self.standing += it.fare * it.seats_standing
            self.seats += it.seats_standing
            self.cancelled += it.fare * it.seats_cancelled
            self.seats_cancelled += it.seats_cancelled

    def mean(self, product: str) -> Decimal:
        """The mean of those that stand, or of those that were cancelled where none does."""
        if not self.seats and not self.seats_cancelled:
            raise Stop(f"no booking of {product!r} has a fare")
        return self.standing / self.seats if self.seats else self.cancelled / self.seats_cancelled


def fares_of(bookings: Iterable[Booking], in_cents: bool, tell: Callable[[str], None]) -> dict[str, int]:
    """The fare of each product: its mean, rounded to the nearest whole number."""
    sums: dict[str, Sums] = defaultdict(Sums)
    for it in bookings:
        sums[it.request.product].add(it)
    fares = {}
    for product, of_product in sums.items():
        mean = of_product.mean(product)
        fares[product] = int((mean * (CENTS if in_cents else 1)).to_integral_value(ROUND_HALF_UP))
        if not 1 <= fares[product] <= MOST_FARE:
            raise Stop(f"the mean fare of {product!r} is {mean:.2f}, and a network file takes 1 to {MOST_FARE}"
                       f"{'' if in_cents else '; with --cents fares are in cents'}")
    if fallen := [product for product, it in sums.items() if not it.seats]:
        tell(f"products of which no booking stands, whose fares are those of cancelled bookings: {len(fallen)}, "
             f"{some_of(fallen)}")
    return fares


def with_fares(rows: Iterable[Sequence[object]], fares: Mapping[str, int]) -> list[Sequence[object]]:
    """The rows of a network with the fares of some products, by their names, in the place of theirs."""
    return [[*row[:2], fares[str(row[1])], *row[3:]] if row[0] == "product" and row[1] in fares else row
            for row in rows]


# Seats


def seats_in(path: str) -> dict[str, tuple[int, int]]:
    """The seats of trains or legs that a file says, by their text, each with its line."""
    text = text_in(path)
    first = next((it for it in text.splitlines() if it.strip()), "")
    separator = next((it for it in SEPARATORS if it in first), ",")
    found: dict[str, tuple[int, int]] = {}
    reader = csv.reader(io.StringIO(text, newline=""), delimiter=separator)
    for at, fields in enumerate(reader):
        what, *numbers = [it.strip() for it in fields] or [""]
        if at == 0 and not any(map(is_whole, numbers)) or not any([what, *numbers]):
            continue
        if len(numbers) != 1 or not is_whole(numbers[0]) or int(numbers[0]) > MOST_SEATS or what in found:
            raise Stop(f"{said(path)}: line {reader.line_num} must have a train or a leg of its own and its seats, "
                       f"0 to {MOST_SEATS}")
        found[what] = int(numbers[0]), reader.line_num
    return found


def seats_of(path: str, offer: Offer, names: Mapping[str, str], tell: Callable[[str], None]) -> dict[str, int]:
    """The seats of each leg, by its text, its name, its stops or its train in the file at a path."""
    there, used, seats, missing = seats_in(path), set(), {}, []
    for text, leg in offer.legs.items():
        ways = (text, names[text], f"{leg.first}-{leg.last}", f"{leg.first} - {leg.last}", leg.train)
        key = next((it for it in ways if it in there), None)
        if key is None:
            missing.append(text)
        else:
            seats[text] = there[key][0]
            used.add(key)
    if missing:
        raise Stop(f"{said(path)} has no seats for {some_of(missing)}: add a row for each, with its train or leg and "
                   "the number")
    if idle := [f"{it!r} in line {line}" for it, (_, line) in there.items() if it not in used]:
        tell(f"the export has no leg {some_of(idle)} of {said(path)}")
    return seats
