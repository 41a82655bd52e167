"""The network file of both versions: its rows with their lines, the network that they make, and rows as text.

It sees what a network needs to be one. That a file is within all its limits is for `nrm print` to say, and what is
wrong with it for `nrm.records.network_faults`. Numbers are refused by their length first, since Python makes none of
more than 4,300 digits, and fails at one.
"""
from __future__ import annotations

import dataclasses
import re
from dataclasses import dataclass, field
from fractions import Fraction
from functools import cached_property
from typing import Iterable, Iterator, Mapping, Sequence

from nrm import Stop, bytes_in, said
from nrm.limits import MOST_DEMAND

NAME = re.compile(r"[A-Z0-9-]{1,12}")
WHOLE = re.compile(r"0|[1-9][0-9]*")
MOST_DIGITS = 40  # of a number that is read: what the program takes or writes has fewer
FIELD = re.compile(rb'"((?:[^"]+|"")*)"?([^,\r\n]*)|([^,\r\n]*)')
BLANK_LINES = re.compile(rb"[\r\n]*")
BYTE_ORDER_MARK = b"\xef\xbb\xbf"
ALL_OF_IT = 100  # the refund percentage where no row says it


# Numbers


def is_whole(text: str) -> bool:
    """Whether a text is a whole number, and no longer than any may be."""
    return len(text) <= MOST_DIGITS and WHOLE.fullmatch(text) is not None


def whole(text: str) -> int:
    """The whole number that a text says."""
    if not is_whole(text):
        raise ValueError(text[:MOST_DIGITS])
    return int(text)


def number(text: str) -> int:
    """The number that a text says, be there blanks, a sign or a 0 before it."""
    if len(text) > MOST_DIGITS:
        raise ValueError(text[:MOST_DIGITS])
    return int(text)


def fraction(text: str) -> Fraction:
    """The fraction that a text says: two whole numbers, of which the second isn't 0."""
    numerator, _, denominator = text.partition("/")
    if denominator == "0":
        raise ValueError(text[:MOST_DIGITS])
    return Fraction(whole(numerator), whole(denominator))


# Rows


@dataclass(frozen=True)
class Row:
    """A record of a network file: its number, the line of the file that it begins in, and its fields as text."""
    number: int
    line: int
    fields: list[str]


def rows_of(data: bytes) -> Iterator[Row]:
    """The rows of a network file's bytes: the records that the crate `csv` reads, blank lines left out."""
    at, line, number = 3 if data.startswith(BYTE_ORDER_MARK) else 0, 1, 0
    while True:
        start = behind_blank_lines(data, at)
        line += line_ends(data, at, start)
        if start == len(data):
            return
        fields, at = record_at(data, start)
        number += 1
        yield Row(number, line, [it.decode("utf-8", "backslashreplace") for it in fields])
        line += line_ends(data, start, at)


def behind_blank_lines(data: bytes, at: int) -> int:
    """Where the next record begins, from the end of one."""
    found = BLANK_LINES.match(data, at)
    return found.end() if found else at


def line_ends(data: bytes, start: int, stop: int) -> int:
    """How many lines end between two places, in a line feed, a carriage return, or one and the other."""
    return data.count(b"\n", start, stop) + data.count(b"\r", start, stop) - data.count(b"\r\n", start, stop)


def record_at(data: bytes, at: int) -> tuple[list[bytes], int]:
    """The fields of the record that begins at a byte, and where it ends."""
    fields: list[bytes] = []
    while True:
        found = FIELD.match(data, at)
        assert found, "the last form of a field may be empty"
        quoted, behind, plain = found.groups()
        fields.append(plain if quoted is None else quoted.replace(b'""', b'"') + behind)
        at = found.end()
        if data[at:at + 1] != b",":
            return fields, at
        at += 1


def fields_in(path: str) -> list[list[str]]:
    """The fields of each row of the network file at a path."""
    return [row.fields for row in rows_of(bytes_in(path))]


def text_of(rows: Iterable[Sequence[object]]) -> str:
    """The text of a network file with these rows, each a list of fields."""
    return "".join(",".join(map(str, fields)) + "\n" for fields in rows)


def demand_row(name: str, history: int, seats: Sequence[int], what: str) -> list[list[object]]:
    """The row of demand of a product in a history, and none where nothing was asked for. A Stop says what it is, if it
    is more than a row takes."""
    if sum(seats) > MOST_DEMAND:
        raise Stop(f"{what}, and a row of demand takes {MOST_DEMAND}: make two products of it, such as one for each "
                   "class of its fares")
    return [["demand", name, history, *seats]] if any(seats) else []


def with_thresholds(rows: Sequence[Sequence[object]],
                    thresholds: Mapping[str, Sequence[int]]) -> Iterator[Sequence[object]]:
    """The rows of a network, with other thresholds of the legs that have some given."""
    before = len(rows[0])  # as many fields as the row of periods has: 3 in version 1 and 4 in version 2
    for row in rows:
        yield [*row[:before], *thresholds[str(row[1])]] if row[0] == "leg" and row[1] in thresholds else row


# The network


@dataclass(frozen=True)
class Leg:
    """A leg: its physical seats, the authorised ones, which in version 1 are as many, and its thresholds, falling."""
    name: str
    seats: int
    authorised: int
    thresholds: tuple[int, ...] = ()

    def seats_in_words(self) -> str:
        """How many seats it has, and how many are authorised if these aren't as many."""
        return f"{self.seats} seats{'' if self.authorised == self.seats else f', {self.authorised} authorised'}"


@dataclass(frozen=True)
class Product:
    """A product: its fare and its legs, the percentage of the fare that a cancellation gives back, and by the number of
    the history the seats asked for in each period."""
    name: str
    fare: int
    legs: tuple[str, ...]
    refund: int = ALL_OF_IT
    demand: dict[int, tuple[int, ...]] = field(default_factory=dict)

    def demand_in_all(self) -> int:
        """The seats that were asked for, in all histories and periods together."""
        return sum(sum(seats) for seats in self.demand.values())

    def demand_in(self, history: int) -> int:
        """The seats that were asked for in a history."""
        return sum(self.demand.get(history, ()))


@dataclass(frozen=True)
class Network:
    """What a network file says: its version, the numbers of histories and periods, the legs and products by name."""
    version: int
    histories: int
    periods: int
    legs: dict[str, Leg]
    products: dict[str, Product]

    @classmethod
    def read(cls, path: str) -> Network:
        """The network of the file at a path."""
        try:
            return cls.of(rows_of(bytes_in(path)))
        except (ValueError, LookupError):
            raise Stop(f"{said(path)} is refused: `nrm-tools explain {said(path)}` says which rows, why, and how to "
                       "mend them")

    @classmethod
    def of(cls, rows: Iterable[Row]) -> Network:
        """The network of rows; a ValueError or a LookupError where they make none."""
        reading = Reading()
        for row in rows:
            kind, name, *rest = row.fields
            reading.take(kind, name, rest)
        if not (reading.histories and reading.legs and reading.products):
            raise ValueError("a network must have histories, legs and products")
        return cls(reading.version, reading.histories, reading.periods, reading.legs, reading.products)

    def rows(self, legs: Iterable[str] | None = None, products: Sequence[str] | None = None) -> Iterator[list[object]]:
        """The rows of a network file of the same version with these legs and products, or with all."""
        sold = [self.products[it] for it in (self.products if products is None else products)]
        is_second = self.version == 2
        yield ["periods", self.histories, self.periods, *([2] if is_second else [])]
        for it in [self.legs[it] for it in (self.legs if legs is None else legs)]:
            yield ["leg", it.name, it.seats, *([it.authorised] if is_second else []), *it.thresholds]
        yield from (["product", it.name, it.fare, *it.legs] for it in sold)
        yield from (["refund", it.name, it.refund] for it in sold if it.refund != ALL_OF_IT)
        yield from (["demand", it.name, history, *seats] for it in sold for history, seats in sorted(it.demand.items()))

    def without(self, history: int) -> Network:
        """The network without a history; those behind it move up."""
        products = {}
        for name, it in self.products.items():
            demand = {number - (number > history): seats for number, seats in it.demand.items() if number != history}
            products[name] = dataclasses.replace(it, demand=demand)
        return dataclasses.replace(self, histories=self.histories - 1, products=products)

    def products_on(self, leg: str) -> list[Product]:
        """The products that use a leg."""
        return [it for it in self.products.values() if leg in it.legs]

    @cached_property
    def mean_demand(self) -> dict[str, list[float]]:
        """The mean of the histories: of each product, the seats asked for in each period."""
        none = (0,) * self.periods
        return {name: [sum(seats) / self.histories for seats in zip(none, *it.demand.values())]
                for name, it in self.products.items()}


class Reading:
    """The rows of a network file as they are taken, one after the other."""

    def __init__(self) -> None:
        self.version = self.histories = self.periods = 0
        self.legs: dict[str, Leg] = {}
        self.products: dict[str, Product] = {}

    def take(self, kind: str, name: str, rest: list[str]) -> None:
        """Takes a row: its kind, the field behind it and the rest."""
        if (kind == "periods") == bool(self.version):
            raise ValueError("the row of periods comes first, and once")
        if kind == "periods":
            if rest[1:] not in ([], ["2"]):
                raise ValueError("a version must be 2, or be left out")
            self.histories, self.periods, self.version = whole(name), whole(rest[0]), len(rest)
        elif not NAME.fullmatch(name):
            raise ValueError(name)
        elif kind == "product":
            fare, legs = whole(rest[0]), tuple(rest[1:])
            if name in self.products or not legs or not self.legs.keys() >= set(legs):
                raise ValueError(name)
            self.products[name] = Product(name, fare, legs)
        else:
            self.take_numbers(kind, name, tuple(map(whole, rest)))

    def take_numbers(self, kind: str, name: str, numbers: tuple[int, ...]) -> None:
        """Takes a row whose fields behind the name are numbers."""
        if kind == "leg" and name not in self.legs:
            before = 2 if self.version == 2 else 1  # its seats, and the authorised ones where they are said
            self.legs[name] = Leg(name, numbers[0], numbers[before - 1], numbers[before:])
        elif kind == "refund" and self.version == 2:
            [refund] = numbers
            self.products[name] = dataclasses.replace(self.products[name], refund=refund)
        elif kind == "demand" and len(numbers) == 1 + self.periods:
            self.products[name].demand[numbers[0]] = numbers[1:]
        else:
            raise ValueError(kind)
