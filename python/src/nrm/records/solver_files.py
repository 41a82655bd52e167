"""The linear program of a network for another solver, and a certificate of what that solver found."""
from __future__ import annotations

import re
from fractions import Fraction
from typing import Iterator

from nrm import Stop, said
from nrm.network import MOST_DIGITS, Network

DIGITS = 15  # that glpsol writes of a number
WRITTEN = re.compile(r"[+-]?[0-9]{1,40}(\.[0-9]{0,40})?(e[+-]?[0-9]{1,2})?|-?[0-9]{1,40}/[1-9][0-9]{0,39}")


def legs_in(network: Network) -> dict[str, int]:
    """The legs that have a product, and so a row of the program, with their numbers in the file."""
    return {leg: number for number, leg in enumerate(network.legs, 1) if network.products_on(leg)}


def linear_program(network: Network) -> Iterator[str]:
    """The lines of the program."""
    numbers = {it: f"p{number}" for number, it in enumerate(network.products, 1)}
    count = network.histories
    yield f"\\ All {count} histories together: a history's mean value is the value divided by {count}."
    yield "maximize"
    yield " fares:"
    yield from (f"  + {it.fare} {numbers[it.name]}  \\ {it.name}" for it in network.products.values())
    yield "subject to"
    for leg, number in legs_in(network).items():
        yield f" l{number}:  \\ {leg}"
        yield from (f"  + {numbers[it.name]}" for it in network.products_on(leg))
        yield f"  <= {count * network.legs[leg].authorised}"
    yield "bounds"
    yield from (f" 0 <= {numbers[it.name]} <= {it.demand_in_all()}" for it in network.products.values())
    yield "end"


def number_in(text: str) -> Fraction:
    """The number that a solver wrote; a ValueError where it is none, or longer than any that a certificate takes."""
    if not WRITTEN.fullmatch(text):
        raise ValueError(text[:MOST_DIGITS])
    return Fraction(text)


def simplest(text: str) -> Fraction:
    """The simplest fraction that a decimal of 15 digits stands for."""
    number = number_in(text)
    behind_the_point = max(DIGITS - len(str(abs(int(number)))), 0)
    return number.limit_denominator(10 ** (behind_the_point // 2))


class Solution:
    """The value, the seats of each product and the price of each leg, as a solver wrote them."""

    def __init__(self, network: Network, text: str) -> None:
        self.legs, self.products = legs_in(network), list(network.products)
        self.value, seats, prices = (self.of_esolver if "\nVARS:\n" in text else self.of_glpsol)(text)
        self.seats, self.price = dict(zip(self.products, seats)), dict(zip(self.legs, prices))

    @classmethod
    def of(cls, network: Network, path: str, text: str) -> Solution:
        """The solution that a file at a path has, whose text is given."""
        try:
            return cls(network, text)
        except (ValueError, IndexError, ZeroDivisionError):
            raise Stop(f"{said(path)} has a line that neither `glpsol -w` nor `esolver -O` writes")

    def is_none(self) -> Stop:
        """A Stop for a file that is no solution of the program."""
        return Stop("the solution isn't an optimal one, as `glpsol -w` or `esolver -O` writes it, "
                    f"of a program with {len(self.legs)} legs and {len(self.products)} products; "
                    "--interior and integer programs give none that is exact")

    def of_glpsol(self, text: str) -> tuple[Fraction, list[Fraction], list[Fraction]]:
        """The numbers that `glpsol -w` wrote: those of rows and columns in their order."""
        found: dict[str, list[list[str]]] = {"s": [], "i": [], "j": []}
        for words in map(str.split, text.splitlines()):
            if words[0:1] != ["c"]:
                found.setdefault(words[0] if words else "", []).append(words[1:])
        if [it[:5] for it in found["s"]] != [["bas", str(len(self.legs)), str(len(self.products)), "f", "f"]]:
            raise self.is_none()
        seats, prices = [simplest(it[2]) for it in found["j"]], [simplest(it[3]) for it in found["i"]]
        return number_in(found["s"][0][5]), seats, prices

    def of_esolver(self, text: str) -> tuple[Fraction, list[Fraction], list[Fraction]]:
        """The numbers that `esolver -O` wrote: under each title those that aren't 0, by their names."""
        head, *parts = re.split(r"^([A-Z ]+):\n", text, flags=re.M)
        under: dict[str, dict[str, str]] = {}
        for title, part in zip(parts[::2], parts[1::2]):
            under[title] = dict(re.findall(r"^(\w+) = (.*)$", part, re.M))
        seats = dict.fromkeys([f"p{number}" for number, _ in enumerate(self.products, 1)], "0")
        prices = dict.fromkeys([f"l{number}" for number in self.legs.values()], "0")
        value = re.search(r"^status OPTIMAL\n\s*Value = (\S+)$", head, re.M)
        if not value or not (under["VARS"].keys() <= seats.keys() and under.get("PI", {}).keys() <= prices.keys()):
            raise self.is_none()
        seats.update(under["VARS"])
        prices.update(under.get("PI", {}))
        return number_in(value[1]), [*map(number_in, seats.values())], [*map(number_in, prices.values())]


def certificate(network: Network, solution: Solution) -> Iterator[str]:
    """The lines of the certificate of a solution."""
    value = sum((it.fare * solution.seats[it.name] for it in network.products.values()), Fraction(0))
    if abs(value - solution.value) > Fraction(1, 10**9) * max(Fraction(1), value):
        raise Stop(f"the seats bring {float(value)} at the fares, and the solver has the value "
                   f"{float(solution.value)}: it is the solution of another network, "
                   "or it has too few decimals to say which fractions they stand for")
    yield f"value {written(value / network.histories)}"
    yield from (f"product {it} {written(seats / network.histories)}" for it, seats in solution.seats.items())
    yield from (f"leg {leg} {written(solution.price.get(leg, Fraction(0)))}" for leg in network.legs)


def written(number: Fraction) -> str:
    """A fraction as a certificate has it."""
    if max(abs(number.numerator), number.denominator) >= 10**MOST_DIGITS:
        raise Stop(f"the solution has fractions of more than {MOST_DIGITS} digits, which no certificate takes")
    return f"{number.numerator}/{number.denominator}"
