"""Bid prices averaged over the histories: each history's linear program by itself, solved by `nrm plan bid`.

It is randomised linear programming (Talluri and van Ryzin, chapter 3), with the histories in the place of random draws.
"""
from __future__ import annotations

import contextlib
import dataclasses
import os
from fractions import Fraction
from typing import ContextManager, Mapping, Sequence

from nrm import Stop, said
from nrm.network import Network, Product, text_of
from nrm.program import Program
from nrm.replies import plan_of

AVERAGED = "averaged"  # what selling by them is called beside the modes
Prices = Mapping[str, Fraction]  # by leg
Left = Mapping[str, int]  # seats by leg


def to_come(network: Network, history: int, period: int, left: Left) -> Network:
    """A network whose only history is one of a network's, from a period on, with so many seats left to sell."""
    def of_product(it: Product) -> Product:
        seats = it.demand.get(history, (0,) * network.periods)
        return dataclasses.replace(it, demand={1: (*(0,) * (period - 1), *seats[period - 1:])})

    legs = {name: dataclasses.replace(it, authorised=left[name], thresholds=()) for name, it in network.legs.items()}
    products = {name: of_product(it) for name, it in network.products.items()}
    return dataclasses.replace(network, version=2, histories=1, legs=legs, products=products)


def mean_of(prices: Sequence[Prices]) -> dict[str, Fraction]:
    """The mean price of each leg."""
    return {leg: sum((it[leg] for it in prices), Fraction(0)) / len(prices) for leg in prices[0]}


class Averaged:
    """The prices of the histories of a network, each by itself; files are written into a folder. A clock counts the
    time in the program."""

    def __init__(self, network: Network, program: Program, folder: str,
                 clock: ContextManager[object] | None = None) -> None:
        self.network, self.program, self.folder = network, program, folder
        self.clock = clock or contextlib.nullcontext()
        self.full = {name: it.authorised for name, it in network.legs.items()}
        self.opening: dict[int, Prices] = {}

    def of_history(self, history: int, period: int, left: Left) -> Prices:
        """The bid prices of a history by itself."""
        is_opening = period == 1 and left == self.full
        if is_opening and history in self.opening:
            return self.opening[history]
        path = self.written("to-come.csv", history, period, left)
        with self.clock:
            prices = self.program.told(plan_of, "plan", "bid", path).prices
        if is_opening:
            self.opening[history] = prices
        return prices

    def of(self, period: int, left: Left, without: int | None = None) -> dict[str, Fraction]:
        """The mean of the histories' prices, without one of them if it is named."""
        histories = [it for it in range(1, self.network.histories + 1) if it != without]
        return mean_of([self.of_history(it, period, left) for it in histories])

    def written(self, name: str, history: int, period: int, left: Left) -> str:
        """The path of the file of a history by itself, which is written."""
        path = os.path.join(self.folder, name)
        with open(path, "w", encoding="ascii") as file:
            file.write(text_of(to_come(self.network, history, period, left).rows()))
        return path

    def certified(self, history: int) -> tuple[str, str]:
        """The paths of a history's file and of its certificate, at the opening, which `nrm check` finds optimal."""
        path = self.written(f"history-{history}.csv", history, 1, self.full)
        certificate = os.path.join(self.folder, f"history-{history}.txt")
        with open(certificate, "w", encoding="ascii") as file:
            file.write("".join(f"{it}\n" for it in self.program.lines("plan", "bid", path)))
        told = self.program.lines("check", path, certificate)
        if told != ["optimal"]:
            raise Stop(f"{said(certificate)} isn't optimal for {path}: {' '.join(told)}")
        return path, certificate
