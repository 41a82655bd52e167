"""Adjusted fares, buckets and protected seats, worked out again from a network, the prices of a plan and its period.

It is the rule of docs/nesting.md as it stands there, in exact fractions, and asks nobody.
"""
from __future__ import annotations

from dataclasses import dataclass
from fractions import Fraction
from typing import Mapping, Sequence

from nrm.network import Network, Product


@dataclass(frozen=True)
class Rule:
    """A network, bid prices, and the period from which demand is to come."""
    network: Network
    prices: Mapping[str, Fraction]
    period: int

    def adjusted(self, product: Product, leg: str) -> Fraction:
        """What a product brings on a leg: its fare less the prices of its other legs."""
        return product.fare - sum((self.prices[it] for it in product.legs if it != leg), Fraction(0))

    def bucket(self, product: Product, leg: str) -> int:
        """1, and one more for each threshold that is greater than the adjusted fare."""
        fare = self.adjusted(product, leg)
        return 1 + len([it for it in self.network.legs[leg].thresholds if it > fare])

    def in_buckets(self, leg: str, first: int, last: int) -> list[Product]:
        """The products on a leg in some of its buckets."""
        return [it for it in self.network.products_on(leg) if first <= self.bucket(it, leg) <= last]

    def demand(self, products: Sequence[Product]) -> list[int]:
        """The demand to come for some products together, history by history."""
        histories = range(1, self.network.histories + 1)
        return [sum(sum(it.demand.get(history, ())[self.period - 1:]) for it in products) for history in histories]

    def mean(self, leg: str, first: int, last: int) -> Fraction | None:
        """The mean of the adjusted fares in some buckets, each as often as there is demand; None without any."""
        products = self.in_buckets(leg, first, last)
        weights = [sum(self.demand([it])) for it in products]
        if not sum(weights):
            return None
        earned = sum((self.adjusted(it, leg) * weight for it, weight in zip(products, weights)), Fraction(0))
        return earned / sum(weights)

    def next_fare(self, leg: str, bucket: int) -> Fraction:
        """The fare of one bucket."""
        thresholds, mean = self.network.legs[leg].thresholds, self.mean(leg, bucket, bucket)
        if bucket <= len(thresholds):
            return Fraction(thresholds[bucket - 1]) if mean is None else mean
        return max(mean or Fraction(0), Fraction(0))

    def suffices(self, leg: str, buckets: int, seats: int) -> bool:
        """Whether so many seats are enough for the first buckets, by the fares alone."""
        mean = self.mean(leg, 1, buckets)
        over = [it for it in self.demand(self.in_buckets(leg, 1, buckets)) if it > seats]
        return mean is None or len(over) * mean <= self.network.histories * self.next_fare(leg, buckets + 1)

    def seats_for(self, leg: str, buckets: int) -> int:
        """The least number of seats that is enough for the first buckets, or all that are authorised."""
        authorised = self.network.legs[leg].authorised
        return next((it for it in range(authorised) if self.suffices(leg, buckets, it)), authorised)

    def protected(self, leg: str, bucket: int) -> int:
        """The seats that are protected from a bucket: the most that are wanted for some first buckets above it."""
        return max((self.seats_for(leg, it) for it in range(1, bucket)), default=0)
