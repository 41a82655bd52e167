"""How busy departures are: strengths about 1, gamma numbers of a size, which is estimated from what was booked.

Bookings that are Poisson's about a mean times a gamma number of mean 1 and size k are negative binomial, with a
variance of the mean and its square over k. Given the bookings, that gamma number's mean is (k + bookings) / (k +
mean).
"""
from __future__ import annotations

import math
from typing import Callable, Sequence

LARGEST_SIZE = 5000.0  # above it strengths are all 1
NEAR_LOGARITHM = 1e-4
GOLDEN = (math.sqrt(5) - 1) / 2


def about_one(size: float, booked: Sequence[float], means: Sequence[float]) -> list[float]:
    """The strength of each of some departures by what was booked and what was to be expected, over their mean, so that
    rates stay those of a departure on the mean."""
    if size == math.inf:
        return [1.0 for _ in booked]
    strengths = [(size + seats) / (size + mean) for seats, mean in zip(booked, means)]
    middle = sum(strengths) / len(strengths)
    return [it / middle for it in strengths]


def likeliest_size(booked: Sequence[int], means: Sequence[float]) -> float:
    """The size that makes what was booked as likely as can be; infinite where strengths that are all 1 are as
    likely."""
    pairs = [(seats, mean) for seats, mean in zip(booked, means) if mean > 0]
    if len(pairs) < 2:
        return math.inf

    def unlikely(logarithm: float) -> float:
        k = math.exp(logarithm)
        return -sum(math.lgamma(k + seats) - math.lgamma(k) + k * math.log(k / (k + mean))
                    + seats * math.log(mean / (k + mean)) for seats, mean in pairs)

    size = math.exp(least_place(unlikely, 0.0, math.log(2 * LARGEST_SIZE)))
    return math.inf if size > LARGEST_SIZE else size


def size_by_moments(booked: Sequence[Sequence[int]], means: Sequence[Sequence[float]]) -> float:
    """The size, common to all products, by how far the bookings of each in each departure stray from their means: the
    sum of the squares of the means over what the squares of the differences exceed the means by. As many departures as
    there are rates of a product are fewer by one."""
    pairs = [pair for row in zip(booked, means) for pair in zip(*row)]
    more = sum((seats - mean) ** 2 - mean for seats, mean in pairs)
    squares = sum(mean ** 2 for _, mean in pairs) * (1 - 1 / len(booked[0]))
    return squares / more if more * LARGEST_SIZE > squares > 0 else math.inf


def least_place(of: Callable[[float], float], low: float, high: float) -> float:
    """Where a function with one valley between two numbers is least, by golden sections."""
    while high - low > NEAR_LOGARITHM:
        a, b = high - GOLDEN * (high - low), low + GOLDEN * (high - low)
        low, high = (low, b) if of(a) <= of(b) else (a, high)
    return (low + high) / 2
