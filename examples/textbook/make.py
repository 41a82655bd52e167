#!/usr/bin/env python3
"""Makes the networks of the textbook's example: one leg and four classes (Talluri and van Ryzin, chapter 2).

    examples/textbook/make.py first > examples/textbook/first.csv
    examples/textbook/make.py second > examples/textbook/second.csv

The two have other fares and the same demand, which is normal in each class. A network file has histories in the place
of a distribution: here 32, in which a class has its quantiles at 1/64, 3/64, .. 63/64, each once, rounded to whole
seats and not below 0.

WHICH HISTORY HAS WHICH. EMSR-b reads the sums of the classes history by history, and the dynamic program takes each
class for itself, as independent of the others. So that the two are asked nearly the same, the classes are shuffled
against each other: in history h the first class has quantile number h, the second 5h, the third 25h and the fourth
125h, each modulo 33. So each class has every quantile once, since 5 and 33 have no common divisor. With 5 the greatest
rank correlation of two classes is 0.13 in size; no number in its place gives less, and no smaller one as little.
"""
import sys
from statistics import NormalDist

HISTORIES, SEATS, FACTOR = 32, 120, 5
FARES = {"first": [1050, 567, 534, 520], "second": [1050, 950, 699, 520]}
DEMAND = [NormalDist(17.3, 5.8), NormalDist(45.1, 15.0), NormalDist(39.6, 13.2), NormalDist(34.0, 11.3)]


def quantile_number(at, history):
    """Which quantile the class at a place has in a history, both from 1 to 32."""
    return FACTOR**at * history % (HISTORIES + 1)


def rows(fares):
    """The rows of the network file: a threshold lies in the middle between each two fares."""
    thresholds = [(high + low + 1) // 2 for high, low in zip(fares, fares[1:])]
    yield ["periods", HISTORIES, 1, 2]
    yield ["leg", "AB", SEATS, SEATS, *thresholds]
    yield from (["product", f"C{at}", fare, "AB"] for at, fare in enumerate(fares, 1))
    for at, demand in enumerate(DEMAND):
        for history in range(1, HISTORIES + 1):
            number = quantile_number(at, history)
            yield ["demand", f"C{at + 1}", history, max(0, round(demand.inv_cdf((number - 0.5) / HISTORIES)))]


def main():
    if len(sys.argv) != 2 or sys.argv[1] not in FARES:
        sys.exit("usage: examples/textbook/make.py first|second")
    for row in rows(FARES[sys.argv[1]]):
        print(*row, sep=",")


if __name__ == "__main__":
    main()
