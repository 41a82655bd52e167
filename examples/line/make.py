#!/usr/bin/env python3
"""Makes timetables that are too large for a network file, and one train in three ways.

    examples/line/make.py trains > mine/trains.csv
    examples/line/make.py line > mine/line.csv
    examples/line/make.py whole > mine/whole.csv
    examples/line/make.py joined > mine/joined.csv
    examples/line/make.py through SEATS > mine/through.csv

trains: 16 trains of one day over the 6 legs of a line. Each has a product in two fare classes for each journey over one
to four legs. At the fourth stop of each train but the last some change to the next one, in the cheaper class, for a
journey of two legs: these products join all trains.

line: one train over 96 legs, with a product for each journey over one to four legs.

whole: one train over 6 legs, with a product for each journey over one to six legs; so it is no network file. joined:
the same, where the second and the third leg are one, and the fourth and the fifth. through: the same, with so many
seats set aside as a leg of their own, THROUGH, on which the journeys over five and six legs are.

Demand is of 4 histories of 2 periods, and drawn by the generator of Python with the seed 1: numbers of Poisson, by as
many uniform numbers as it takes to multiply below e to the minus mean. Trains in the morning and in the evening are
asked for more than others, and journeys over fewer legs more than those over more.
"""
import math
import random
import sys

HISTORIES, PERIODS, SEATS = 4, 2, 90
MOST_LEGS = 4
BUSY = [1.4, 1.8, 1.6, 1.0, 0.7, 0.6, 0.6, 0.7, 0.8, 0.7, 0.8, 1.1, 1.5, 1.7, 1.2, 0.6]  # of each train


def poisson(mean, draw):
    """A number of the Poisson distribution."""
    least, product, count = math.exp(-mean), draw.random(), 0
    while product > least:
        product, count = product * draw.random(), count + 1
    return count


def journeys(legs, most=MOST_LEGS):
    """The journeys over one to four neighbours of some legs, or more: their places and their numbers."""
    return [(at, size) for size in range(1, most + 1) for at in range(len(legs) - size + 1)]


def of_trains():
    """Legs, and products with their fares, legs and mean demand, of 16 trains."""
    trains = [[f"T{train:02}-{leg}" for leg in range(1, 7)] for train in range(1, len(BUSY) + 1)]
    products = []
    for train, (legs, busy) in enumerate(zip(trains, BUSY), 1):
        for at, size in journeys(legs):
            mean = 14 * busy / size
            products.append((f"T{train:02}-{at + 1}{at + size}Y", 12 + 14 * size, legs[at:at + size], 0.3 * mean))
            products.append((f"T{train:02}-{at + 1}{at + size}Q", 5 + 8 * size, legs[at:at + size], mean))
    for train, (legs, next_legs) in enumerate(zip(trains, trains[1:]), 1):
        mean = 2 * min(BUSY[train - 1], BUSY[train])
        products.append((f"T{train:02}-CHANGE", 21, [legs[2], next_legs[3]], mean))
    return [it for legs in trains for it in legs], products


def of_a_line():
    """The same of one train over 96 legs."""
    legs = [f"L{leg:02}" for leg in range(1, 97)]
    return legs, [(f"L{at + 1:02}-{at + size:02}", 6 + 9 * size, legs[at:at + size],
                   (1 + 0.6 * math.cos(at / 7)) * 18 / size) for at, size in journeys(legs)]


def of_a_train(legs):
    """Products with their fares, legs and mean demand, of one train over 6 legs, some of which may be one."""
    return [(f"L{at + 1}-{at + size}", 8 + 10 * size, list(dict.fromkeys(legs[at:at + size])), 34 / size)
            for at, size in journeys(legs, most=6)]


def whole():
    """The train as it is."""
    legs = ["L1", "L2", "L3", "L4", "L5", "L6"]
    return legs, of_a_train(legs)


def joined():
    """The train with four legs: the second and the third are one, and the fourth and the fifth."""
    legs = ["L1", "L23", "L23", "L45", "L45", "L6"]
    return list(dict.fromkeys(legs)), of_a_train(legs)


def through(seats):
    """The train with so many seats set aside for the journeys over more than four legs."""
    legs, products = whole()
    short = [(name, fare, used if len(used) <= MOST_LEGS else ["THROUGH"], mean) for name, fare, used, mean in products]
    return [*[(it, SEATS - seats) for it in legs], ("THROUGH", seats)], short


def rows(legs, products):
    """The rows of the timetable; a leg has its seats, or as many as each."""
    draw = random.Random(1)
    yield ["periods", HISTORIES, PERIODS, 2]
    for leg in legs:
        name, seats = leg if isinstance(leg, tuple) else (leg, SEATS)
        yield ["leg", name, seats, seats]
    for name, fare, used, _ in products:
        yield ["product", name, fare, *used]
    for name, _, _, mean in products:
        for history in range(1, HISTORIES + 1):
            yield ["demand", name, history, *(poisson(mean / PERIODS, draw) for _ in range(PERIODS))]


def main():
    made = {"trains": of_trains, "line": of_a_line, "whole": whole, "joined": joined, "through": through}
    name, *words = sys.argv[1:] or [""]
    numbers = [int(it) for it in words if it.isdecimal() and int(it) < SEATS]
    if name not in made or len(numbers) != len(words) or len(words) != (name == "through"):
        sys.exit(f"usage: examples/line/make.py trains|line|whole|joined|through SEATS, of which there are {SEATS}")
    for row in rows(*made[name](*numbers)):
        print(*row, sep=",")


if __name__ == "__main__":
    main()
