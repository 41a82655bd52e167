#!/usr/bin/env python3
"""The line `hindsight` beside all that could have been sold instead, on small made streams.

    tests/hindsight.py [--program WORD...]

Each network has a few legs of a few seats and up to four products, and each stream up to ten requests with
cancellations between them, at more places than one of which it looks back. Half of the files are of version 2, with
authorised seats that aren't the seats and with refund percentages. There each selection of the requests so far is
tried, each request whole and at most once: the one that earns most must earn no more than the value that is told, the
bookings that stand must be one and earn the revenue that is told, and the value must be the greatest of the program's
corners, so that it isn't above the bound that parts of seats allow. What cancellations gave back and what they didn't
must be the fares that they were sold at. With no --program it is the script `nrm` at the top of the repository. The
last line tells how many lines were compared, and at how many of them a selection earns the whole value.
"""
import itertools
import os
import random
import subprocess
import sys
import tempfile
from fractions import Fraction
from math import gcd

sys.dont_write_bytecode = True
import checks
from checks import Wrong

STREAMS = 120
MODES = ["first", "bid", "davn"]


class Made:
    """A network, and a stream on it."""

    def __init__(self, seed):
        draw = random.Random(seed)
        self.mode = MODES[seed % len(MODES)]
        self.version = 1 + seed // len(MODES) % 2
        self.legs = {f"L{n}": draw.randint(0, 6) for n in range(draw.randint(1, 4))}  # the seats that may be booked
        self.products = {f"P{n}": (draw.randint(1, 999),
                                   draw.sample(list(self.legs), draw.randint(1, min(3, len(self.legs)))))
                         for n in range(draw.randint(1, 4))}
        self.refunds = {name: draw.choice([0, 1, 33, 50, 99, 100]) for name in self.products
                        if self.version == 2 and draw.randrange(3)}
        self.histories = draw.randint(1, 3)
        self.demand = [(name, history + 1, draw.randint(0, 4)) for name in self.products
                       for history in range(self.histories)]
        self.seats = {name: draw.randint(0, 9) if self.version == 2 else seats for name, seats in self.legs.items()}
        self.lines = [line for line in self.drawn(draw)]

    def drawn(self, draw):
        for asked in range(draw.randint(4, 10)):
            yield f"book {draw.choice([*self.products, 'NONE'])} {draw.choice([1, 1, 2, 2, 3, 7])}"
            if draw.randrange(3) == 0:
                yield f"cancel {draw.randint(1, asked + 1)}"
            if draw.randrange(3) == 0:
                yield "hindsight"
        yield "hindsight"

    def file(self):
        is_second = self.version == 2
        rows = [("periods", self.histories, 1, 2) if is_second else ("periods", self.histories, 1)]
        rows += [("leg", name, seats, *([self.legs[name]] if is_second else []), 300, 100)
                 for name, seats in self.seats.items()]
        rows += [("product", name, fare, *legs) for name, (fare, legs) in self.products.items()]
        rows += [("refund", *row) for row in self.refunds.items()]
        rows += [("demand", *row) for row in self.demand]
        return "".join(",".join(map(str, row)) + "\n" for row in rows)

    def fits(self, requests):
        return all(sum(party for name, party in requests if leg in self.products[name][1]) <= seats
                   for leg, seats in self.legs.items())

    def earned(self, requests):
        return sum(party * self.products[name][0] for name, party in requests)

    def best(self, requests):
        """The most that a selection earns."""
        return max(self.earned(some) for count in range(len(requests) + 1)
                   for some in itertools.combinations(requests, count) if self.fits(some))

    def corners(self, requests):
        """What the corners of the program earn: so many of each product, as far as asked for and fitting, in parts."""
        asked = [sum(party for name, party in requests if name == product) for product in self.products]
        uses = [[int(leg in legs) for _, legs in self.products.values()] for leg in self.legs]
        seats, fares = list(self.legs.values()), [fare for fare, _ in self.products.values()]
        for sold in itertools.product([None, 0, 1], repeat=len(asked)):  # where None stands, full legs say how many
            free = [at for at, it in enumerate(sold) if it is None]
            x = [Fraction(0 if it is None else it * many) for it, many in zip(sold, asked)]
            for full in itertools.combinations(range(len(seats)), len(free)):
                rest = [[Fraction(uses[leg][at]) for at in free]
                        + [seats[leg] - sum(a * b for a, b in zip(uses[leg], x))]
                        for leg in full]
                for at, number in zip(free, solved(rest) or [None] * len(free)):
                    x[at] = number
                if None not in x and all(0 <= it <= many for it, many in zip(x, asked)) and all(
                        sum(a * b for a, b in zip(use, x)) <= most for use, most in zip(uses, seats)):
                    yield sum(a * b for a, b in zip(fares, x))
                x = [Fraction(0) if at in free else it for at, it in enumerate(x)]


def solved(rows):
    """The numbers that meet these equations, if they are the only ones."""
    for column in range(len(rows)):
        at = next((at for at in range(column, len(rows)) if rows[at][column]), None)
        if at is None:
            return None
        rows[column], rows[at] = rows[at], rows[column]
        rows[column] = [number / rows[column][column] for number in rows[column]]
        for other in range(len(rows)):
            if other != column:
                rows[other] = [a - rows[other][column] * b for a, b in zip(rows[other], rows[column])]
    return [row[-1] for row in rows]


def compared(made, replies):
    """For each line of hindsight, whether a selection earns the whole value that is told."""
    if len(replies) != len(made.lines):
        raise Wrong(f"{len(made.lines)} replies")
    requests, booked, withheld = [], {}, 0
    for line, reply in zip(made.lines, replies):
        match line.split(" ") + reply.split(" "):
            case ["book", "NONE", _, told]:
                if told != "unknown":
                    raise Wrong(f"unknown, and not {told}")
            case ["book", product, party, *told]:
                requests.append((product, int(party)))
                if told[0] == "ok":
                    booked[told[1]] = requests[-1]
            case ["cancel", number, "cancelled", _, amount]:
                paid, refund = made.earned([booked[number]]), made.refunds.get(booked[number][0], 100)
                if not 100 * int(amount) <= paid * refund < 100 * (int(amount) + 1):
                    raise Wrong(f"{refund} in 100 of {paid} given back, and not {amount}")
                withheld += paid - int(amount)
                del booked[number]
            case ["hindsight", "hindsight", value, "revenue", revenue, "withheld", sum_withheld]:
                num, den = map(int, value.split("/"))
                best, bound = made.best(requests), max(made.corners(requests))
                if gcd(num, den) != 1 or Fraction(num, den) != bound:
                    raise Wrong(f"hindsight {bound.numerator}/{bound.denominator}, and not {value}")
                if best > bound:
                    raise Wrong(f"no selection that earns {best}, above {bound}")
                if int(revenue) != made.earned(booked.values()) or not made.fits(booked.values()):
                    raise Wrong(f"revenue {made.earned(booked.values())}, and not {revenue}")
                if int(sum_withheld) != withheld:
                    raise Wrong(f"withheld {withheld}, and not {sum_withheld}")
                yield best == bound
            case ["hindsight", *told]:
                raise Wrong(f"a value, and not {' '.join(told)}")


def main():
    program, lines, reached, failed = checks.program_of(__doc__), 0, 0, 0
    for seed in range(STREAMS):
        made = Made(seed)
        with tempfile.TemporaryDirectory() as folder:
            with open(os.path.join(folder, "network.csv"), "w") as file:
                file.write(made.file())
            done = subprocess.run([*program, "run", made.mode, "network.csv"], cwd=folder, text=True,
                                  capture_output=True,
                                  input="".join(f"{line}\n" for line in made.lines))
        try:
            if done.returncode or done.stderr:
                raise Wrong(f"status 0, and not {done.returncode}: {done.stdout}{done.stderr}")
            found = list(compared(made, done.stdout.splitlines()))
            lines, reached = lines + len(found), reached + sum(found)
        except Wrong as wrong:
            failed += 1
            print(f"stream {seed}, run {made.mode}: wanted {wrong}", *made.file().splitlines(), *made.lines,
                  sep="\n    ")
    print(f"{lines} lines compared, {reached} values reached by a selection, {failed} of {STREAMS} streams failed")
    return 1 if failed or not 0 < reached < lines else 0


if __name__ == "__main__":
    sys.exit(main())
