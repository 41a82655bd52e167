#!/usr/bin/env python3
"""The word `dp` beside all that could be sold, on small made legs.

    tests/leg_program.py [--program WORD...]

Each network has a leg with a few classes, some at one fare, each with its demand in a few histories; there are products
of other legs and of more than one. The value is worked out in exact fractions by trying every number of seats that may
be sold, in each state: the class that asks, the seats left and what it asks for. The value that is told must be this
one, and each protection the greatest number of seats of which the last is worth more to the classes above than the next
fare. A policy that sells what the protections leave must earn the value, and one by EMSR-b's protections at most the
value. With no --program it is the script `nrm` at the top of the repository. The last lines tell how often EMSR-b earns
less, and how many legs passed.
"""
import random
import sys
from fractions import Fraction

sys.dont_write_bytecode = True
import checks
import one_leg
from checks import Wrong

LEGS = 150


class Made(one_leg.Made):
    """A network, of which the leg HERE is looked at."""

    def __init__(self, seed):
        draw = random.Random(seed)
        self.second = seed % 2 == 0  # version 2 of the file
        # the value's denominator is the tenth power of 32 then, before it is in lowest terms
        is_large = seed % 30 == 29
        self.histories = draw.randint(1, 4) if not is_large else 32
        self.periods = draw.randint(1, 3)
        self.authorised = draw.choice([0, 1, 2, 3, 5, 8, 12, 16]) if not is_large else 12
        seats = self.authorised if not self.second else draw.randint(0, 20)
        self.legs = [(name, seats, self.authorised) for name in ("HERE", "AWAY", "IDLE")]
        count = draw.choice([0, 1, 2, 2, 3, 3, 4, 4, 5, 6, 10, 11]) if not is_large else 10
        top = draw.choice([3, 20, 999, 99_999_999]) if not is_large else 99_999_999
        most = draw.choice([0, 1, 2, 4, 9, 30]) if not is_large else 2
        self.products = [(f"C{at}", draw.randint(1, top), ["HERE"]) for at in range(count)]
        self.products += [("OVER", 700, ["HERE", "AWAY"]), ("AFTER", 300, ["AWAY", "HERE"]), ("ELSE", 99, ["AWAY"])]
        draw.shuffle(self.products)
        self.demand = {(name, history): [draw.randint(0, most) for _ in range(self.periods)]
                       for name, _, _ in self.products
                       for history in range(1, self.histories + 1) if draw.randrange(5)}

    def classes(self):
        """The name, the fare and the demand in each history of the products on the leg alone, by falling fare."""
        found = [(name, fare, [sum(self.demand.get((name, history), [])) for history in range(1, self.histories + 1)])
                 for name, fare, legs in self.products if legs == ["HERE"]]
        return sorted(found, key=lambda it: -it[1])  # a stable sort: those of one fare stay in the order of the file


def mean(numbers):
    return sum(numbers, Fraction(0)) / len(numbers)


def best(classes, seats):
    """The best mean revenue from the first classes, by their number and the seats: every number of seats is tried."""
    value = [[Fraction(0)] * (seats + 1)]
    for _, fare, demand in classes:
        above = value[-1]
        value.append([mean([max(fare * sold + above[left - sold] for sold in range(min(asked, left) + 1))
                            for asked in demand])
                      for left in range(seats + 1)])
    return value


def earned(classes, seats, protected):
    """The mean revenue where from each class but the first so many seats are protected."""
    value = [Fraction(0)] * (seats + 1)
    for (_, fare, demand), level in zip(classes, [0, *protected]):
        value = [mean([fare * sold + value[left - sold] for asked in demand
                       for sold in [max(0, min(asked, left - level))]])
                 for left in range(seats + 1)]
    return value[seats]


def emsr(classes, seats):
    """EMSR-b's protections: Littlewood's rule for the classes above together, at their mean fare, by history."""
    protected = [0]
    for at in range(1, len(classes)):
        above, next_fare = classes[:at], classes[at][1]
        asked = [sum(each) for each in zip(*[demand for _, _, demand in above])]
        fare = Fraction(sum(fare * sum(demand) for _, fare, demand in above), sum(asked)) if sum(asked) else 0
        level = 0
        while level < seats and sum(it > level for it in asked) * fare > len(asked) * next_fare:
            level += 1
        protected.append(max(protected[-1], level))
    return protected[1:]


def compared(made, told):
    """Whether EMSR-b earns less than the value."""
    classes, seats = made.classes(), made.authorised
    value = best(classes, seats)
    lines, most = told.splitlines(), value[-1][seats]
    protected = []
    for at in range(1, len(classes)):
        worth = [value[at][y] - value[at][y - 1] for y in range(1, seats + 1)]
        protected.append(max([y for y, it in enumerate(worth, 1) if classes[at][1] < it], default=0))
    wanted = [*[f"class {name} {fare}" for name, fare, _ in classes], f"value HERE {most.numerator}/{most.denominator}",
              " ".join(["protect HERE", *map(str, protected)])]
    if lines != wanted or not told.endswith("\n"):
        raise Wrong("\n".join(wanted))
    found = list(map(int, lines[-1].split(" ")[2:]))
    if earned(classes, seats, found) != most:
        raise Wrong(f"protections that earn {most}")
    if earned(classes, seats, emsr(classes, seats)) > most:
        raise Wrong(f"at least what EMSR-b earns, {earned(classes, seats, emsr(classes, seats))}")
    return earned(classes, seats, emsr(classes, seats)) < most


ENDS = [(["IDLE"], 11, "classes 0\n"), (["NONE"], 11, "classes 0\n"), (["here"], 2, None), ([], 2, None),
        (["HERE", "1"], 2, None)]


def runs():
    """Each made leg, and words that end otherwise."""
    for made in map(Made, range(LEGS)):
        count = len(made.classes())
        end = (0, None, compared) if 1 <= count <= 10 else (11, f"classes {count}\n", None)
        yield "dp", made, ["HERE"], *end
    yield from (("dp", Made(1), *end, None) for end in ENDS)


def main():
    passed, failed, less = one_leg.ended(checks.program_of(__doc__), runs())
    print(f"{sum(less)} legs on which EMSR-b earns less than the value")
    status = checks.ended(passed, failed)
    return status if any(less) else 1


if __name__ == "__main__":
    sys.exit(main())
