#!/usr/bin/env python3
"""The word `cuts` beside all groupings that could be, on small made lists.

    tests/thresholds.py [--program WORD...]

Each network has a leg whose products have a few fares, some of them more than once, and demand that is the weight of
each fare; other legs have products too. All ways are tried to put the fares into so many groups, which needn't be
neighbours, each with the best centre among the fares, and where the fares lie close together among all whole numbers
between: none may cost less than the cost that is told. And of all divisions of the falling list into neighbouring
pieces the one that is told must cost the least, of those have the fewest pieces, and of those the first list of
lengths. With no --program it is the script `nrm` at the top of the repository. The last lines tell how often a rule had
to choose, and how many lists passed.
"""
import itertools
import random
import sys

sys.dont_write_bytecode = True
import checks
import one_leg
from checks import Wrong

LISTS = 130
CLOSE = 12  # between the greatest and the least fare, so that every whole number is tried as a centre


class Made(one_leg.Made):
    """A network, one of its legs, and a number of groups."""
    legs = [(name, 9, 8) for name in ("AWAY", "HERE", "IDLE")]

    def __init__(self, seed):
        draw = random.Random(seed)
        self.second = seed % 2 == 1  # version 2 of the file
        self.groups = [1, 2, 3, 4, 10][seed % 5]
        size = draw.choice([1, 1, 2, 3, 4, 5, 6, 7])
        spread = [(1, CLOSE), (90, 90 + CLOSE), (1, 999), (99_999_000, 99_999_999), (1, 99_999_999)][seed // 5 % 5]
        fares = draw.sample(range(spread[0], spread[1] + 1), size)
        if seed % 7 == 0:  # at even steps, so that divisions cost the same
            fares = [100 * it for it in range(1, size + 1)]
        if seed % 13 == 0:
            fares = fares[:1] * size
        most = draw.choice([0, 1, 1, 2, 5, 499])
        self.histories, self.periods = draw.randint(1, 3), draw.randint(1, 2)
        fares += draw.choices(fares, k=draw.randrange(3))
        self.products = [(f"P{at}", fare, self.legs_of(draw)) for at, fare in enumerate(fares)]
        demand = [((name, history), [draw.randint(0, most) for _ in range(self.periods)])
                  for name, _, _ in self.products for history in range(1, self.histories + 1) if draw.randrange(4)]
        draw.shuffle(demand)
        self.products.insert(draw.randint(0, size), ("ELSE", draw.randint(1, 999), ["AWAY"]))
        self.demand = {**dict(demand), ("ELSE", 1): [5] * self.periods}

    @staticmethod
    def legs_of(draw):
        return draw.choice([["HERE"], ["HERE"], ["AWAY", "HERE"], ["HERE", "AWAY"]])

    def weights(self):
        """Each fare of a product on the leg, falling, and the seats that were asked for at it."""
        found = {}
        for name, fare, legs in self.products:
            if "HERE" in legs:
                asked = sum(sum(seats) for (other, _), seats in self.demand.items() if other == name)
                found[fare] = found.get(fare, 0) + asked
        return sorted(found.items(), reverse=True)


def cost(group, centre):
    return sum(weight * abs(fare - centre) for fare, weight in group)


def best_cost(group, centres):
    """What a group costs with the best of some centres."""
    return min(cost(group, it) for it in centres) if group else 0


def groupings(items, most):
    """All ways to put items into at most so many groups, whatever their order."""
    if not items:
        yield []
        return
    for rest in groupings(items[1:], most):
        for at, group in enumerate(rest):
            yield [*rest[:at], [items[0], *group], *rest[at + 1:]]
        if len(rest) < most:
            yield [[items[0]], *rest]


def lengths(count, most):
    """All lists of lengths of at most so many pieces, none empty, that are so many together."""
    if count == 0:
        yield []
    elif most > 0:
        for first in range(1, count + 1):
            for rest in lengths(count - first, most - 1):
                yield [first, *rest]


def pieces(items, sizes):
    ends = list(itertools.accumulate(sizes))
    return [items[end - size:end] for end, size in zip(ends, sizes)]


def centre(piece):
    """The first fare at which twice the weight up to and with it is at least the weight of the piece."""
    return next(fare for at, (fare, _) in enumerate(piece)
                if 2 * sum(it for _, it in piece[:at + 1]) >= sum(it for _, it in piece))


def compared(made, told):
    """Whether the fewest pieces, and whether the first list of lengths, had to be chosen."""
    items = made.weights()
    fares = [fare for fare, _ in items]
    centres = range(fares[-1], fares[0] + 1) if fares[0] - fares[-1] <= CLOSE else fares
    least = min(sum(best_cost(group, centres) for group in way) for way in groupings(items, made.groups))
    divided = [(sum(cost(piece, centre(piece)) for piece in pieces(items, sizes)), len(sizes), sizes)
               for sizes in lengths(len(items), made.groups)]
    total, count, sizes = min(divided)
    if total != least:
        raise Wrong(f"a division that costs {least}, as the best grouping does, and none costs less than {total}")
    parts = pieces(items, sizes)
    cuts, centres = [piece[-1][0] for piece in parts[:-1]], map(centre, parts)
    wanted = [" ".join(map(str, line))
              for line in (["cuts", "HERE", *cuts], ["centres", "HERE", *centres], ["cost", "HERE", total])]
    if told.splitlines() != wanted or not told.endswith("\n"):
        raise Wrong("\n".join(wanted))
    same = [(many, some) for spent, many, some in divided if spent == total]
    return any(many > count for many, _ in same), sum(many == count for many, _ in same) > 1


ENDS = [  # words behind the file, and how they end
    (["IDLE", "2"], 10, "no leg\n"), (["NONE", "2"], 10, "no leg\n"), (["HERE", "0"], 2, None),
    (["HERE", "11"], 2, None),
    (["HERE", "02"], 2, None), (["here", "2"], 2, None), (["HERE"], 2, None), (["HERE", "2", "2"], 2, None)]


def main():
    runs = [("cuts", made, ["HERE", str(made.groups)], 0, None, compared) for made in map(Made, range(LISTS))]
    runs += [("cuts", Made(1), *end, None) for end in ENDS]
    passed, failed, seen = one_leg.ended(checks.program_of(__doc__), runs)
    fewer, first = map(sum, zip(*seen))
    print(f"{fewer} lists with as good a division into more pieces, {first} with as good a one of other lengths")
    status = checks.ended(passed, failed)
    return status if fewer and first else 1


if __name__ == "__main__":
    sys.exit(main())
