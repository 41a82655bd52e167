"""Networks for the clock, each made from a fixed seed."""
import random
import sys


def hub():
    """Ten legs to a hub and ten from it; a product on each, and one for each way over the hub."""
    draw = random.Random(1)
    to, away = [f"I{n:02}" for n in range(10)], [f"O{n:02}" for n in range(10)]
    legs = [(leg, draw.randint(60, 180)) for leg in to + away]
    products = [(leg, draw.randint(100, 400), [leg]) for leg in to + away]
    products += [(f"{a}-{b}", draw.randint(250, 700), [a, b]) for a in to for b in away]
    return network(draw, 8, 4, legs, products, 6, [400, 250, 150])


def limits():
    """As many legs, products, histories and periods as there may be, and every demand row."""
    draw = random.Random(2)
    legs = [(f"L{n:02}", draw.randint(200, 999)) for n in range(64)]
    names = [leg for leg, _ in legs]
    products = [(f"P{n:03}", draw.randint(50, 999), draw.sample(names, draw.randint(1, 4))) for n in range(256)]
    return network(draw, 32, 16, legs, products, 9)


def wide():
    """64 legs of 999 seats and 256 products of one leg each, so that tens of thousands of bookings can stand."""
    legs = [(f"L{n:02}", 999) for n in range(64)]
    return Network(1, 1, legs, [(f"P{j:03}", 100 + j, [f"L{j % 64:02}"]) for j in range(256)], {})


def long_path():
    """A program whose path is long, 3,816 pivots: 64 legs of 100 seats, and 256 products over four legs with at most 9
    seats each."""
    legs = [(f"L{n:02}", 100) for n in range(64)]
    products = []
    for j in range(256):
        places = [j % 16, 16 + 3 * j % 16, 32 + 5 * j // 3 % 16, 48 + j // 16 % 16]
        products.append((f"P{j:03}", 100 + j * j, [f"L{n:02}" for n in places]))
    return Network(1, 1, legs, products, {name: [[9]] for name, _, _ in products})


def random_legs():
    """Every product takes a seat on four legs drawn at random, so that rows fill up: 1,296 pivots."""
    draw = random.Random(4)
    legs = [(f"L{n:02}", draw.randint(200, 999)) for n in range(64)]
    names = [leg for leg, _ in legs]
    products = [(f"P{n:03}", draw.randint(50, 999), draw.sample(names, 4)) for n in range(256)]
    return network(draw, 4, 4, legs, products, 19)


def network(draw, histories, periods, legs, products, most, thresholds=()):
    demand = {name: [[draw.randint(0, most) for _ in range(periods)] for _ in range(histories)]
              for name, _, _ in products}
    return Network(histories, periods, legs, products, demand, thresholds)


class Network:
    """Legs with their seats, products with their fares and legs, demand by product, history and period, and the
    thresholds of every leg."""

    def __init__(self, histories, periods, legs, products, demand, thresholds=()):
        self.histories, self.periods, self.legs, self.products, self.demand = histories, periods, legs, products, demand
        self.thresholds = list(thresholds)

    def write(self, path):
        """The network file."""
        rows = [["periods", self.histories, self.periods]]
        rows += [["leg", name, seats] + self.thresholds for name, seats in self.legs]
        rows += [["product", name, fare] + legs for name, fare, legs in self.products]
        rows += [["demand", name, h] + seats for name in self.demand for h, seats in enumerate(self.demand[name], 1)]
        with open(path, "w") as file:
            for row in rows:
                print(*row, sep=",", file=file)


if __name__ == "__main__":
    sys.exit(f"networks.py: no tool, but a part of the scripts beside it: {__doc__}")
