"""Departures that are drawn, and sold by the program, with what it takes to estimate demand: what was asked for and
sold, and when each product was closed. What its plans and the seats left say is open must be what the program sells."""
import os
import sys
from typing import NamedTuple

from nrm import Stop
from nrm.commands.running import add_program
from nrm.network import text_of, whole
from nrm.program import Dialogue
from nrm.records.log_demand import cuts_of
from nrm.records.stream_requests import rows_with
from nrm.replies import MODES, answer_of
from nrm.seasons.drawing import poisson

KINDS = ("poisson", "factor", "rough")
OF_DEPARTURE, OF_CLASS, OF_PRODUCT = 0.25, 0.2, 0.4  # coefficients of variation of the factors of demand
STEEP = 0.6  # of requests for dear products that come late in a period, and for cheap ones that come early


def add_departures(words):
    """The words for departures of a network: how they are sold, and how their demand is drawn."""
    words.add_argument("network")
    words.add_argument("--mode", choices=MODES, default="davn")
    words.add_argument("--demand", choices=KINDS, default="factor")
    words.add_argument("--scale", type=float, default=1.0)
    words.add_argument("--down", type=float, default=0.0)
    words.add_argument("--again", type=float, default=0.0)
    words.add_argument("--departures", type=whole, default=10)
    words.add_argument("--seed", type=whole, default=1)
    words.add_argument("--cuts", type=cuts_of, default="45,21,7")
    add_program(words)


class Customer(NamedTuple):
    """Who wants a product at a time of a period, 0 to 1: one who buys the cheapest open product of the journey, if it
    is no dearer, or who asks again for the next dearer one if it is refused, or neither."""
    time: float
    product: str
    buys_down: bool
    asks_again: bool


class Demand:
    """How the demand of departures is drawn about the means of a network.

    poisson  Poisson's numbers, each product and period by itself
    factor   the same, times a gamma factor of the departure
    rough    the same, times one for the dear half of the products, one for the cheap half and one for each product;
             requests for dear products come late in a period, and for cheap ones early
    """

    def __init__(self, network, given):
        self.network, self.given, self.kind = network, given, given.demand
        self.means = {name: [given.scale * it for it in by_period] for name, by_period in network.mean_demand.items()}
        fares = sorted(it.fare for it in network.products.values())
        middle = (fares[(len(fares) - 1) // 2] + fares[len(fares) // 2]) / 2
        self.dear = {it.name for it in network.products.values() if it.fare >= middle}

    def departure(self, draw):
        """The customers of each period of a departure, in their order."""
        factor = 1.0 if self.kind == "poisson" else self.factor(OF_DEPARTURE, draw)
        of_class = [self.factor(OF_CLASS, draw) if self.kind == "rough" else 1.0 for _ in range(2)]
        periods = [[] for _ in range(self.network.periods)]
        for name, means in self.means.items():
            own = self.factor(OF_PRODUCT, draw) if self.kind == "rough" else 1.0
            strength = factor * of_class[name in self.dear] * own
            for customers, mean in zip(periods, means):
                customers += [self.customer(name, draw) for _ in range(poisson(mean * strength, draw))]
        return [sorted(it) for it in periods]

    def customer(self, name, draw):
        """Who wants a product."""
        habit = draw.random()
        down, again = self.given.down, self.given.again
        return Customer(self.time(name, draw), name, habit < down, down <= habit < down + again)

    def time(self, name, draw):
        """A time in a period: uniform, or of the density 1 + s (2u - 1), where s is above 0 for dear products, and
        below for cheap ones."""
        u = draw.random()
        if self.kind != "rough":
            return u
        s = STEEP if name in self.dear else -STEEP
        return (s - 1 + ((1 - s) ** 2 + 4 * s * u) ** 0.5) / (2 * s)

    @staticmethod
    def factor(variation, draw):
        """A gamma factor about 1."""
        return draw.gammavariate(variation ** -2, variation ** 2)


class Board:
    """A network that is sold under plans of given histories, in a mode."""

    def __init__(self, network, program, mode, folder):
        self.network, self.program, self.mode = network, program, mode
        self.path = os.path.join(folder, f"plan-{mode}.csv")
        products = network.products.values()
        on_leg = {leg: [it.name for it in network.products_on(leg)] for leg in network.legs}
        self.beside = {it.name: {other for leg in it.legs for other in on_leg[leg]} for it in products}
        by_fare = sorted(products, key=lambda it: it.fare)
        journeys = {it.name: [other.name for other in by_fare if other.legs == it.legs] for it in products}
        self.up_to = {name: journey[:journey.index(name) + 1] for name, journey in journeys.items()}
        self.from_on = {name: journey[journey.index(name):] for name, journey in journeys.items()}
        nests = sum(len(it.legs) for it in products) + len(network.legs) if mode == "davn" else 0
        self.lines_of_a_plan = 1 if mode == "first" else 1 + len(products) + len(network.legs) + nests

    def plan_by(self, histories):
        """Takes histories for the plans of the next departures: of each, by product, the seats asked for by period."""
        with open(self.path, "w", encoding="ascii") as file:
            file.write(text_of(rows_with(self.network, histories)))

    def sell(self, periods):
        """Sells a departure to the customers of its periods."""
        dialogue, sale = Dialogue(self.program, self.mode, self.path), Sale(self)
        try:
            for number, customers in enumerate(periods):
                if number:
                    dialogue.ask([f"reoptimise {number + 1}"])
                sale.begin(self.plan(dialogue))
                for it in customers:
                    sale.serve(it)
                replies = dialogue.ask([f"book {name} 1" for _, name in sale.asked[-1]])
                if [it.startswith(b"ok ") for it in replies] != sale.sold[-1]:
                    raise Stop(f"`run {self.mode}` answers otherwise than its plan and the seats left say")
        except BrokenPipeError:
            raise dialogue.broke()
        dialogue.end()
        return sale

    def plan(self, dialogue):
        """The plan in force."""
        dialogue.input.write(b"plan\n")
        dialogue.input.flush()
        lines = [dialogue.output.readline() for _ in range(self.lines_of_a_plan)]
        if not lines[-1]:
            raise dialogue.broke()
        return answer_of(b"".join(lines))


class Sale:
    """A departure as it is sold: which products are open, by the plan in force and the seats that are left.

    asked    of each period, the times and products of the requests
    sold     of each period, whether each request was sold
    opening  the bid prices of its first plan, by leg
    closed   times at which products were closed: the product, and where it begins and ends, each a period and a time
             in it
    since    of the products that are closed, where that begins
    revenue  of what was sold
    """

    def __init__(self, board):
        self.board, self.products = board, board.network.products
        self.left = {it.name: it.authorised for it in board.network.legs.values()}
        self.asked, self.sold, self.closed, self.since, self.revenue = [], [], [], {}, 0

    def begin(self, plan):
        """Begins a period, with the plan in force."""
        if not self.asked:
            self.opening = plan.prices
        self.asked.append([])
        self.sold.append([])
        self.levels = {it.name: self.levels_of(it, plan) for it in self.products.values()}
        here = (len(self.asked) - 1, 0.0)
        for name in self.products:
            is_open = self.is_open(name)
            if is_open and name in self.since:
                self.closed.append((name, self.since.pop(name), here))
            elif not is_open:
                self.since.setdefault(name, here)

    def levels_of(self, product, plan):
        """The legs of a product, each with the seats above which it is open by a plan; None where its fare is below
        their prices."""
        if self.board.mode == "bid" and product.fare < sum(plan.prices[leg] for leg in product.legs):
            return None
        return [(leg, plan.protected_from(leg, product.name)) for leg in product.legs]

    def is_open(self, name):
        """Whether a seat of a product would be sold now."""
        levels = self.levels[name]
        return levels is not None and all(self.left[leg] > level for leg, level in levels)

    def serve(self, customer):
        """Serves a customer, who may ask for more products than one."""
        wanted = [customer.product]
        if customer.buys_down:
            wanted = [next((it for it in self.board.up_to[customer.product] if it not in self.since), customer.product)]
        elif customer.asks_again:
            wanted = self.board.from_on[customer.product]
        for name in wanted:
            if self.take(customer.time, name):
                return

    def take(self, time, name):
        """Takes a request, and tells whether it is sold. A sale may close products on its legs, and opens none."""
        is_sold = name not in self.since
        self.asked[-1].append((time, name))
        self.sold[-1].append(is_sold)
        if is_sold:
            self.revenue += self.products[name].fare
            for leg in self.products[name].legs:
                self.left[leg] -= 1
            for other in self.board.beside[name]:
                if other not in self.since and not self.is_open(other):
                    self.since[other] = (len(self.asked) - 1, time)
        return is_sold

    def closures(self):
        """All closures, with those that stay, which have no end."""
        return self.closed + [(name, since, None) for name, since in self.since.items()]


def counted(network, periods, chosen=None):
    """A history: by product, how many requests of each period there are, or how many that were chosen."""
    history = {name: [0] * network.periods for name in network.products}
    for number, requests in enumerate(periods):
        for at, (_, name, *_) in enumerate(requests):
            history[name][number] += chosen is None or chosen[number][at]
    return history


class Clock:
    """When a time of a period is, in days, 0 at the beginning of the day of departure, by the cuts and the opening of
    the sale."""

    def __init__(self, network, cuts, opens):
        if len(cuts) + 1 != network.periods:
            raise Stop(f"--cuts makes {len(cuts) + 1} periods, and the network has {network.periods}")
        self.begins, self.ends = [-opens, *(-it for it in cuts)], [*(-it for it in cuts), 1]

    def moment(self, place):
        """The moment of a period and a time in it."""
        number, time = place
        return self.begins[number] + time * (self.ends[number] - self.begins[number])


if __name__ == "__main__":
    sys.exit(f"departures.py: no tool, but a part of the scripts beside it: {__doc__}")
