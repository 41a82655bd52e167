"""The feedback loop: each season is planned from what was sold in the one before, with the estimate of demand and
without it.

    bench/loop.py NETWORK [--mode MODE] [--demand KIND] [--scale X] [--down P] [--again P] [--runs N] [--seasons N]
                  [--warm N] [--departures N] [--seed S] [--cuts DAYS,DAYS..] [--program WORD...]

A season is some departures, ten if not said, sold under plans of one network file. The first file is made of as many
departures' requests, each later one of what a way makes of the season before: of the requests, sold or not; of the
sales as they are; of the `estimate` of `nrm-tools demand`; or of that with the file of the season `before`. All ways
get the same customers. KIND is poisson, factor or rough: bench/departures.py says what they are. Prints, of the
seasons behind the first --warm ones, what a departure earns in each way beside plans of the requests, how much of what
the sales lose is regained, and how far the demand of dear and of cheap products is off; and of the seasons 1, 2, 3, 5
and 10 by themselves what a departure earns by the sales beside the requests, and the opening prices of both.

Of the customers the share of --down takes the cheapest open product of the journey, if it is no dearer than the one
that they want, and the share of --again asks for the next dearer one if that is refused. Then the way `wanted` plans
by what they wanted first, which nobody knows.
"""
import datetime
import itertools
import math
import random
import statistics
import sys
import tempfile
import time
from collections import Counter
from dataclasses import dataclass

from departures import Board, Clock, Demand, add_departures, counted
from nrm import Stop
from nrm.commands.running import parser
from nrm.network import Network, whole
from nrm.program import Program
from nrm.records import log_demand as logs
from nrm.records.closures import END_OF_DEPARTURE, Closure
from nrm.records.estimate_days import estimated
from nrm.records.estimate_products import known_of
from nrm.records.estimate_results import copies_of, drawn
from nrm.records.log_requests import Request
from nrm.records.sale import Calendar
from nrm.records.sale import Sale as LoggedSale
from running import NAME, end
from sold import FIRST

WAYS = ("requests", "wanted", "sales", "estimate", "before")
OPENS = 90
WEEK = 7
BY_THEMSELVES = (1, 2, 3, 5, 10)  # seasons


@dataclass(frozen=True)
class Season:
    """What a departure of a season earned on the mean, and the opening prices of its legs."""
    revenue: float
    prices: list


@dataclass(frozen=True)
class Played:
    """What a departure earned on the mean, and the demand that was reckoned with, by product; and all seasons."""
    revenue: float
    demand: dict
    seasons: list


class Estimates:
    """The estimate of demand of departures that were sold, of a network."""

    def __init__(self, network, given):
        self.network, self.given = network, given
        self.clock = Clock(network, given.cuts, OPENS)

    def log(self, sales):
        """The bookings and the closures of a season, as a log has them, to the day and to the moment."""
        requests, closures = [], []
        for number, sale in enumerate(sales):
            departs = FIRST.date() + datetime.timedelta(WEEK * number)
            for at, (asked, sold) in enumerate(zip(sale.asked, sale.sold)):
                for u, name in itertools.compress(asked, sold):
                    requests.append(Request(departs, -math.floor(self.clock.moment((at, u))), name, 1))
            for name, since, until in sale.closures():
                ends = self.clock.moment(until) if until else END_OF_DEPARTURE
                closures.append(Closure(departs, name, self.clock.moment(since), ends))
        return requests, closures

    def rates(self, requests, closures, earlier=None):
        """The rates of a season's log, which may know the file of an earlier network."""
        sale = LoggedSale(requests, logs.Demand(requests, self.given.cuts), closures)
        known = known_of(sale, {it: it for it in sale.products}, self.given.network, earlier, False)
        return estimated(sale, Calendar(self.given.cuts, OPENS), known)

    def drawn(self, rates, seed):
        """The histories that are drawn by rates, as often as `nrm-tools demand` does unasked."""
        return self.histories(rates, drawn(rates, copies_of(len(rates.departures), None), seed))

    def histories(self, rates, whole_numbers):
        """The histories that whole numbers by product make, in the order of the products of rates."""
        made = dict(zip(rates.sale.products, whole_numbers))
        none = [[0] * self.network.periods] * len(next(iter(made.values())))
        histories = zip(*(made.get(it, none) for it in self.network.products))
        return [dict(zip(self.network.products, it)) for it in histories]


class Loop:
    """What stays the same in all seasons. A season is a list of sales."""

    def __init__(self, given, folder):
        self.network, self.given = Network.read(given.network), given
        self.demand = Demand(self.network, given)
        self.estimates = Estimates(self.network, given)
        self.board = Board(self.network, Program.found(given.program), given.mode, folder)
        self.ways = WAYS if given.down or given.again else [it for it in WAYS if it != "wanted"]

    def departures(self):
        """The customers of a season's departures."""
        return [self.demand.departure(self.draw) for _ in range(self.given.departures)]

    def histories_after(self, way, season, sales, number):
        """The histories by which a way plans the season after one."""
        if way == "wanted":
            return [counted(self.network, it) for it in season]
        if way in ("requests", "sales"):
            return [counted(self.network, it.asked, it.sold if way == "sales" else None) for it in sales]
        earlier = self.board.path if way == "before" and number else None
        return self.estimates.drawn(self.estimates.rates(*self.estimates.log(sales), earlier), number)

    def run(self, number):
        """Plays all seasons in each way."""
        self.draw = random.Random(f"{self.given.seed} {number}")
        first = [counted(self.network, it) for it in self.departures()]
        seasons = [self.departures() for _ in range(self.given.seasons)]
        return {way: self.played(way, first, seasons) for way in self.ways}

    def played(self, way, histories, seasons):
        """What a way makes of seasons, the first of which is planned by some histories."""
        made, told = [], Counter()
        for number, season in enumerate(seasons):
            self.board.plan_by(histories)
            sales = [self.board.sell(it) for it in season]
            histories = self.histories_after(way, season, sales, number)
            made.append(Season(statistics.mean(it.revenue for it in sales), list(sales[0].opening.values())))
            if number >= self.given.warm:
                told.update({it: statistics.mean(sum(h[it]) for h in histories) for it in self.network.products})
        late = [it.revenue for it in made[self.given.warm:]]
        return Played(statistics.mean(late), {name: told[name] / len(late) for name in self.network.products}, made)


def words_given():
    words = parser(NAME, __doc__)
    add_departures(words)
    words.add_argument("--runs", type=whole, default=1)
    words.add_argument("--seasons", type=whole, default=20)
    words.add_argument("--warm", type=whole, default=5)
    given = words.parse_args()
    if given.mode == "first":
        raise Stop("--mode first makes no plans, so it earns the same by all")
    if not given.warm < given.seasons:
        raise Stop(f"--warm {given.warm}: fewer than the {given.seasons} seasons are wanted")
    return given


def error_of(values):
    """The standard error of a mean."""
    return statistics.stdev(values) / len(values) ** 0.5 if len(values) > 1 else float("inf")


def tell(loop, results):
    """Prints a line for each way."""
    earned = {way: [it[way].revenue for it in results] for way in loop.ways}
    lost = [a - b for a, b in zip(earned["requests"], earned["sales"])]
    best = statistics.mean(earned["requests"]) / 100
    print(f"{loop.given.mode}, {loop.given.demand}: by requests a departure earns {100 * best:.0f}")
    for way in loop.ways[1:]:
        more, less = ([a - b for a, b in zip(earned[way], earned[other])] for other in ("sales", "requests"))
        mean_lost = statistics.mean(lost) or math.nan
        share = statistics.mean(more) / mean_lost
        spread = error_of([a - share * b for a, b in zip(more, lost)]) / abs(mean_lost)
        dear, cheap = (off(loop, results, way, it) for it in (True, False))
        print(f"by {way}: beside requests {statistics.mean(less) / best:.2f} +- {error_of(less) / best:.2f} %, "
              f"regained {100 * share:.0f} +- {100 * spread:.0f} %; demand off by {dear:.1f} % of dear and "
              f"{cheap:.1f} % of cheap products")


def tell_seasons(results):
    """Prints a line for each of some seasons: what plans of sales earn there, and the opening prices."""
    for number in BY_THEMSELVES:
        if number > len(results[0]["sales"].seasons):
            break
        requests, sales = ([it[way].seasons[number - 1] for it in results] for way in ("requests", "sales"))
        best = statistics.mean(it.revenue for it in requests) / 100
        less = [a.revenue - b.revenue for a, b in zip(sales, requests)]
        means = " and ".join(f"{statistics.mean(means):.1f} +- {error_of(means):.1f}" for means in (
            [float(statistics.mean(it.prices)) for it in some] for some in (requests, sales)))
        highest = float(max(max(it.prices) for it in sales))
        print(f"season {number}: by sales beside requests {statistics.mean(less) / best:.2f} +- "
              f"{error_of(less) / best:.2f} %; opening price of a leg by requests and by sales {means}, by sales at "
              f"most {highest:.1f}")


def off(loop, results, way, dear):
    """By how many per cent the demand of the dear or the cheap products is off in a way."""
    products = [it for it in loop.network.products if (it in loop.demand.dear) == dear]
    told, wanted = (sum(it[which].demand[name] for it in results for name in products) for which in (way, "requests"))
    return 100 * (told / wanted - 1)


def main():
    given = words_given()
    begun = time.perf_counter()
    with tempfile.TemporaryDirectory() as folder:
        loop = Loop(given, folder)
        results = []
        for number in range(given.runs):
            results.append(loop.run(number))
            earned = ", ".join(f"{way} {it.revenue:.0f}" for way, it in results[-1].items())
            print(f"run {number + 1}: a departure earns by {earned}", file=sys.stderr, flush=True)
    tell(loop, results)
    tell_seasons(results)
    departures = len(loop.ways) * given.runs * given.seasons * given.departures
    print(f"runs {given.runs}, departures {departures}, seconds {time.perf_counter() - begun:.0f}")


if __name__ == "__main__":
    end(main)
