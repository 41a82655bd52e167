"""How many departures and how many periods plans are to be made of.

    bench/newcomer.py NETWORK [--counts N,N..] [--periods N,N..] [--runs N] [--played N] [--others] [--mode MODE]
                      [--demand KIND] [--scale X] [--down P] [--again P] [--departures N] [--seed S]
                      [--cuts DAYS,DAYS..] [--program WORD...]

A newcomer has so many departures that were sold first come, first served, as --counts says, and makes a plan of their
requests, of the estimate of `nrm-tools demand` from their sales and closures, or of their sales as they are. Told is
what is lost by each in --played further departures under --mode, in per cent, beside a plan of the requests of 32
others, the most that a network file takes; and how far the mean demand of a product is off, by requests and by the
estimate, as the root of the mean square, beside the standard error that the estimate tells. Products that were never
open in some period have no error, and are left out of the three last. With --others plans are made by the estimate in
other ways too, and told is what is lost more than by the estimate: of one draw, of the mean, and of readings of what
is open at noon of each day, or of each seventh, in the place of closures.

Then each period of NETWORK is cut, or several are joined, to as many as --periods says, at like times. Plans of the
requests of --departures departures, made again at the start of each period, sell --played further ones under `bid` and
`davn`. Told is what they earn more than by the first of these numbers. All get the same customers. KIND is poisson,
factor or rough: bench/departures.py says what they are. Where --counts or --periods is empty, its part is left out.
"""
import collections
import dataclasses
import itertools
import math
import random
import statistics
import sys
import tempfile
import time

from departures import Board, Demand, add_departures, counted
from loop import OPENS, Estimates, error_of
from nrm import Stop
from nrm.commands.running import parser
from nrm.limits import MOST_HISTORIES, MOST_PERIODS
from nrm.network import Network, whole
from nrm.program import Program
from nrm.records.closures import NOON, AvailabilityReading, closures_between
from nrm.records.estimate_results import carried, drawn
from running import NAME, end

MODES = ("bid", "davn")
WAYS = ("requests", "estimate", "sales")


def recut(periods, count):
    """The customers of some periods in as many like ones as are wanted."""
    made = [[] for _ in range(count)]
    for number, customers in enumerate(periods):
        for it in customers:
            at = (number + it.time) * count / len(periods)
            period = min(int(at), count - 1)
            made[period].append(it._replace(time=at - period))
    return made


def readings(network, closures, departures, days):
    """Whether each product of some departures is open, at a noon in so many days."""
    closed = collections.defaultdict(list)
    for it in closures:
        closed[it.departs, it.product].append((it.first, it.last))
    for departs, name in itertools.product(departures, network.products):
        for at in range(-OPENS, 1, days):
            moment = at + NOON
            is_closed = any(first <= moment < last for first, last in closed[departs, name])
            yield AvailabilityReading(departs, name, moment, not is_closed)


def mean_of(values):
    """The mean of some numbers, which isn't a number where there are none."""
    return statistics.mean(values) if values else math.nan


def root_of_mean_square(values):
    """How large some numbers are."""
    return mean_of([it * it for it in values]) ** 0.5


class Newcomer:
    """Departures of a network, which are sold under plans of few others."""

    def __init__(self, given, folder):
        self.network, self.given, self.folder = Network.read(given.network), given, folder
        self.demand = Demand(self.network, given)
        self.truth = {name: sum(by_period) for name, by_period in self.demand.means.items()}
        self.estimates = Estimates(self.network, given)
        self.program = Program.found(given.program)
        self.first, self.later = (Board(self.network, self.program, it, folder) for it in ("first", given.mode))

    def departures(self, count):
        """The customers of some departures."""
        return [self.demand.departure(self.draw) for _ in range(count)]

    def begin(self, kind, number):
        """Begins a run of a kind: its draws are those of its number alone."""
        self.draw = random.Random(f"{self.given.seed} {kind} {number}")

    @staticmethod
    def earned(board, histories, fresh):
        """What a departure earns by plans of some histories."""
        board.plan_by(histories)
        return statistics.mean(board.sell(it).revenue for it in fresh)

    # By the number of departures

    def by_count(self, number):
        """A run: what is found of each number of departures, by its name."""
        self.begin("counts", number)
        fresh = self.departures(self.given.played)
        many = [counted(self.network, it) for it in self.departures(MOST_HISTORIES)]
        seen = self.departures(max(self.given.counts))
        best = self.earned(self.later, many, fresh)
        self.first.plan_by(many)
        sales = [self.first.sell(it) for it in seen]
        return [self.found(sales[:count], fresh, best, number) for count in self.given.counts]

    def found(self, sales, fresh, best, number):
        """What is found of some sales, where plans of many departures earn so much: losses in per cent, the rest in
        seats."""
        requests = [counted(self.network, it.asked) for it in sales]
        requested, closures = self.estimates.log(sales)
        rates = self.estimates.rates(requested, closures)
        names = rates.sale.products
        known = [j for j in rates.products if not rates.never_open(j)]
        plans = {"requests": requests, "estimate": self.estimates.drawn(rates, number),
                 "sales": [counted(self.network, it.asked, it.sold) for it in sales]}
        if self.given.others:
            plans["one draw"] = self.estimates.histories(rates, drawn(rates, 1, number))
            plans["the mean"] = self.estimates.histories(rates, carried(rates))
            for name, days in (("daily readings", 1), ("weekly readings", 7)):
                known_by = list(closures_between(readings(self.network, closures, rates.sale.departures, days)))
                plans[name] = self.estimates.drawn(self.estimates.rates(requested, known_by), number)
        lost = {way: 100 * (1 - self.earned(self.later, histories, fresh) / best) for way, histories in plans.items()}
        found = {f"lost by {way}": lost[way] for way in WAYS}
        found.update({f"more by {way}": it - lost["estimate"] for way, it in lost.items() if way not in WAYS})
        asked = {name: statistics.mean(sum(it[name]) for it in requests) for name in self.truth}
        off = [rates.mean(j) - self.truth[names[j]] for j in known]
        errors = [rates.error(j) for j in known]
        return {**found, "off by requests": root_of_mean_square([asked[it] - self.truth[it] for it in self.truth]),
                "off by estimate": root_of_mean_square(off), "error told": root_of_mean_square(errors),
                "within two errors": mean_of([100 * (abs(a) <= 2 * b) for a, b in zip(off, errors)])}

    # By the number of periods

    def by_periods(self, number):
        """A run: what a departure earns by the number of periods and the mode."""
        self.begin("periods", number)
        fresh, seen = self.departures(self.given.played), self.departures(self.given.departures)
        earned = {}
        for count in self.given.periods:
            network = dataclasses.replace(self.network, periods=count)
            histories = [counted(network, recut(it, count)) for it in seen]
            for mode in MODES:
                board = Board(network, self.program, mode, self.folder)
                earned[mode, count] = self.earned(board, histories, [recut(it, count) for it in fresh])
        return earned


def numbers(text):
    """Whole numbers with commas between them."""
    return [whole(it) for it in text.split(",") if it]


def words_given():
    words = parser(NAME, __doc__)
    add_departures(words)
    words.add_argument("--counts", type=numbers, default=numbers("5,10,20,32"))
    words.add_argument("--periods", type=numbers, default=numbers("4,1,8,16"))
    words.add_argument("--runs", type=whole, default=40)
    words.add_argument("--played", type=whole, default=20)
    words.add_argument("--others", action="store_true")
    given = words.parse_args()
    for word, some, most in (("--counts", given.counts, MOST_HISTORIES), ("--periods", given.periods, MOST_PERIODS)):
        if any(not 1 <= it <= most for it in some):
            raise Stop(f"{word}: each is to be 1 to {most}")
    for word, number in (("runs", given.runs), ("played", given.played), ("departures", given.departures)):
        if number < 1:
            raise Stop(f"--{word} {number}: one at least is wanted")
    if given.mode == "first":
        raise Stop("--mode first makes no plans, so it earns the same by all")
    return given


def with_error(values):
    """A mean and its standard error, as they are told."""
    return f"{statistics.mean(values):.2f} +- {error_of(values):.2f}"


def tell_counts(given, truth, results):
    """Prints a line for each number of departures."""
    print(f"{given.mode}, {given.demand}: the mean demand of a product is {statistics.mean(truth.values()):.2f} seats")
    for at, count in enumerate(given.counts):
        told = [f"{name} {with_error([it[at][name] for it in results])}" for name in results[0][at]]
        print(f"departures {count}: {', '.join(told)}", flush=True)


def tell_periods(given, results):
    """Prints a line for each mode and number of periods."""
    first = given.periods[0]
    for mode in MODES:
        base = statistics.mean(it[mode, first] for it in results)
        print(f"{mode}, {given.demand}: with periods {first} a departure earns {base:.0f}")
        for count in given.periods[1:]:
            more = [100 * (it[mode, count] - it[mode, first]) / base for it in results]
            print(f"{mode}, periods {count}: earns {with_error(more)} % more", flush=True)


def main():
    given = words_given()
    begun = time.perf_counter()
    with tempfile.TemporaryDirectory() as folder:
        newcomer = Newcomer(given, folder)
        for some, run, tell in ((given.counts, newcomer.by_count, lambda it: tell_counts(given, newcomer.truth, it)),
                                (given.periods, newcomer.by_periods, lambda it: tell_periods(given, it))):
            if some:
                results = []
                for number in range(given.runs):
                    results.append(run(number))
                    print(f"run {number + 1} of {given.runs}, seconds {time.perf_counter() - begun:.0f}",
                          file=sys.stderr, flush=True)
                tell(results)
    print(f"runs {given.runs} of {given.played} departures, seconds {time.perf_counter() - begun:.0f}")


if __name__ == "__main__":
    end(main)
