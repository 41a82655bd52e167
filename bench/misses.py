"""What plans of too little or too much demand earn, beside plans of the demand itself, on the same seasons.

    bench/misses.py NETWORK... [--factors X,X..] [--scale X] [--seasons N] [--seed S] [--program WORD...]

The seasons are histories of the network, each as likely, with the requests of a period in an order that is drawn; plans
are made without the history that is played. Their demand is that of the histories times a factor, 0.8 and 1.2 if not
said, in whole numbers: the sums over the periods of a product are rounded to the nearest one. With --scale all
histories are first multiplied so, those that are played too. Told is what a season earns under `bid` and `davn` by
plans of the demand itself, and by how many per cent of that each factor earns more, with the standard error.
"""
import dataclasses
import os
import tempfile

from nrm.commands.running import add_program, parser
from nrm.network import Network, text_of, whole
from nrm.program import Program
from nrm.seasons.drawing import Settings
from nrm.seasons.playing import Player, ProgramTime, played
from nrm.seasons.results import Estimate
from running import NAME, end

MODES = ("bid", "davn")


def times(network, factor):
    """The network with its demand times a factor: the sums over the periods, rounded to the nearest whole number."""
    def seats(by_period):
        sums = [int(factor * sum(by_period[:it]) + 0.5) for it in range(len(by_period) + 1)]
        return tuple(high - low for low, high in zip(sums, sums[1:]))

    products = {name: dataclasses.replace(it, demand={history: seats(one) for history, one in it.demand.items()})
                for name, it in network.products.items()}
    return dataclasses.replace(network, products=products)


class Plans:
    """The files that plans of each factor are made of, without each history."""

    def __init__(self, network, folder):
        self.network, self.folder = network, folder

    def path(self, factor, history):
        """The path of the file of a factor, without a history."""
        path = os.path.join(self.folder, f"{factor}-{history}.csv")
        if not os.path.exists(path):
            with open(path, "w", encoding="ascii") as file:
                file.write(text_of(times(self.network.without(history), factor).rows()))
        return path


def main():
    words = parser(NAME, __doc__)
    words.add_argument("networks", nargs="+", metavar="NETWORK")
    words.add_argument("--factors", type=lambda it: [float(one) for one in it.split(",")], default=[0.8, 1.2])
    words.add_argument("--scale", type=float, default=1.0)
    words.add_argument("--seasons", type=whole, default=400)
    words.add_argument("--seed", type=whole, default=1)
    add_program(words)
    given = words.parse_args()
    program = Program.found(given.program)
    for path in given.networks:
        network, earned = times(Network.read(path), given.scale), {}
        with tempfile.TemporaryDirectory() as folder:
            player = Player(text_of(network.rows()).encode(), Settings(seed=given.seed), program, folder)
            plans = Plans(network, folder)
            for number in range(given.seasons):
                season = player.season(number)
                for mode in MODES:
                    for factor in (1.0, *given.factors):
                        it = played(network, season, program, mode, plans.path(factor, season.history), ProgramTime())
                        earned.setdefault((mode, factor), []).append(it.revenue)
        print(f"{path}, scale {given.scale}, seasons {given.seasons}")
        for mode in MODES:
            base = earned[mode, 1.0]
            mean = sum(base) / len(base)
            told = [f"{mode:5} {mean:10,.1f}"]
            for factor in given.factors:
                more = Estimate.of([a - b for a, b in zip(earned[mode, factor], base)])
                told.append(f"{factor}: {100 * more.mean / mean:+.2f} % +- {100 * more.error / mean:.2f}")
            print("  " + "   ".join(told), flush=True)


if __name__ == "__main__":
    end(main)
