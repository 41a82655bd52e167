"""Thresholds of several rules, under `davn` on the same seasons, beside `bid`: on which network does which earn most?

    bench/thresholds.py NETWORK... [--seasons N] [--groups N,N..] [--beside RULE] [--seed S] [--program WORD...]

The seasons are histories of the network, each as likely, with the requests of a period in an order that is drawn; plans
are made without the history that is played. The rules are those of `nrm-tools thresholds`: the file's own thresholds,
cuts of the fares, and of adjusted fares the largest gaps and the least cost, each in so many groups (3,5,10). Told is
what `bid` earns in a season, and by how many per cent of that each rule under `davn` earns more than `bid` does, and
than a rule does (cost 5), with the standard error.
"""
import dataclasses
import tempfile

from nrm import Stop, bytes_in
from nrm.commands.running import add_program, parser
from nrm.network import Network, text_of, whole
from nrm.program import Program
from nrm.seasons.drawing import Settings
from nrm.seasons.playing import Player
from nrm.seasons.results import Estimate
from nrm.seasons.search_thresholds import proposed, rows_of_thresholds
from running import NAME, end


def earned(source, settings, program, numbers):
    """What each season of some numbers earns on a network file's bytes, in the one mode of the settings."""
    with tempfile.TemporaryDirectory() as folder:
        player = Player(source, settings, program, folder)
        return [it.revenue for number in numbers for it in player.outcomes(player.season(number)).values()]


def main():
    words = parser(NAME, __doc__)
    words.add_argument("networks", nargs="+", metavar="NETWORK")
    words.add_argument("--seasons", type=whole, default=400)
    words.add_argument("--groups", type=lambda it: [whole(one) for one in it.split(",")], default=[3, 5, 10])
    words.add_argument("--beside", default="cost 5", metavar="RULE")
    words.add_argument("--seed", type=whole, default=1)
    add_program(words)
    given = words.parse_args()
    program, settings = Program.found(given.program), Settings(seed=given.seed, modes=("davn",), leave_out=True)
    for path in given.networks:
        network, numbers = Network.read(path), range(given.seasons)
        bid = earned(bytes_in(path), dataclasses.replace(settings, modes=("bid",)), program, numbers)
        mean = sum(bid) / len(bid)
        print(f"{path}: bid {mean:,.1f}, seasons {given.seasons}")
        rules = {name: it for name, it in proposed(path, network, max(given.groups), program)
                 if name.split()[-1] in map(str, given.groups) or not name[-1].isdigit()}
        if given.beside not in rules:
            raise Stop(f"--beside {given.beside} is none of the rules: {', '.join(rules)}")
        found = {name: earned(text_of(rows_of_thresholds(network, it)).encode(), settings, program, numbers)
                 for name, it in rules.items()}
        for name, values in found.items():
            told = []
            for other, base in (("bid", bid), (given.beside, found[given.beside])):
                more = Estimate.of([a - b for a, b in zip(values, base)])
                told.append(f"beside {other} {100 * more.mean / mean:6.2f} % +- {100 * more.error / mean:.2f}")
            print(f"  davn, {name:10} {', '.join(told)}", flush=True)


if __name__ == "__main__":
    end(main)
