#!/usr/bin/env python3
"""What a line costs, by the number of bookings that stand.

    bench/bookings.py [PROGRAM]

`nrm run first` on 64 legs of 999 seats and 256 products, one leg each. A stream books one seat at a time until so many
bookings stand, and then goes on with lines of one kind: a booking and the cancellation of the oldest one, in turn, the
same with one from the middle, or reports of legs. The cost of a line is the time that they add to the bookings alone,
divided by their number; of each stream the least of nine runs, which take turns.
"""
import functools
import os
import tempfile

import networks
from running import built, end, least_of, timed, words_of

RUNS = 9
STANDING = [100, 10_000, 60_000]
LINES = 100_000
LEGS, PRODUCTS = 64, 256


def book(at):
    return f"book P{at % PRODUCTS:03} 1"


def turns(standing, before=0):
    """The cancellation of the booking that has so many of those that stand before it, and the booking of the next
    product."""
    for at in range(LINES // 2):
        yield f"cancel {before + at + 1}"
        yield book(standing + at)


def middle_turns(standing):
    return turns(standing, standing // 2)


def reports(_):
    for at in range(LINES):
        yield f"leg L{at % LEGS:02}"


KINDS = {"book, cancel the oldest": turns, "book, cancel one from the middle": middle_turns, "leg": reports}


def answered(program, folder, path):
    with open(path, "rb") as given:
        return timed([program, "run", "first", "NETWORK"], cwd=folder, stdin=given)


def main():
    program = built(words_of(__doc__).program)
    with tempfile.TemporaryDirectory() as folder:
        networks.wide().write(os.path.join(folder, "NETWORK"))
        streams = {}
        for standing in STANDING:
            for kind in [None, *KINDS]:
                path = os.path.join(folder, f"STREAM-{len(streams)}")
                streams[standing, kind] = path
                with open(path, "w") as file:
                    print(*map(book, range(standing)), *(KINDS[kind](standing) if kind else ()), sep="\n", file=file)
        runs = {key: functools.partial(answered, program, folder, path) for key, path in streams.items()}
        least = least_of(runs, RUNS)
        for kind in KINDS:
            for standing in STANDING:
                cost = (least[standing, kind] - least[standing, None]) / LINES
                print(f"{kind}, {standing:,} standing: {cost * 1e6:.2f} microseconds a line")


if __name__ == "__main__":
    end(main)
