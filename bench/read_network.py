#!/usr/bin/env python3
"""How long the program takes to read and print a network file at the limits.

    bench/read_network.py [PROGRAM...]

The file has 64 legs, 256 products on 4 legs each, and 32 histories of 16 periods: 8,192 demand rows of two-figure
demands. The program reads it and writes its canonical file; an empty stream on it shows the reading
alone. Of each, the least and the middle of 15 runs. Several builds of the program are run in turn, so that what else
the machine does falls on each of them.
"""
import os
import random
import tempfile

from running import built, end, timed, words_of

RUNS = 15


def network(path):
    random.seed(1)
    with open(path, "w") as file:
        print("periods,32,16", file=file)
        for i in range(64):
            print(f"leg,LEG-NUMBER{i:02}"[:16], 999, *range(99999999, 99999990, -1), sep=",", file=file)
        for j in range(256):
            legs = random.sample(range(64), 4)
            names = [f"LEG-NUMBER{i:02}" for i in legs]
            print(f"product,PRODUCT-{j:04}", 99999999, *names, sep=",", file=file)
        for j in range(256):
            for h in range(1, 33):
                seats = [random.randrange(10, 63) for _ in range(16)]
                print(f"demand,PRODUCT-{j:04}", h, *seats, sep=",", file=file)


def main():
    programs = [built(it) for it in words_of(__doc__, "*").program] or [built()]
    with tempfile.TemporaryDirectory() as folder:
        path = os.path.join(folder, "NETWORK")
        network(path)
        print(f"file: {os.path.getsize(path):,} bytes")
        for words in (["run", "first", "NETWORK"], ["print", "NETWORK"]):
            rounds = [[timed([program, *words], cwd=folder) for program in programs] for _ in range(RUNS)]
            for program, times in zip(programs, zip(*rounds)):
                least, middle = min(times) * 1000, sorted(times)[RUNS // 2] * 1000
                print(f"{program} {' '.join(words)}: least {least:.1f} ms, middle {middle:.1f} ms")


if __name__ == "__main__":
    end(main)
