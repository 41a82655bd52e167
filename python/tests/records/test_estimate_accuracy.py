"""How near the estimate comes: logs of made departures whose requests are known, plans of it season after season, and
the limits in time."""
from __future__ import annotations

import csv
import datetime
import random
import re
import shutil
import time

from harness import EXAMPLES, SECONDS
from nrm.limits import MOST_HISTORIES, MOST_LEGS, MOST_PERIODS, MOST_PRODUCTS
from nrm.network import Network, text_of
from records.made_sales import BOOKINGS, CLOSURES, COLUMNS, SalePlace
from seasons.clusters import takes_long

SEASON = EXAMPLES / "season" / "network.csv"
CUTS, DEPARTURES = [*COLUMNS[:-1], "45,21,7", "--opens", "90"], 10
MINUTES = 40 * SECONDS
LINE = re.compile(r"by (\w+): beside requests .*, regained (-?\d+) \+-")


class Made(SalePlace):
    """A test of the scripts of bench/ that play departures by the program."""

    def printed(self, name: str, *words: object) -> str:
        """What a script prints."""
        done = self.bench(name, *words, *self.with_program, seconds=MINUTES)
        self.assertEqual(done.status, 0, done.err)
        return done.out


class Scripts(Made):
    def test_each_tells_what_it_lacks(self) -> None:
        for name, words in (("loop", []), ("newcomer", []), ("sold", [self.folder])):
            self.want_in(self.bench(name, "--help").out, f"usage: bench/{name}.py NETWORK")
            none, false = self.folder / "none", ["--program", shutil.which("false")]
            for more, status, wanted in (
                    ([none, *words], 1, f"bench/{name}.py: {none}: No such file or directory\n"),
                    ([SEASON, *words, *false], 1, "` ended with status 1\n"),
                    ([SEASON, *words, *false, "--cuts", "7"], 1, "--cuts makes 2 periods, and the network has 4\n"),
                    ([], 2, "usage: ")):
                done = self.bench(name, *more)
                self.assertEqual((done.status, "Traceback" in done.err), (status, False), done.err)
                self.want_in(done.err, wanted)
        for words, wanted in ((["--mode", "first"], "--mode first makes no plans"),
                              (["--warm", "20"], "--warm 20: fewer")):
            self.want_in(self.bench("loop", SEASON, *words).err, f"bench/loop.py: {wanted}")
        for words, wanted in ((["--mode", "first"], "--mode first makes no plans"),
                              (["--counts", "5,33"], "--counts: each is to be 1 to 32"),
                              (["--periods", "0"], "--periods: each is to be 1 to 16"),
                              (["--runs", "0"], "--runs 0: one at least")):
            self.want_in(self.bench("newcomer", SEASON, *words).err, f"bench/newcomer.py: {wanted}")
        for words in ([], ["--help"]):
            self.want_in(self.bench("departures", *words).err, "departures.py: no tool, but a part of ")


class Logs(Made):
    """Logs of ten departures of the example's season: what is estimated of the bookings and closures, beside the
    requests."""

    def column(self, path: str, name: str) -> dict[str, float]:
        """A column of a file by its first."""
        with open(self.folder / path, encoding="ascii", newline="") as file:
            return {row["product"]: float(row[name]) for row in csv.DictReader(file) if row[name]}

    def asked(self, path: str) -> dict[str, float]:
        """The mean seats of a departure by product, of a log."""
        seats = dict.fromkeys(Network.read(str(SEASON)).products, 0.0)
        with open(self.folder / path, encoding="ascii", newline="") as file:
            for row in csv.DictReader(file):
                seats[row["Product"]] += int(row["Seats"]) / DEPARTURES
        return seats

    def off(self, mode: str, seed: int) -> tuple[float, int, int]:
        """How far a product is off from its requests, as a share of how far its bookings are; and of how many products
        with an error the true mean is within two of these."""
        self.printed("sold", SEASON, "made", "--mode", mode, "--seed", seed)
        self.told("demand", "made/bookings.csv", *CUTS, "--closures", "made/closures.csv", "--network", SEASON,
                  "--report", "report.csv")
        requests, bookings = self.asked("made/requests.csv"), self.asked("made/bookings.csv")
        estimated, errors = self.column("report.csv", "estimated"), self.column("report.csv", "standard error")
        with open(self.folder / "made" / "truth.csv", encoding="ascii", newline="") as file:
            truth = {row["product"]: float(row["mean demand"]) for row in csv.DictReader(file)}
        by_estimate = sum(abs(estimated.get(it, 0) - requests[it]) for it in requests)
        by_bookings = sum(abs(bookings[it] - requests[it]) for it in requests)
        within = sum(abs(estimated[it] - truth[it]) <= 2 * errors[it] for it in errors)
        return by_estimate / by_bookings, within, len(errors)

    def test_a_few_logs(self) -> None:
        """A product is off by half of what its bookings are at most, and most true means are within two errors."""
        found = [self.off(mode, 1) for mode in ("davn", "first")]
        self.assertLessEqual(max(share for share, _, _ in found), 0.5, found)
        self.assertGreaterEqual(sum(it[1] for it in found) / sum(it[2] for it in found), 0.85, found)

    @takes_long
    def test_twelve_logs(self) -> None:
        """Four of each mode: on the mean by 0.4, on each by 0.5, and the truth is within two errors for 88 of 100."""
        found = [self.off(mode, seed) for mode in ("davn", "bid", "first") for seed in range(1, 5)]
        print(*[f"{share:.2f}" for share, _, _ in found], sum(it[1] for it in found), sum(it[2] for it in found))
        self.assertLessEqual(sum(share for share, _, _ in found) / len(found), 0.4, found)
        self.assertLessEqual(max(share for share, _, _ in found), 0.5, found)
        self.assertGreaterEqual(sum(it[1] for it in found) / sum(it[2] for it in found), 0.88, found)


class Loop(Made):
    """Seasons that are planned from the sales of the one before lose, and with the estimate regain nearly all of it."""

    def regained(self, *words: object) -> dict[str, int]:
        """By the way of planning, how much of what plans of sales lose it regains, in per cent."""
        told = self.printed("loop", SEASON, *words)
        found = {match[1]: int(match[2]) for match in LINE.finditer(told)}
        self.assertEqual(sorted(found), ["before", "estimate", "sales"], told)
        return found

    def test_a_few_seasons(self) -> None:
        found = self.regained("--mode", "bid", "--seasons", "6", "--warm", "2")
        self.assertGreater(min(found["estimate"], found["before"]), 80, found)
        self.assertEqual(found["sales"], 0)

    @takes_long
    def test_twenty_seasons(self) -> None:
        for mode, least in (("davn", 90), ("bid", 98)):
            found = self.regained("--mode", mode, "--runs", "8")
            print(mode, found)
            self.assertGreaterEqual(max(found["estimate"], found["before"]), least, (mode, found))


class Limits(Made):
    """As many legs, products, periods and departures as there may be."""

    def made(self, products: int, departures: int) -> list[str]:
        """The words for a log with some products and departures, each with some twelve bookings and often a closure or
        more, of which the last one stays."""
        draw, rows, shut = random.Random(3), [BOOKINGS], [CLOSURES]
        legs = [f"L{it:02}" for it in range(MOST_LEGS)]
        network = [["periods", departures, MOST_PERIODS], *[["leg", it, 300] for it in legs],
                   *[["product", f"P{it:03}", draw.randint(50, 999), *draw.sample(legs, draw.randint(1, 4))]
                     for it in range(products)]]
        for h in range(departures):
            day, strength = datetime.date(2025, 1, 31) + datetime.timedelta(7 * h), draw.gammavariate(16, 1 / 16)
            for product in range(products):
                ends = sorted(draw.sample(range(1, 24), draw.choice((0, 1, 3, 5))), reverse=True)
                for first, last in zip(ends[::2], [*ends[1::2], None]):
                    until = f"{day - datetime.timedelta(last)} 09:00" if last else ""
                    shut.append(f"{day},P{product:03},{day - datetime.timedelta(first)} 14:30,{until}\n")
                for _ in range(round(12 * strength)):
                    rows.append(f"{day - datetime.timedelta(draw.randint(0, 24))},{day},P{product:03},1\n")
        cuts = ",".join(str(it) for it in range(MOST_PERIODS - 1, 0, -1))
        return [self.file("log.csv", "".join(rows)), *COLUMNS[:-1], cuts, "--closures",
                self.file("closures.csv", "".join(shut)), "--network", self.file("network.csv", text_of(network))]

    def seconds(self, products: int, departures: int) -> float:
        """The processor time of the command on such a log."""
        words, begun = self.made(products, departures), time.process_time()
        made = self.told("demand", *words)
        self.assertEqual(made.splitlines()[0], f"periods,{MOST_HISTORIES},{MOST_PERIODS}")
        return time.process_time() - begun

    def test_an_eighth_of_the_limits(self) -> None:
        self.assertLess(self.seconds(MOST_PRODUCTS // 4, MOST_HISTORIES // 2), 10)

    @takes_long
    def test_the_limits(self) -> None:
        spent = self.seconds(MOST_PRODUCTS, MOST_HISTORIES)
        print(f"{spent:.1f} s")
        self.assertLess(spent, 20)
