"""The scripts of bench/ begin and end as the commands do."""
from __future__ import annotations

import re
import shutil
from pathlib import Path

from harness import EXAMPLES, TOP, PlaceTest
from nrm.network import Network

MEASURE = ("bookings", "kept", "plan", "read_network", "stream")


class Scripts(PlaceTest):
    def test_each_names_itself_and_gives_no_traceback(self) -> None:
        """With what is no program, or is none that plans."""
        for name in (*MEASURE, "serve", "operated", "fleet"):
            self.want_in(self.bench(name, "--help").out, f"usage: bench/{name}.py")
            none = f"bench/{name}.py: there is no program "
            for word, status, wanted in ((self.folder / "none", 1, f"{none}{self.folder}/none\n"),
                                         (self.folder, 1, f"{none}{self.folder}\n"),
                                         (TOP / "README.md", 1, none), ("--none", 2, "usage: ")):
                done = self.bench(name, word)
                self.assertEqual((done.status, "Traceback" in done.err), (status, False), done.err)
                self.assertTrue(done.err.startswith(wanted), done.err)

    def test_each_tells_of_a_program_that_fails(self) -> None:
        for name in set(MEASURE) - {"kept"}:
            done = self.bench(name, shutil.which("false"))
            self.assertEqual((done.status, "Traceback" in done.err), (1, False), done.err)
            self.want_in(done.err, "` ended with status 1\n")
        self.want_in(self.bench("plan", shutil.which("true")).err, "plan bid` writes no plan")
        self.want_in(self.bench("kept", shutil.which("false"), "--lines", "2").err, "didn't keep ")

    def test_parts_of_them_say_that_they_are_none(self) -> None:
        for name in ("networks", "running"):
            for words in ([], ["--help"]):
                done = self.bench(name, *words)
                self.assertEqual((done.out, done.status), ("", 1))
                self.assertTrue(done.err.startswith(f"{name}.py: no tool, but a part of "), done.err)

    def test_networks_of_studies_are_made_as_they_are_told(self) -> None:
        for made, legs, products, longest in (("train", 4, 90, 4), ("line", 6, 54, 4), ("spokes", 8, 72, 2)):
            path = self.file(f"{made}.csv", self.bench("studied", made).out)
            network = Network.read(path)
            self.assertEqual((len(network.legs), len(network.products), network.histories, network.periods),
                             (legs, products, 20, 8), made)
            self.assertEqual(max(len(it.legs) for it in network.products.values()), longest)
            asked = sum(len(it.legs) * it.demand_in_all() for it in network.products.values()) / network.histories
            self.assertAlmostEqual(asked / sum(it.seats for it in network.legs.values()), 1.2, delta=0.2)
            self.assertEqual(self.bench("studied", made).out.encode(), Path(path).read_bytes())
            self.assertEqual(self.bench("studied", made, "--seed", 2).out == Path(path).read_text(), False)
            self.nrm("print", path)

    def test_studies_of_control_play_few_seasons(self) -> None:
        network = EXAMPLES / "log" / "network.csv"
        done = self.bench("thresholds", network, "--seasons", 4, "--groups", "2,3", "--beside", "gaps 3",
                          *self.with_program)
        self.assertEqual((done.status, len(done.out.splitlines())), (0, 8), done.err)
        self.want_in(done.out, "beside gaps 3   0.00 % +- 0.00")
        done = self.bench("misses", network, "--seasons", 4, "--factors", "1,0", *self.with_program)
        self.assertEqual(done.status, 0, done.err)
        for line in done.out.splitlines()[1:]:
            self.want_in(line, "1.0: +0.00 % +- 0.00")
        self.assertNotIn("0.0: +0.00 %", done.out)
        done = self.bench("thresholds", network, "--beside", "none", *self.with_program)
        self.want_in(done.err, "--beside none is none of the rules")

    def test_studies_of_plans_of_sales_tell_the_same_of_like_plans(self) -> None:
        """In the first season all plans are of requests; sales leave no bid prices behind; and periods that are cut and
        joined to as many as they were are as they were."""
        season = EXAMPLES / "season" / "network.csv"
        few = ["--mode", "bid", "--runs", 2, "--departures", 4, *self.with_program]
        done = self.bench("loop", season, *few, "--seasons", 3, "--warm", 1)
        self.assertEqual(done.status, 0, done.err)
        first, second, third = [line for line in done.out.splitlines() if line.startswith("season ")]
        self.want_in(first, "season 1: by sales beside requests 0.00 +- 0.00 %;")
        price, same = re.findall(r"([1-9][0-9.]*) \+- ", first.partition(";")[2])
        self.assertEqual(price, same)
        for line in (second, third):
            self.want_in(line, "by requests and by sales ")
            self.want_in(line, " and 0.0 +- 0.0, by sales at most 0.0")
        few += ["--played", 2]
        done = self.bench("newcomer", season, *few, "--counts", "32", "--periods=", "--others")
        self.assertEqual((done.status, len(done.out.splitlines())), (0, 3), done.err)
        self.want_in(done.out, "more by one draw 0.00 +- 0.00, ")
        for way in ("the mean", "daily readings", "weekly readings"):
            self.want_in(done.out, f"more by {way} ")
            self.assertNotIn(f"more by {way} 0.00 +- 0.00, ", done.out)
        done = self.bench("newcomer", season, *few, "--counts", "2,2,4", "--periods", "4,4,2,16")
        self.assertEqual(done.status, 0, done.err)
        told = done.out.splitlines()
        self.assertEqual(told[0], "bid, factor: the mean demand of a product is 8.69 seats")
        self.assertEqual([line.partition(":")[0] for line in told[1:4]],
                         ["departures 2", "departures 2", "departures 4"])
        self.assertEqual(told[1], told[2])
        self.assertNotEqual(told[2].partition(":")[2], told[3].partition(":")[2])
        for mode in ("bid", "davn"):
            self.assertIn(f"{mode}, periods 4: earns 0.00 +- 0.00 % more", told)
            for periods in (2, 16):
                self.assertNotIn(f"{mode}, periods {periods}: earns 0.00 +- 0.00 % more", told)

    def test_the_export_that_is_an_example_is_made_again(self) -> None:
        words = ["--fridays", "--a-day", 110, "--trains", 2, "--of-a-train", 30]
        done = self.bench("export", "bookings.csv", "seats.csv", *words)
        self.assertEqual((done.out, done.status), (
            "rows 1564, there twice 12, cancellations alone 2, open quote in line 800, total in line 1568, "
            "no departure on 2025-04-18\n", 0), done.err)
        for name in ("bookings.csv", "seats.csv"):
            there = (TOP / "examples" / "export" / name).read_bytes()
            self.assertTrue((self.folder / name).read_bytes() == there, name)
