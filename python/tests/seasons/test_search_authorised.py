"""Authorised seats are searched for on the same seasons, and a search that was cut goes on."""
from __future__ import annotations

import contextlib
import functools
import io
import json
import os
import signal
import subprocess
import unittest
from typing import Sequence

from harness import EXAMPLES, PlaceTest
from nrm import Stop
from nrm.network import Network, rows_of
from nrm.seasons.overbooking_rules import Seats
from nrm.seasons.search_authorised import Search, rows_with, units_of
from nrm.seasons.search_fields import Earned, Field, Play, ProgressLine, Tries
from seasons.clusters import LOG, SECONDS, needs_dask, wait_for

LEGS = (b"periods,1,1\nleg,A-1,10\nleg,A-2,10\nleg,B,20\nleg,IDLE,5\n"
        b"product,P,100,A-1,A-2\nproduct,Q,90,B\ndemand,P,1,9\n")
BEST = {"A-1": 17, "A-2": 9, "B": 31}


class Cut(Exception):
    """A run is cut."""


def hill(text: str, numbers: range) -> list[Earned]:
    """What seasons earn that is the more the nearer the seats are to the best, a little otherwise in each season."""
    network = Network.of(rows_of(text.encode()))
    far = sum((network.legs[name].authorised - best) ** 2 for name, best in BEST.items())
    return [Earned(10_000 - far + number % 3, number % 2) for number in numbers]


class Counting:
    """Plays as another does, counts how often each text was played, and is cut where it has played so many."""

    def __init__(self, play: Play, until: int = 1_000_000) -> None:
        self.play, self.until, self.texts = play, until, list[str]()

    def __call__(self, text: str, numbers: range) -> Sequence[Earned]:
        if len(self.texts) == self.until:
            raise Cut
        self.texts.append(text)
        return self.play(text, numbers)


class Searches(PlaceTest):
    def setUp(self) -> None:
        super().setUp()
        self.network = Network.of(rows_of(LEGS))
        self.begin = {name: it.seats for name, it in self.network.legs.items()}
        self.told: list[str] = []

    def searched(self, play: Play, together: Sequence[Sequence[str]] = (), sweeps: int = 9,
                 path: str | None = None) -> Seats:
        field = Field(play, Tries(path, {"seed": 1}), range(5))
        search = Search(self.network, units_of(self.network, together), field, ProgressLine(self.told.append))
        return search.from_seats(self.begin, sweeps)

    def test_it_finds_the_top_of_a_hill_and_plays_nothing_twice(self) -> None:
        play = Counting(hill)
        self.assertEqual(self.searched(play), {**BEST, "IDLE": 5})
        self.assertEqual(len(play.texts), len(set(play.texts)))
        self.assertFalse([it for it in play.texts if "leg,IDLE,5,5\n" not in it], "a leg without a product is left")
        self.assertIn("sweep 2 of at most 9: ", self.told[-1])
        self.told.clear()
        self.searched(play, sweeps=1)
        self.assertEqual(len(self.told), 1)

    def test_it_stays_where_nothing_is_more(self) -> None:
        def flat(_: str, numbers: range) -> list[Earned]:
            return [Earned(7, 0)] * len(numbers)
        self.assertEqual(self.searched(flat), self.begin)

    def test_it_stays_within_what_a_leg_may_have(self) -> None:
        def steep(text: str, numbers: range, way: int) -> list[Earned]:
            network = Network.of(rows_of(text.encode()))
            return [Earned(way * sum(it.authorised for it in network.legs.values()), 0)] * len(numbers)
        for way, end in ((1, 999), (-1, 0)):
            found = self.searched(functools.partial(steep, way=way))
            self.assertEqual(found, {"A-1": end, "A-2": end, "B": end, "IDLE": 5})

    def test_legs_together_have_one_number(self) -> None:
        self.assertEqual(units_of(self.network, []), [("A-1",), ("A-2",), ("B",), ("IDLE",)])
        self.assertEqual(units_of(self.network, [["A-*"]]), [("A-1", "A-2"), ("B",), ("IDLE",)])
        self.assertEqual(self.searched(hill, [["A-*"]]), {"A-1": 13, "A-2": 13, "B": 31, "IDLE": 5})
        for together, wanted in (([["A-1", "B"]], "A-1, B have different numbers of seats"), ([[]], "have different numbers"),
                                 ([["C"]], "C names no leg"), ([["A-1"], ["A-*"]], "names A-1 twice")):
            with self.assertRaisesRegex(Stop, wanted):
                units_of(self.network, together)

    def test_a_run_that_was_cut_goes_on(self) -> None:
        whole = Counting(hill)
        wanted, path = self.searched(whole), str(self.folder / "tries.jsonl")
        cut, rest = Counting(hill, 7), Counting(hill)
        self.assertRaises(Cut, self.searched, cut, path=path)
        with open(path, "a") as file:
            file.write('{"file": "half of a li')
        self.assertEqual(self.searched(rest, path=path), wanted)
        self.assertEqual(cut.texts + rest.texts, whole.texts)
        again = Counting(hill)
        self.assertEqual((self.searched(again, path=path), again.texts), (wanted, []))

    def test_tries_of_another_run_are_refused(self) -> None:
        path = str(self.folder / "tries.jsonl")
        Tries(path, {"seed": 1, "denied_cost": 5})
        with self.assertRaisesRegex(Stop, "differs in: denied-cost$"):
            Tries(path, {"seed": 1, "denied_cost": 6})
        for content in ("", "{}\n", "[]\n", '{"seed": 1, "denied_cost": 5}\n{"file": 1}\n', "\x00\n"):
            with self.assertRaisesRegex(Stop, "isn't what a search writes"):
                Tries(self.file("other.jsonl", content), {"seed": 1, "denied_cost": 5})


class Terminal(io.StringIO):
    """Standard error that is a terminal."""

    def isatty(self) -> bool:
        return True


class Progress(unittest.TestCase):
    def test_it_is_one_line_of_a_terminal_and_few_lines_else(self) -> None:
        for stream, wanted in ((Terminal(), "\rone try, 0 s\x1b[K\rtwo tries, 0 s\x1b[K\r\x1b[K"), (io.StringIO(), "")):
            told: list[str] = []
            with contextlib.redirect_stderr(stream):
                line = ProgressLine(told.append)
                line.say("one try")
                line.say("two tries")
                line.end("a sweep")
            self.assertEqual((stream.getvalue(), told), (wanted, ["a sweep, 0 s"]))


class Files(PlaceTest):
    def test_other_seats_leave_all_else_as_it_is(self) -> None:
        network = Network.read(str(EXAMPLES / "season" / "network.csv"))
        same = {name: it.authorised for name, it in network.legs.items()}
        self.assertEqual(rows_with(network, same), list(network.rows()))
        first = Network.read(LOG)
        rows = rows_with(first, {"ZRH-VIE": 9, "VIE-BUD": 5})
        self.assertEqual(rows[:3], [["periods", 3, 3, 2], ["leg", "ZRH-VIE", 8, 9, 200, 90],
                                    ["leg", "VIE-BUD", 6, 5, 150, 60]])
        self.assertEqual(rows[3:], list(first.rows())[3:])


@needs_dask
class Command(PlaceTest):
    def authorised(self, *words: object) -> str:
        return self.told("authorise", LOG, "--show", "0.9", "--denied-cost", 300, *words, *self.with_program,
                         timeout=SECONDS)

    def test_it_finds_the_same_on_one_worker_as_on_two_and_goes_on(self) -> None:
        few = ["--seasons", 12, "--check", 8, "--sweeps", 1]
        for workers in (1, 2):
            self.authorised(*few, "--workers", workers, "--out", workers)
        one, two = ({it.name: it.read_bytes() for it in (self.folder / name).iterdir()} for name in "12")
        self.assertEqual(one, two)
        self.assertEqual(sorted(one), ["network-authorised.csv", "summary.txt", "tries.jsonl"])
        self.nrm("print", "1/network-authorised.csv")
        tries = self.folder / "1" / "tries.jsonl"
        lines = tries.read_text().splitlines(keepends=True)
        tries.write_text("".join(lines[:3]))
        (self.folder / "1" / "summary.txt").unlink()
        told = self.authorised(*few, "--workers", 1, "--out", 1)
        self.assertEqual({it.name: it.read_bytes() for it in (self.folder / "1").iterdir()}, one)
        self.assertTrue(told.startswith(one["summary.txt"].decode()))
        self.want_in(told, f"\nnetwork: {LOG} (sha256 ")
        self.want_in(told, "\nseed: 1\n")
        self.assertEqual(json.loads(lines[0])["denied_cost"], 300)

    def test_it_goes_on_after_ctrl_c(self) -> None:
        few = ["--show", "0.9", "--denied-cost", 300, "--seasons", 12, "--check", 8, "--sweeps", 1, "--workers", 1]
        words = " ".join(f"'{it}'" for it in self.program.words)
        slow = ["--program", "sh", self.file("slow", f'sleep 0.02\nexec {words} "$@"\n')]
        self.told("authorise", LOG, *few, "--out", "whole", *slow, timeout=SECONDS)
        tries = self.folder / "cut" / "tries.jsonl"
        process = self.process("authorise", LOG, *few, "--out", "cut", *slow, stdout=subprocess.PIPE,
                               stderr=subprocess.PIPE, start_new_session=True,
                               preexec_fn=lambda: signal.signal(signal.SIGINT, signal.SIG_DFL))
        wait_for(lambda: tries.exists() and tries.read_text().count("\n") > 3 or process.poll() is not None, "a try")
        self.assertIsNone(process.poll(), "in the middle")
        os.killpg(process.pid, signal.SIGINT)
        _, err = process.communicate(timeout=SECONDS)
        self.assertEqual((process.returncode, b"Traceback" in err), (-signal.SIGINT, False), err)
        self.assertFalse((self.folder / "cut" / "summary.txt").exists())
        self.told("authorise", LOG, *few, "--out", "cut", *slow, timeout=SECONDS)
        whole, cut = ({it.name: it.read_bytes() for it in (self.folder / name).iterdir()} for name in ("whole", "cut"))
        self.assertEqual(cut, whole)

    def test_it_plays_as_simulate_does(self) -> None:
        """What the file's own numbers earn is what simulate says of these seasons."""
        (self.folder / "more").mkdir()
        words = ["--show", "0.9", "--denied-cost", 300, "--cancel", "0.2", "--workers", 1, *self.with_program]
        few = ["--seasons", 5, "--check", 15, "--sweeps", 1]
        self.told("authorise", LOG, *few, "--out", "some", *words, timeout=SECONDS)
        self.told("simulate", LOG, "--seasons", 20, "--modes", "davn", "--out", "all", *words, timeout=SECONDS)
        head, *rows = ((self.folder / "all" / "network-seasons.csv").read_text()).splitlines()
        at = head.split(",").index("earned")
        earned = [int(row.split(",")[at]) for row in rows]
        tries = [json.loads(it) for it in (self.folder / "some" / "tries.jsonl").read_text().splitlines()[1:]]
        self.assertIn(earned[5:], [it["earned"] for it in tries if it["first"] == 5])
        self.assertIn(earned[:5], [it["earned"] for it in tries if it["first"] == 0])

    def test_mistakes_are_told_in_a_line(self) -> None:
        for words, status, wanted in (
                (["--show", "0"], 2, "above 0"), (["--show", "1.1"], 2, "--show"), (["--show", "1e-9"], 2, "--show"),
                (["--show", "9" * 4301], 2, "--show"), (["--show", "1/0"], 2, "--show"),
                (["--show", "0.9", "--together", "NONE"], 1, "names no leg"),
                (["--show", "0.9", "--together"], 1, "have different numbers of seats"),
                (["--show", "0.9", "--seasons", "1"], 2, "--seasons"),
                (["--show", "0.9", "--out", self.file("one", "")], 1, "is a file")):
            self.stopped("authorise", LOG, "--denied-cost", 5, *words, *self.with_program, status=status, says=wanted)
