"""What simulate tells of mistakes, of numbers that are too long, of a program that is another, and of no Dask."""
from __future__ import annotations

import shutil
import sys

from harness import SOURCES
from nrm import bytes_in
from nrm.seasons.drawing import Settings
from nrm.seasons.rows import batch_of
from seasons.clusters import LOG, SEASON, SECONDS, SimulateTest, by_one_process, needs_dask

LONG = ("9" * 4300, "9" * 4301)  # Python makes no number of more than 4,300 digits


@needs_dask
class Mistakes(SimulateTest):
    def test_mistakes_are_told_in_a_line(self) -> None:
        refused = self.file("refused.csv", "periods,1,1\nleg,a,1\n")
        tls, tcp = ["--tls", "a", "b", "c"], ["--cluster", "tcp://127.0.0.1:9"]
        one = self.file("one.csv", "periods,1,1\nleg,A,1\nproduct,P,5,A\n")
        for words, status, wanted in (
                (["none.csv"], 1, "none.csv: No such file"), ([refused], 1, "nrm-tools explain"),
                ([LOG, "--show", "0.9"], 2, "together"), ([LOG, "--parties", "0:1"], 2, "--parties"),
                ([LOG, "--cancel", "2"], 2, "--cancel"), ([one, "--leave-out"], 1, "two"),
                ([LOG, "--leave-out", "--demand", "poisson"], 2, "--leave-out"),
                ([LOG, LOG], 1, "have the same name"), ([LOG, "--out", one], 1, "is a file"),
                ([LOG, *tls], 2, "cluster tls://ADDRESS"), ([LOG, *tcp, *tls], 2, "cluster tls://ADDRESS"),
                ([LOG, *tcp], 1, "no Dask scheduler at tcp://127.0.0.1:9")):
            done = self.ran("simulate", *words, "--seasons", 1, *self.with_program, timeout=SECONDS)
            found = done.status, "Traceback" in done.err, done.out
            self.assertEqual(found, (status, False, ""), f"{words} {done.err}")
            self.want_in(done.err, wanted)

    def test_a_program_that_is_another_is_told(self) -> None:
        unlike = '%s "$@" | sed "s/^no .*/unknown/"' % " ".join(f"'{it}'" for it in self.program.words)
        for text, wanted in (('test "$1" = print || echo ok 1', "`run first` has no bound: ok 1"),
                             (unlike, "`run first` answers requests with other replies than")):
            words = [SEASON, "--seasons", 1, "--workers", 1, "--program", "sh", self.file("other", text)]
            self.stopped("simulate", *words, timeout=SECONDS, says=f"nrm-tools simulate: {wanted}")

    def test_numbers_that_are_too_long_are_refused_in_options(self) -> None:
        for it in LONG:
            for words in (["--seasons", it], ["--parties", f"{it}:1"], ["--parties", f"1:{it}"], ["--seed", it],
                          ["--patience", it], ["--show", "1", "--denied-cost", it]):
                self.stopped("simulate", LOG, "--seasons", 1, *words, status=2)

    def test_numbers_that_are_too_long_are_left_out_of_rows_that_are_there(self) -> None:
        rows = by_one_process(self.program, LOG, Settings(), 5)
        for it in LONG:
            folder = self.folder / str(len(it))
            folder.mkdir()
            (folder / "network-seasons.csv").write_text(rows)
            (folder / "network-seasons.part").write_text(f"{it},first,1\n{it},bid,1\n{it},davn,1\n")
            self.simulated(LOG, "--seasons", 5, "--out", folder)
            self.assertEqual((folder / "network-seasons.csv").read_text(), rows)


class Alone(SimulateTest):
    def test_numbers_that_are_too_long_are_refused_in_replies(self) -> None:
        for it in LONG:
            words = ["sh", self.file("long", f"sed -u 's/^book.*/ok {it}/; s/^cancel.*/unknown/'")]
            why = batch_of(bytes_in(LOG), Settings(cancel=0.5), words, [1]).why
            self.want_in(str(why), "answers to a request isn't the number of a booking")

    def test_it_says_where_there_is_no_dask(self) -> None:
        """As under a Python that sees no packages, beside no checkout: so it goes on under no other."""
        shutil.copytree(SOURCES / "nrm", self.folder / "nrm")
        words = ["-S", "-B", "-m", "nrm", "simulate", LOG, "--seasons", 1]
        done = self.finished(sys.executable, *words, timeout=SECONDS, env={"PATH": "/usr/bin:/bin"})
        self.assertEqual((done.out, done.status, done.err.count("\n")), ("", 1, 1), done.err)
        self.want_in(done.err, "has no Dask; ")
        self.want_in(done.err, "python3-distributed")
