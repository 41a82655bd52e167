"""The auditor's command, which shares nothing with the program, on certificates of the cases and of other solvers."""
from __future__ import annotations

import re
import shutil
import subprocess
import sys
import tempfile
import unittest
from concurrent.futures import ThreadPoolExecutor
from fractions import Fraction
from pathlib import Path
from typing import Iterator

import reference
import run
from harness import EXAMPLES, SOURCES, WithinTest
from nrm import audit

FEWEST_CERTIFICATES, FEWEST_READ, FEWEST_PLANS = 200, 50, 30
AT_ONCE = 4
OF_NESTS = {  # cases whose file has lines of nests, which `nrm check` refuses: how the audit ends
    "check-line-unknown-word": ("refused certificate no value", 3), "davn-plan-is-no-certificate": ("optimal", 0)}


def certificates() -> Iterator[tuple[str, bytes, bytes, str, int]]:
    """Of each certificate of the cases a name, its two files, and the last line and the status that are wanted.

    So each certificate that a case wants of `plan bid` is taken, and must be `optimal`.
    """
    for case in run.cases_of(""):
        files = [case.files.get(it.decode("utf-8", "replace")) for it in case.words[1:]]
        if case.words[:1] == [b"check"] and len(files) == 2 and None not in files and not is_other_refusal(case):
            yield case.name, *files, *OF_NESTS.get(case.name, (case.stdout.decode().rstrip("\n"), case.status))
        elif case.words[:2] == [b"plan", b"bid"] and len(files) == 2 and case.status == 0 and files[1] is not None:
            yield case.name, files[1], case.stdout, "optimal", 0


def is_other_refusal(case: run.Case) -> bool:
    """Whether a case has another end than a verdict or a refused certificate, or an outside that fails."""
    return (case.status not in (0, 1, 3) or case.stdout_full or case.stdout_closed or case.taken is not None
            or case.stdout.startswith(b"refused") and not case.stdout.startswith(b"refused certificate"))


def plans() -> Iterator[tuple[str, bytes, Fraction]]:
    """The networks that glpsol solves: a name, the file, and the value of its plan."""
    for case in run.cases_of(""):
        if case.words[:2] == [b"plan", b"bid"] and case.stdout.startswith(b"value "):
            yield case.name, case.files[case.words[2].decode()], Fraction(case.stdout.split()[1].decode())
    for path in sorted(EXAMPLES.glob("*/network.csv")):
        out = subprocess.check_output([sys.executable, reference.__file__, "plan", "bid", path])
        yield str(path), path.read_bytes(), Fraction(out.split()[1].decode())


def solved(network: bytes) -> tuple[int, Fraction] | None:
    """How many histories a network's program stands for, and the value that `glpsol` finds, or None."""
    with tempfile.TemporaryDirectory() as folder:
        Path(folder, "network").write_bytes(network)
        program = subprocess.check_output([sys.executable, SOURCES, "lp", "network"], cwd=folder, text=True)
        Path(folder, "program").write_text(program)
        subprocess.run(["glpsol", "--exact", "--lp", "program", "--write", "solution"], cwd=folder,
                       stdout=subprocess.DEVNULL)
        solution = Path(folder, "solution")
        found = re.search(r"^s bas \d+ \d+ f f (\S+)$", solution.read_text() if solution.exists() else "", re.M)
        histories = re.match(r"\\ All (\d+) histories", program)
    return (int(histories[1]), Fraction(found[1])) if found and histories else None


class Audits(WithinTest):
    def test_each_certificate_of_the_cases_is_told_as_by_the_program(self) -> None:
        wanted = list(certificates())
        self.assertGreaterEqual(len(wanted), FEWEST_CERTIFICATES)
        for name, network, certificate, line, status in wanted:
            out, err, ended = self.ran("audit", self.file("network", network), self.file("certificate", certificate))
            told = out.splitlines() or [""]
            self.assertEqual((told[-1], ended, err), (line, status, ""), name)
            sums = [it.split()[1] for it in told if re.match("(gain|cost) ", it)]
            if line == "optimal":
                self.assertTrue(len(sums) == 2 and sums[0] == sums[1], f"{name}: the gain and the cost are {sums}")

    def test_the_command_is_that_file(self) -> None:
        words = EXAMPLES / "certificate" / "network.csv", EXAMPLES / "certificate" / "certificate.txt"
        told = self.told("audit", *words)
        self.assertEqual(told, self.finished(sys.executable, audit.__file__, *words).out)
        self.assertEqual(told.splitlines()[-1], "optimal")

    def test_of_each_network_that_a_case_prints_is_read_what_is_read_of_the_canonical_one(self) -> None:
        count = 0
        for case in run.cases_of(""):
            if case.words[:1] == [b"print"] and case.status == 0 and len(case.words) == 2:
                printed = case.files.get(case.words[1].decode())
                if printed is not None:  # and no link or standard input
                    network = vars(audit.Network(self.file("network", printed)))
                    canonical = vars(audit.Network(self.file("canonical", case.stdout)))
                    self.assertEqual({**network, "version": 2}, canonical, case.name)
                    count += 1
        self.assertGreaterEqual(count, FEWEST_READ)

    @unittest.skipUnless(shutil.which("glpsol"),
                         "glpsol isn't installed (Debian's package is glpk-utils): no program solved by it")
    def test_glpsol_finds_the_value_of_each_plan(self) -> None:
        wanted = list(plans())
        self.assertGreaterEqual(len(wanted), FEWEST_PLANS)
        with ThreadPoolExecutor(AT_ONCE) as pool:
            for (name, _, value), found in zip(wanted, pool.map(lambda it: solved(it[1]), wanted)):
                self.assertIsNotNone(found, f"{name}: glpsol found no optimal value")
                histories, total = found
                wanted_total = histories * value
                self.assertLessEqual(abs(total - wanted_total), Fraction(1, 10**9) * max(1, wanted_total), name)
