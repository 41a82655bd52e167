"""The program is found where it is built or on the path, nothing is built, and what a failing run writes is told."""
from __future__ import annotations

import os
import shutil
import sys
import tempfile
from pathlib import Path

from harness import EXAMPLES, SOURCES, Done, PlaceTest
from nrm import Stop
from nrm.program import Dialogue, Program, Stream

NETWORK = str(EXAMPLES / "log" / "network.csv")
SYSTEM = "/usr/bin:/bin"
ANSWERS = "#!/bin/sh\necho {}\n"


class Finding(PlaceTest):
    """In a checkout that is made: the tools, a script `nrm` that would build, sources, and a program or none."""

    def setUp(self) -> None:
        super().setUp()
        self.top = self.folder / "checkout"
        shutil.copytree(SOURCES, self.top / "python" / "src", ignore=shutil.ignore_patterns("__pycache__"))
        self.source = self.top / "crates" / "nrm" / "src" / "main.rt"
        self.built = self.top / "crates" / "nrm" / "out" / "nrm"
        for path in (self.source, self.built):
            path.parent.mkdir(parents=True)
        self.source.write_text("")
        (self.top / "crates.txt").write_text("")
        self.executable(self.top / "nrm", f"#!/bin/sh\ntouch '{self.folder}/building'\n")

    def executable(self, path: Path, text: str) -> str:
        path.parent.mkdir(exist_ok=True)
        path.write_text(text)
        path.chmod(0o755)
        return str(path)

    def asked(self, path: str, *words: str, name: str = "thresholds", asks: tuple[str, ...] = (NETWORK, "2")) -> Done:
        """What a command tells that runs the program, as by lines of `nrm cuts`, which no program here answers."""
        tools = self.top / "python" / "src"
        done = self.finished(sys.executable, tools, name, *asks, *words, env={**os.environ, "PATH": path})
        self.assertFalse((self.folder / "building").exists(), "something was built")
        return done

    def version(self, path: str) -> str:
        """The program that `--version` tells, which is the one that commands run."""
        return self.asked(path, name="--version", asks=()).out.splitlines()[1]

    def test_the_built_program_is_taken_unless_it_is_older_than_its_sources(self) -> None:
        other = self.executable(self.folder / "bin" / "nrm", ANSWERS.format("other"))
        self.assertEqual(self.version(f"{self.folder}/bin:{SYSTEM}"), other)
        self.executable(self.built, ANSWERS.format("built"))
        self.assertEqual(self.version(f"{self.folder}/bin:{SYSTEM}"), str(self.built))
        for source in (self.source, self.top / "crates.txt"):
            later = self.built.stat().st_mtime + 10
            os.utime(source, (later, later))
            self.assertEqual(self.version(f"{self.folder}/bin:{SYSTEM}"), other, source)
            os.utime(source, (1, 1))
            self.assertEqual(self.version(f"{self.folder}/bin:{SYSTEM}"), str(self.built), source)
        for no_source in ("crates/nrm/must-fail/wrong.edit", "crates/nrm/out/other", "docs/page.md"):
            path = self.top / no_source
            path.parent.mkdir(exist_ok=True)
            path.write_text("")
            os.utime(path, (self.built.stat().st_mtime + 10,) * 2)
            self.assertEqual(self.version(SYSTEM), str(self.built), no_source)

    def test_where_there_is_none_a_sentence_says_how_to_get_one(self) -> None:
        out, err, status = self.asked(SYSTEM)
        self.assertEqual((out, status), ("", 1))
        self.want_in(err, f"nrm-tools thresholds: {self.top} has no built program that fits its sources, there is no "
                          f"other `nrm` on the path, and nothing is built here: `{self.top}/nrm --build` proves and "
                          "builds it, and --program names the one to run\n")

    def test_each_command_that_runs_the_program_builds_none(self) -> None:
        """In a checkout without a program, and where that is asked for by its name on the path."""
        stream = self.file("stream", "book ZV-Q 1\n")
        for name, asks in (("optimum", (NETWORK, "ZRH-VIE")), ("replay", (NETWORK,)), ("season", (NETWORK, stream)),
                           ("thresholds", (NETWORK, "2")), ("resume", (NETWORK, "bid", stream, self.file("kept", "")))):
            for path, words in ((SYSTEM, ()), (f"{self.top}:{SYSTEM}", ("--program", "nrm"))):
                out, err, status = self.asked(path, *words, name=name, asks=asks)
                self.assertEqual((out, status), ("", 1), err)
                self.want_in(err, f"nrm-tools {name}: {self.top} has no built program")

    def test_the_kept_program_is_that_of_its_script(self) -> None:
        """Of the other name, and no older than the sources either."""
        kept = self.top / "crates" / "nrm_kept" / "out" / "nrm_kept"
        kept.parent.mkdir(parents=True)
        script = self.executable(self.top / "nrm_kept", f"#!/bin/sh\ntouch '{self.folder}/building'\n")
        self.executable(self.built, ANSWERS.format("built"))
        self.want_in(self.asked(SYSTEM, "--program", script)[1], "has no built program that fits its sources")
        self.executable(kept, f"#!/bin/sh\ntouch '{self.folder}/kept'\n")
        self.want_in(self.asked(SYSTEM, "--program", script)[1], "wrote isn't an answer to it")
        self.assertTrue((self.folder / "kept").exists())

    def test_beside_a_release_its_own_program_is_taken(self) -> None:
        shutil.rmtree(self.top / "crates")
        (self.top / "crates.txt").unlink()
        self.executable(self.top / "nrm", ANSWERS.format("released"))
        other = self.executable(self.folder / "bin" / "nrm", ANSWERS.format("other"))
        self.assertEqual(self.version(f"{self.folder}/bin:{SYSTEM}"), str(self.top / "nrm"))
        (self.top / "nrm").unlink()
        self.assertEqual(self.version(f"{self.folder}/bin:{SYSTEM}"), other)
        self.want_in(self.asked(SYSTEM)[1],
                     "nrm-tools thresholds: there is no `nrm` on the path; --program names the one to run")

    def test_a_script_that_would_build_is_passed_over(self) -> None:
        """Where the folder of a checkout is on the path, or its script is named."""
        other = self.executable(self.folder / "bin" / "nrm", ANSWERS.format("other"))
        self.want_in(self.asked(f"{self.top}:{SYSTEM}")[1], "has no built program")
        self.assertEqual(self.version(f"{self.top}:{self.folder}/bin:{SYSTEM}"), other)
        for words in (["--program", str(self.top / "nrm")], ["--program", "checkout/nrm"]):
            self.want_in(self.asked(f"{self.folder}/bin:{SYSTEM}", *words)[1], "has no built program")
        self.executable(self.built, ANSWERS.format("built"))
        self.want_in(self.asked(SYSTEM, "--program", "checkout/nrm")[1], "wrote isn't an answer to it")

    def test_what_isnt_there_is_told(self) -> None:
        self.assertEqual(self.asked(SYSTEM, "--program", "none/nrm")[1:], ("nrm-tools thresholds: none/nrm: No such "
                                                                           "file or directory\n", 1))


class Runs(PlaceTest):
    STREAM = b"book ZV-Q 2\nbook NONE 1\nhindsight\n"
    REPLIES = [b"ok 1", b"unknown", b"hindsight 220/1 revenue 220 withheld 0"]

    def test_a_whole_run_a_dialogue_and_a_stream_answer_alike(self) -> None:
        self.assertEqual(self.program.replies("first", NETWORK, self.STREAM), [it + b"\n" for it in self.REPLIES])
        self.assertEqual(self.program.replies_of_a_line("first", NETWORK, self.STREAM), self.REPLIES)
        lines = self.STREAM.decode().splitlines()
        dialogue = Dialogue(self.program, "first", NETWORK)
        self.assertEqual([dialogue.ask([it]) for it in lines], [[it] for it in self.REPLIES])
        dialogue.end()
        with tempfile.TemporaryFile() as source:
            source.write(self.STREAM[self.STREAM.index(b"\n") + 1:])
            source.seek(0)
            stream = Stream(self.program, "first", NETWORK, [b"book ZV-Q 2\n"], source.fileno())
            with stream.output:
                self.assertEqual(stream.output.read().splitlines(), self.REPLIES)
            self.assertEqual((stream.wait(), stream.fault), (0, None))

    def test_a_run_that_fails_is_told_with_its_status_and_its_line(self) -> None:
        refused = self.file("refused.csv", "periods,1,1\nleg,a,1\n")
        sentence = (f"`run bid {refused}` ended with status 3: refused row 2 why 5 name; "
                    "`nrm-tools explain` lists every row of a network")
        for run in (lambda: self.program.replies("bid", refused, b""),
                    lambda: self.program.replies_of_a_line("bid", refused, b"")):
            with self.assertRaises(Stop) as stop:
                run()
            self.want_in(str(stop.exception), sentence)
        with self.assertRaises(Stop) as stop:
            self.program.lines("cuts", NETWORK, "NONE", "2")
        self.assertEqual(str(stop.exception), f"`cuts {NETWORK} NONE 2` ended with status 10: no leg")

    def test_a_source_that_cant_be_read_ends_the_run(self) -> None:
        with open("/proc/self/mem", "rb") as source:
            stream = Stream(self.program, "first", NETWORK, [], source.fileno())
            with stream.output:
                stream.output.read()
            self.assertNotEqual(stream.wait(), 0)
            self.assertEqual(stream.fault, 4)

    def test_the_checksum_is_that_of_the_file(self) -> None:
        found = Program((sys.executable,)).checksum()
        self.assertEqual(found, self.finished("sha256sum", sys.executable).out.split()[0])
