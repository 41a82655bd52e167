"""How every command begins and ends: it names itself, gives no traceback, and ends quietly where nobody reads."""
from __future__ import annotations

import importlib.util
import os
import shutil
import signal
import subprocess
import sys
import time

from harness import EXAMPLES, SECONDS, SOURCES, TOP, PlaceTest
from made import FEW
from nrm import __version__
from nrm.commands import NAMED
from nrm.seasons.drawing import Settings
from records.made_log import COLUMNS
from seasons.clusters import by_one_process, needs_dask

NETWORK = str(EXAMPLES / "log" / "network.csv")
OF_NRM = {"none": 3, "folder": 9, "refused": 3}
OWN_STATUSES = {"audit": OF_NRM, "explain": OF_NRM}  # those of the program
SOLD = ["--departs", "departure", "--booked", "booked on", "--product", "product", "--seats", "seats"]
ACCOUNTS = [sys.executable, str(TOP / "tests" / "reference.py"), "why"]  # in the place of `nrm_why`
SERVE = {"serve", "journal", "status", "token", "web", "completion"}  # these have tests of their own: of networks they have none
TOLD_ON_THE_WAY = ("nrm-tools season: there are no pictures", "nrm-tools log: ", "nrm-tools simulate: ", "nrm-tools asked: ",
                   "nrm-tools demand: ", "nrm-tools authorise: ", "nrm-tools averaged: ")
OF_DASK = ("simulate", "authorise")
OF_LOGS = {"log", "demand"}  # their first file is no network


class Running(PlaceTest):
    """Each test goes through all commands: one that is added is to have its words here."""

    def setUp(self) -> None:
        super().setUp()
        requests, rows, stream = (str(EXAMPLES / "log" / it) for it in ("requests.csv", "rows.csv", "commands.txt"))
        bookings, closures = (str(EXAMPLES / "sales" / it) for it in ("bookings.csv", "closures.csv"))
        network, program = NETWORK, self.with_program
        kept = self.file("kept", (EXAMPLES / "log" / "bid.txt").read_bytes()[:40])
        certificate = self.file("certificate", self.nrm("plan", "bid", network))
        self.words = {  # with which each ends with status 0
            "log": [requests, *COLUMNS, "--cuts", "30,7", "--network", rows],
            "demand": [bookings, *SOLD, "--cuts", "30,7", "--closures", closures], "asked": [network, stream],
            "audit": [network, certificate], "explain": [network, certificate],
            "lp": [network], "split": [network, "parts"],
            "season": [network, stream, "--out", "pictures", *program], "replay": [network, *program],
            "resume": [network, "bid", stream, kept, *program], "optimum": [network, "ZRH-VIE", *program],
            "thresholds": [network, "3", "--out", "made.csv", *program],
            "why": [network, "bid", stream, 1, "--why", *ACCOUNTS, *program],
            "averaged": [network, "--seasons", 2, *program],
            "authorise": [network, "--show", "0.9", "--denied-cost", 5, "--seasons", 2, "--check", 2, "--sweeps", 1,
                          "--workers", 1, "--out", "tried", *program],
            "simulate": [network, "--seasons", 1, "--out", "played", *program]}
        self.assertEqual(self.words.keys() | SERVE, NAMED.keys())
        if not importlib.util.find_spec("distributed"):
            self.words = {name: words for name, words in self.words.items() if name not in OF_DASK}
        (self.folder / "played").mkdir()  # so simulate has but to tell
        self.file("played/network-seasons.csv", by_one_process(self.program, network, Settings(), 1))

    @needs_dask
    def test_those_that_need_dask_are_among_them(self) -> None:
        self.assertTrue(set(OF_DASK) <= self.words.keys())

    def test_each_names_itself_and_gives_no_traceback(self) -> None:
        refused = self.file("refused.csv", "leg,AB\n\xff")
        for name, words in self.words.items():
            self.want_in(self.told(name, "--help"), f"usage: nrm-tools {name} ")
            self.stopped(name, status=2, says="usage: ")
            self.stopped(name, *words, "--no-such-option", status=2, says="usage: ")
            for what, path in (("none", "there/is-none"), ("folder", str(self.folder)), ("refused", refused)):
                done = self.ran(name, path, *words[1:])
                wanted = OWN_STATUSES.get(name, {}).get(what, 1)
                found = done.status, "Traceback" in done.err, bool(done.err) or name in OWN_STATUSES
                self.assertEqual(found, (wanted, False, True), f"{name} {what}: {done.err}")
                self.assertTrue(not done.err or done.err.startswith(f"nrm-tools {name}: "), f"{name}: {done.err}")

    def test_each_refuses_a_network_with_a_number_that_is_too_long(self) -> None:
        network = self.file("long.csv", f"periods,1,1\nleg,A,1\nproduct,P,{'9' * 4301},A\ndemand,P,1,1\n")
        for name, words in self.words.items():
            if name not in {*OWN_STATUSES, *OF_LOGS}:
                self.stopped(name, network, *words[1:], says="refused")

    def test_each_ends_quietly_where_nobody_reads(self) -> None:
        for name, words in self.words.items():
            reading, writing = os.pipe()
            os.close(reading)
            process = self.process(name, *words, stdout=writing, stderr=subprocess.PIPE)
            os.close(writing)
            err = process.communicate(timeout=SECONDS)[1].decode()
            err = "".join(it for it in err.splitlines(keepends=True) if not it.startswith(TOLD_ON_THE_WAY))
            self.assertEqual((process.returncode, err), (128 + signal.SIGPIPE, ""), name)
            with open("/dev/full", "wb") as full:
                process = self.process(name, *words, stdout=full, stderr=subprocess.PIPE)
                err = process.communicate(timeout=SECONDS)[1].decode()
            found = process.returncode, "Traceback" in err, "No space left" in err
            self.assertEqual(found, (5 if name == "audit" else 1, False, True), name)

    def test_each_names_the_file_that_cant_be_read(self) -> None:
        for name, words in self.words.items():
            done = self.ran(name, "/proc/self/mem", *words[1:])
            self.assertEqual(("Traceback" in done.err, done.status), (False, 9 if name in OWN_STATUSES else 1), name)
            self.want_in(done.out + done.err, "file fault" if name == "audit" else "/proc/self/mem")

    def test_those_that_run_the_program_end_at_ctrl_c(self) -> None:
        for name in ("season", "replay", "thresholds", "optimum", "averaged"):
            begun = self.folder / f"{name}-begun"
            program = self.file("slow", f"touch '{begun}'\nexec sleep 60\n")
            words = self.words[name]
            words = [*words[:words.index("--program")], "--program", "sh", program]
            # a shell has what it runs behind it ignore the signal
            process = self.process(name, *words, stdout=subprocess.PIPE, stderr=subprocess.PIPE, start_new_session=True,
                                   preexec_fn=lambda: signal.signal(signal.SIGINT, signal.SIG_DFL))
            while not begun.exists() and process.poll() is None:
                time.sleep(0.01)
            os.killpg(process.pid, signal.SIGINT)  # as a terminal does, to the command and to what it runs
            _, err = process.communicate(timeout=SECONDS)
            self.assertEqual((process.returncode, err), (-signal.SIGINT, b""), name)

    def test_those_that_run_the_program_tell_where_it_is_another(self) -> None:
        network, stream = self.file("few.csv", FEW), self.file("stream", "book P 1\n")
        for script, sentences in (("", ("0 replies", "has no bound")),
                                  ("awk '{ print \"ok 1\" }'", ("don't fit the lines", "has no bound"))):
            program = ["--program", "sh", self.file("script", script)]
            self.stopped("season", network, stream, *program, says=sentences[0])
            self.stopped("replay", network, *program, says=sentences[1])
            self.assertEqual(self.ran("replay", network, *program).out, "")  # and no heads of a table
        for script in ("", "echo ok 1", "echo class P 5", "echo cost A 0", "echo value A 1/0"):
            program = ["--program", "sh", self.file("script", script)]
            self.stopped("thresholds", network, 2, *program, says=f"what `cuts {network} A 2` wrote isn't an answer to it")
            self.stopped("optimum", network, "A", *program, says=f"what `dp {network} A` wrote isn't an answer to it")
        program = ["--program", "sh", self.file("script", "echo no leg; exit 10")]
        self.stopped("thresholds", network, 2, *program, says=f"`cuts {network} A 2` ended with status 10: no leg\n")

    def test_resume_tells_what_is_wrong_with_its_files(self) -> None:
        network, stream = self.file("few.csv", FEW), self.file("stream", "book P 1\n")
        kept, other = self.file("kept", ""), self.file("other", "no A\n")
        refused = self.file("refused.csv", "periods,1,1\nleg,a,1\n")
        for words, sentence in (
                ([refused, "bid", stream, kept], "status 3: refused row 2 why 5 name; `nrm-tools explain` lists"),
                ([self.folder, "bid", stream, kept], "ended with status 9: file fault"),
                ([network, "bid", "/proc/self/mem", kept], "/proc/self/mem: Input/output error"),
                ([network, "bid", stream, other], "line 1: 'no A\\n' was kept, and the program answers 'ok 1\\n'")):
            self.stopped("resume", *words, *self.with_program, says=sentence)
        self.stopped("split", network, stream, says=f"{stream} is a file, not a folder")


class CommandLine(PlaceTest):
    def test_all_commands_are_listed_with_the_first_line_of_their_manuals(self) -> None:
        for words in (["--help"], ["-h"]):
            listed = self.told(*words).splitlines()
            for name, module in NAMED.items():
                summary = (importlib.import_module(module).__doc__ or "").partition("\n")[0]
                self.assertTrue(any(it.split() == [name, *summary.split()] for it in listed), name)

    def test_the_version_is_that_of_the_repository_and_the_program_is_told_with_its_checksum(self) -> None:
        self.assertEqual(__version__, (TOP / "VERSION").read_text().strip())
        folder = self.folder / "bin"
        folder.mkdir()
        program = self.file("bin/nrm", "#!/bin/sh\n")
        os.chmod(program, 0o755)
        copied = self.folder / "src"
        shutil.copytree(SOURCES, copied)
        checksum = self.finished("sha256sum", program).out.split()[0]
        for path, wanted in ((f"{folder}:/usr/bin:/bin", f"{program}\nsha256 {checksum}\n"),
                             ("/usr/bin:/bin", "there is no `nrm` on the path; ")):
            done = self.finished(sys.executable, copied, "--version", env={**os.environ, "PATH": path})
            self.assertEqual((done.err, done.status), ("", 0))
            self.want_in(done.out, f"nrm-tools {__version__}\n{wanted}")

    def test_words_that_name_no_command_end_with_status_2(self) -> None:
        for words in ([], ["nope"], ["--nope"]):
            done = self.finished(sys.executable, SOURCES, *words)
            self.assertEqual((done.out, done.status), ("", 2))
            self.assertTrue(done.err.startswith("usage: nrm-tools "), done.err)

    def test_the_launcher_and_the_module_run_the_same_commands(self) -> None:
        wanted = self.told("lp", NETWORK)
        for words, more in (([TOP / "nrm-tools"], {}), ([sys.executable, "-m", "nrm"], {"PYTHONPATH": str(SOURCES)})):
            self.assertEqual(self.finished(*words, "lp", NETWORK, env={**os.environ, **more}), (wanted, "", 0))

    def test_what_stands_in_the_users_folder_is_never_imported(self) -> None:
        self.file("argparse.py", "raise SystemExit('a file of the folder was run')")
        done = self.finished(TOP / "nrm-tools", "lp", NETWORK)
        self.assertEqual((done.err, done.status), ("", 0))

    def test_what_a_terminal_cant_show_is_written_out(self) -> None:
        path = self.file(os.fsdecode(b"\xff\xc3\xbc.csv"), "periods,1,1\nleg,Zürich,1\n")
        for form, shown in (("utf-8", "Zürich"), ("ascii", "Z\\xfcrich")):
            done = self.ran("explain", path, env={**os.environ, "PYTHONIOENCODING": form})
            self.assertEqual((done.err, done.status), ("", 3))
            self.want_in(done.out, f"the name: {shown}\n")
