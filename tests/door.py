#!/usr/bin/env python3
"""The script `nrm`: when it answers without a proof, when it builds, and that no byte of a stream is lost on the way.

    tests/door.py [PATTERN]

Each test has a copy of the script beside a `rt` that stands in for the kit's: it notes how it was called and what it is
to prove, plays `rt try` as the test wants, and builds a program that says its words and gives its input back. With
PATTERN only the tests that have it in their names. The last line is `N passed, M failed`.
"""
import contextlib
import os
import shutil
import subprocess
import sys
import tempfile
import time

sys.dont_write_bytecode = True
import checks
from checks import want, want_in

RT = r'''#!/usr/bin/env bash
case "$1" in
  lib)
    echo "$* of ${PWD##*/}" >>"$CALLS"
    mkdir -p out/incremental out/rlib
    echo again >>out/incremental/proofs
    echo "library ${PWD##*/}" >out/rlib/built
    [ -z "$TOUCHED" ] || touch "$TOUCHED"
    if [ "$PLAY" = together ] && [ "${PWD##*/}" != nrm_cli ]; then
      for _ in {1..100}; do [ "$(grep -c lib "$CALLS")" = 1 ] || exit 0; sleep 0.1; done
      exit 1
    fi
    exit "$STATUS" ;;
  run)
    echo "$* of ${PWD##*/}" >>"$CALLS"
    [ -z "$PROVED" ] || cp -r ../.. "$PROVED"
    mkdir -p out/incremental
    echo again >>out/incremental/proofs
    [ "$PLAY" != unbuilt ] || exit 1
    printf '#!/usr/bin/env bash\necho "program $*"\ncat\n' >out/nrm
    chmod +x out/nrm
    exit 2 ;;
  try)
    echo "$*" >>"$CALLS"
    case "$PLAY" in
      ends) echo "tried"; cat; printf 'checked: ended status=%s\n' "$STATUS" >&2
        printf 'run=ended status=%s runners=1 proved=no\n' "$STATUS" >&2 ;;
      stops) echo "half an answer"; echo "run=cut" >&2 ;;
    esac ;;
esac
'''
NPROC = "#!/bin/sh\necho 16\n"
# How `rt` is called to build.
BUILT = [["lib", "--jobs", "4", "of", "nrm_low"], ["lib", "--jobs", "4", "of", "nrm_cli"],
         ["run", "--", "no-words", "of", "nrm"]]
CRATES = "# what each depends on\n\n# low\nnrm_low:\n\n# high\nnrm_beside: nrm_low\nnrm_cli: nrm_low csv\nnrm: nrm_low nrm_cli\n"
LEMMAS = "mod Examples\npub mod Ends  -- of a list\npub mod LongExamples  -- by hand\n"
FILES = {"bin/rt": RT, "bin/nproc": NPROC, "crates.txt": CRATES, "HANDLES": "Handles allowed: none.\n",
         "net.csv": "periods,1,1\n",
         **{f"crates/{it}/src/lib.rt": "pub mod it;\n" for it in ("nrm", "nrm_cli", "nrm_beside")},
         "crates/nrm_low/src/lib.rt": "mod list;\n\npub use list::len;\n",
         "crates/nrm_low/src/list.rt": "pub fn len() {\n}\n",
         "crates/nrm_low/specs/Low.antt": "one\n", "crates/nrm_low/proofs/list/Lts.antt": "two\n",
         "crates/nrm_low/proofs/Lib.antt": LEMMAS, "crates/nrm_low/proofs/Ends.antt": "four\n",
         "crates/nrm_low/proofs/Examples.antt": "five\n", "crates/nrm_low/proofs/LongExamples.antt": "six\n",
         "crates/nrm_low/must-fail/len.edit": "file: src/list.rt\n", "crates/nrm_low/out/old": "built before\n"}
test = checks.Tests()


class Door:
    """A copy of the script at the top of a folder, with a network file beside it."""

    def __init__(self, folder):
        self.folder = folder
        self.calls, self.proved, self.rooms = (os.path.join(folder, it) for it in ("CALLS", "proved", "rooms"))
        os.mkdir(self.rooms)
        shutil.copy(os.path.join(checks.TOP, "nrm"), folder)
        for name, text in FILES.items():
            path = os.path.join(folder, name)
            os.makedirs(os.path.dirname(path), exist_ok=True)
            with open(path, "w") as file:
                file.write(text)
        for command in "rt", "nproc":
            os.chmod(os.path.join(folder, "bin", command), 0o755)

    def start(self, *words, play="ends", status=0, proved="", touched="", **more):
        path = os.path.join(self.folder, "bin") + ":" + os.environ["PATH"]
        outside = dict(os.environ, PATH=path, CALLS=self.calls, PLAY=play, STATUS=str(status), PROVED=proved,
                       TOUCHED=touched, TMPDIR=self.rooms)
        return subprocess.Popen([os.path.join(self.folder, "nrm"), *words], cwd=self.folder, env=outside,
                                stdout=subprocess.PIPE,
                                stderr=subprocess.PIPE, **more)

    def run(self, *words, stream=b"", **more):
        """The status and the two outputs of a run; the stream is a file, or comes through a pipe that ends."""
        with tempfile.TemporaryFile() as given:
            given.write(stream)
            given.seek(0)
            process = self.start(*words, stdin=given, **more)
            out, told = process.communicate()
        return process.returncode, out.decode(), told.decode()

    def pipe(self, *words, first=b"", then=b"", wait=0, **more):
        process = self.start(*words, stdin=subprocess.PIPE, **more)
        process.stdin.write(first)
        process.stdin.flush()
        time.sleep(wait)
        with contextlib.suppress(BrokenPipeError):
            process.stdin.write(then)
        out, told = process.communicate()
        return process.returncode, out, told.decode()

    def called(self):
        """How `rt` was called to try and to prove."""
        if not os.path.exists(self.calls):
            return []
        with open(self.calls) as file:
            return [line.split() for line in file]

    def build(self):
        self.run("--build")
        os.remove(self.calls)

    def source(self, crate):
        """A source file of a crate, newer than each program that is there."""
        os.utime(self.at("crates", crate, "src", "lib.rt"), (time.time() + 60, time.time() + 60))

    def at(self, *names):
        return os.path.join(self.folder, *names)


@test
def answers_without_a_proof(door):
    status, out, told = door.run("run", "first", "net.csv", stream=b"book A 1\n")
    want((status, out), (0, "tried\nbook A 1\n"))
    want_in(told, "is not proved; `./nrm --build` proves and builds the program")
    want(door.called(),
         [["try", "--data", f"FILE3={os.path.realpath(door.folder)}/net.csv", "--", "run", "first", "FILE3"]])


@test
def says_what_it_is_and_which(door):
    """For each program, by its manual, without a program and without `rt`."""
    shutil.copy(os.path.join(checks.TOP, "VERSION"), door.folder)
    os.mkdir(door.at("docs"))
    for name, usage in (("nrm", "nrm cuts FILE LEG GROUPS"), ("nrm_kept", "nrm_kept MODE FILE STORE"),
                        ("nrm_why", "nrm_why MODE FILE NUMBER"), ("nrm_desks", "nrm_desks MODE FILE")):
        shutil.copy(os.path.join(checks.TOP, "docs", f"{name}.1"), door.at("docs"))
        os.environ["NRM_DOOR"] = name
        try:
            status, out, told = door.run("--help")
            want((status, told), (0, ""), name)
            want_in(out, f"{name}: ")
            want_in(out, f"\n    {usage}\n")
            with open(os.path.join(checks.TOP, "VERSION")) as file:
                want(door.run("--version"), (0, f"{name} {file.read().strip()}\n", ""), name)
        finally:
            del os.environ["NRM_DOOR"]
    want(door.called(), [])


@test
def passes_the_status_on(door):
    want(door.run("print", "net.csv", status=3)[:2], (3, "tried\n"))
    want(door.called()[0][3:], ["--", "print", "FILE2"])


@test
def names_each_file_of_a_check(door):
    shutil.copy(os.path.join(door.folder, "net.csv"), os.path.join(door.folder, "cert.txt"))
    door.run("check", "net.csv", "cert.txt")
    want(door.called()[0][-4:], ["--", "check", "FILE2", "FILE3"])


@test
def a_mode_is_no_file(door):
    shutil.copy(os.path.join(door.folder, "net.csv"), os.path.join(door.folder, "bid"))
    door.run("plan", "bid", "net.csv")
    want(door.called()[0][-4:], ["--", "plan", "bid", "FILE3"])


@test
def a_file_that_is_not_there_stays_a_word(door):
    door.run("print", "none.csv")
    want(door.called(), [["try", "--", "print", "none.csv"]])


@test
def a_pipe_that_ends_is_taken(door):
    want(door.pipe("run", "first", "net.csv", first=b"leg AB\n")[:2], (0, b"tried\nleg AB\n"))


@test
def a_pipe_that_does_not_end_builds_first(door):
    status, out, told = door.pipe("run", "first", "net.csv", first=b"one\n", then=b"two\n", wait=4)
    want((status, out), (0, b"program run first net.csv\none\ntwo\n"))
    want(door.called(), BUILT)


@test
def a_byte_0_in_a_pipe_is_kept(door):
    want(door.pipe("run", "first", "net.csv", first=b"one\0two\xff\n\0")[:2],
         (0, b"program run first net.csv\none\0two\xff\n\0"))


@test
def bytes_of_any_kind_go_through_a_pipe(door):
    lines = bytes(range(1, 256)) * 40 + b"no end"
    want(door.pipe("run", "first", "net.csv", first=lines)[:2], (0, b"tried\n" + lines))


@test
def what_cannot_be_tried_is_built_and_gets_the_whole_stream(door):
    status, out, told = door.run("run", "first", "net.csv", stream=b"book A 1\n", play="stops")
    want((status, out), (0, "program run first net.csv\nbook A 1\n"))


@test
def a_folder_as_file_builds_first(door):
    os.mkdir(os.path.join(door.folder, "folder"))
    want(door.run("print", "folder")[1], "program print folder\n")


@test
def other_words_build_first(door):
    for words in (), ("help",), ("gen", "first", "1"), ("run", "first"):
        want(door.run(*words)[1].split("\n")[0], f"program {' '.join(words)}")


@test
def a_program_that_is_there_is_run(door):
    door.build()
    want(door.run("run", "first", "net.csv", stream=b"x\n"), (0, "program run first net.csv\nx\n", ""))
    want(door.called(), [])


@test
def a_program_older_than_its_sources_is_built_again(door):
    door.build()
    os.utime(door.at("crates", "nrm", "out", "nrm"), (1, 1))
    want(door.run("print", "net.csv")[1], "program print net.csv\n")
    want(door.called(), BUILT)


@test
def a_source_that_the_program_stands_on_makes_it_old(door):
    door.build()
    door.source("nrm_low")
    want(door.run("print", "net.csv")[1], "program print net.csv\n")
    want(door.called(), BUILT)


@test
def a_source_of_another_program_does_not(door):
    door.build()
    door.source("nrm_beside")
    want(door.run("print", "net.csv"), (0, "program print net.csv\n", ""))
    want(door.called(), [])


# What the program stands on, without worked examples, wrong bodies and what was built before, but with the
# libraries of this build.
PROVED = {"HANDLES": FILES["HANDLES"], "crates.txt": "nrm_low:\nnrm_cli: nrm_low csv\nnrm: nrm_low nrm_cli\n",
          "crates/nrm/src/lib.rt": "pub mod it;\n", "crates/nrm_cli/src/lib.rt": "pub mod it;\n",
          "crates/nrm_cli/out/rlib/built": "library nrm_cli\n", "crates/nrm_low/out/rlib/built": "library nrm_low\n",
          **{path: FILES[path] for path in ("crates/nrm_low/src/lib.rt", "crates/nrm_low/src/list.rt")},
          "crates/nrm_low/specs/Low.antt": "one\n", "crates/nrm_low/proofs/list/Lts.antt": "two\n",
          "crates/nrm_low/proofs/Lib.antt": "pub mod Ends  -- of a list\n", "crates/nrm_low/proofs/Ends.antt": "four\n"}


@test
def what_is_proved_is_what_the_program_stands_on(door):
    told = door.run("--build", proved=door.proved)[2]
    want_in(told, "proving and building 3 crates")
    for line in "1 of 3 done: nrm_low", "2 of 3 done: nrm_cli", "3 of 3 done: nrm":
        want_in(told, line)
    found = {}
    for at, _, names in os.walk(door.proved):
        for name in names:
            with open(os.path.join(at, name)) as file:
                found[os.path.relpath(file.name, door.proved)] = file.read()
    want(found, PROVED)
    want((sorted(os.listdir(door.at("out"))), os.listdir(door.rooms)), (["build.log", "kept"], []))


@test
def what_was_proved_is_kept_for_the_next_build(door):
    door.run("--build", status=1)
    door.run("--build")
    door.source("nrm_low")
    door.run("--build")
    kept = door.at("out", "kept")
    for crate, times in ("nrm_low", 3), ("nrm_cli", 2), ("nrm", 2):
        with open(os.path.join(kept, crate, "proofs")) as file:
            want(file.read(), "again\n" * times)
    want(sorted(os.listdir(kept)), ["nrm", "nrm_cli", "nrm_low"])


@test
def crates_that_do_not_need_each_other_are_proved_side_by_side(door):
    with open(door.at("crates.txt"), "w") as file:
        file.write("nrm_low:\nnrm_beside:\nnrm_cli: nrm_low nrm_beside\nnrm: nrm_cli\n")
    want(door.run("--build", play="together")[0], 0)
    together = [["lib", "--jobs", "2", "of", it] for it in ("nrm_beside", "nrm_low")]
    want(sorted(door.called()[:2]), together)
    want(door.called()[2:], BUILT[1:])


@test
def a_crate_for_which_others_wait_more_has_the_processes(door):
    with open(door.at("crates.txt"), "w") as file:
        file.write("nrm_low:\nnrm_beside:\nnrm_cli: nrm_low\nnrm: nrm_cli nrm_beside\n")
    with open(door.at("crates", "nrm_cli", "src", "it.rt"), "w") as file:
        file.write("//" * 1000)
    want(door.run("--build")[0], 0)
    processes = {it[-1]: it[2] for it in door.called() if it[0] == "lib"}
    want((processes["nrm_low"], processes["nrm_beside"]), ("2", "1"))
    want(door.called()[-1:], BUILT[-1:])


@test
def a_large_crate_has_two_processes(door):
    with open(door.at("crates.txt"), "w") as file:
        file.write("nrm_low:\nnrm_beside:\nnrm_one:\nnrm_cli: nrm_low nrm_beside nrm_one\nnrm: nrm_cli\n")
    shutil.copytree(door.at("crates", "nrm_beside"), door.at("crates", "nrm_one"))
    with open(door.at("crates", "nrm_beside", "src", "it.rt"), "w") as file:
        file.write("//" * 200_000)
    want(door.run("--build")[0], 0)
    want(sorted(door.called()[:3]), [["lib", "--jobs", "1", "of", "nrm_low"], ["lib", "--jobs", "1", "of", "nrm_one"],
                                     ["lib", "--jobs", "2", "of", "nrm_beside"]])
    want(door.called()[3:], BUILT[1:])


@test
def proofs_without_a_program_are_not_enough(door):
    status, out, told = door.run("--build", play="unbuilt")
    want((status, out), (checks.NOT_BUILT, ""))
    want_in(told, "2 of 3 done: nrm_cli")
    want("3 of 3 done" in told, False)
    want_in(told, "it was not built")
    want(os.listdir(door.at("crates", "nrm", "out")), [])


@test
def a_build_that_fails_leaves_the_program_that_is_there(door):
    door.build()
    door.source("nrm_low")
    status, out, told = door.run("print", "net.csv", status=1)
    want((status, out), (checks.NOT_BUILT, ""))
    want_in(told, "it was not built")
    want((os.listdir(door.at("crates", "nrm", "out")), os.listdir(door.rooms)), (["nrm"], []))
    want(subprocess.run([door.at("crates", "nrm", "out", "nrm"), "x"], stdin=subprocess.DEVNULL,
                        stdout=subprocess.PIPE).stdout, b"program x\n")


@test
def a_source_that_changes_during_a_build_makes_it_old(door):
    door.run("--build", touched=door.at("crates", "nrm_low", "src", "list.rt"))
    want(door.run("print", "net.csv")[1], "program print net.csv\n")
    want(door.called(), BUILT + BUILT)


@test
def build_builds_and_runs_nothing(door):
    want(door.run("--build")[:2], (0, ""))
    want(door.called(), BUILT)
    os.remove(door.calls)
    want(door.run("--build"), (0, "", ""))
    want(door.called(), [])


@test
def without_the_kit_it_says_so(door):
    os.remove(os.path.join(door.folder, "bin", "rt"))
    if shutil.which("rt", path=os.environ["PATH"]):
        os.environ["PATH"] = ":".join(it for it in os.environ["PATH"].split(":")
                                      if not os.path.exists(os.path.join(it, "rt")))
    status, out, told = door.run("print", "net.csv")
    want((status, out), (checks.NOT_BUILT, ""))
    want_in(told, "`rt` of the Rattle kit")


def main():
    pattern = sys.argv[1] if len(sys.argv) > 1 else ""
    return checks.tried(test.picked(pattern), Door)


if __name__ == "__main__":
    sys.exit(main())
