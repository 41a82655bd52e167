#!/usr/bin/env python3
"""A release: made from a clone, with no checkout beside it, its links lead somewhere and its pages' commands run.

    tests/release.py [PATTERN] [--program WORD...]

The tests are the functions below, of which PATTERN picks those with it in their name. The clone's built program is one
that runs the program of the tests. Where the kit, git or what makes a wheel isn't there, that is told, and no release
is made. With no --program it is the script `nrm` at the top of the repository; `nrm_kept`, `nrm_why` and `nrm_desks` are
always those at the top, but that NRM_WHY and NRM_DESKS may name others. The last line is `N passed, M failed`.
"""
import os
import shutil
import subprocess
import sys
import tempfile
from pathlib import Path

import blocks
import checks
import pages
from checks import Wrong, want, want_in

TOP = Path(__file__).resolve().parent.parent
SECONDS = 300
SYSTEM = "/usr/bin:/bin"
WHEEL = ["/usr/bin/python3", "-c", "import setuptools, wheel, pip"]
CRATES = ("csv", "indexmap", "itoa", "memchr", "ryu", "serde", "sqlite", "thiserror")
NOT_THERE = {  # of the pages' commands, those that a release alone can't run
    "sha256sum --quiet": "the copy has files that its pages wrote", "pip install": "it installs into the system",
}

test = checks.Tests()


class Release:
    """A clone with programs in the place of the built ones, and the release that was made of it."""

    def __init__(self, program, folder):
        self.folder = folder
        self.clone, self.out = folder / "clone", folder / "out"
        self.version = (TOP / "VERSION").read_text().strip()
        self.made = self.out / f"nrm-{self.version}"
        subprocess.run(["git", "clone", "-q", "--no-checkout", TOP, self.clone], check=True)
        # the sources aren't needed
        for words in (["sparse-checkout", "set", "--no-cone", "/*", "!/crates/"], ["checkout", "-q"]):
            subprocess.run(["git", *words], cwd=self.clone, check=True, stderr=subprocess.DEVNULL)
        pages.lay_programs(self.clone, program)

    def make(self, *words):
        """How the script ends, and what it tells."""
        done = subprocess.run([self.clone / "tools" / "release.sh", *words], cwd=self.folder, capture_output=True,
                              text=True, timeout=SECONDS)
        return done.returncode, done.stdout + done.stderr


@test
def begins_nothing_where_no_folder_is_named(release):
    for words, status, wanted in ((["--help"], 0, "    tools/release.sh FOLDER\n"), (["-x"], 2, "usage: "),
                                  ([], 2, "usage: "),
                                  (["a", "b"], 2, "usage: ")):
        ended, told = release.make(*words)
        want((ended, wanted in told), (status, True), told)
    file = release.folder / "file"
    file.write_text("")
    ended, told = release.make(file)
    want((ended, "release.sh: " in told), (1, True), told)


@test
def is_of_what_is_committed(release):
    for wanted in ("is there already", "aren't committed"):
        ended, told = release.make(release.out)
        want((ended, wanted in told), (1, True), told)
        (release.clone / "other").write_text("")
        release.made.rename(release.folder / "aside") if release.made.exists() else None
    (release.clone / "other").unlink()
    (release.folder / "aside").rename(release.made)
    shutil.rmtree(release.clone / ".git")
    ended, told = release.make(release.folder / "elsewhere")
    want((ended, "no git repository" in told), (1, True), told)


@test
def has_what_one_begins_with(release):
    files = {str(it.relative_to(release.made)) for it in release.made.rglob("*") if it.is_file()}
    wanted = {"nrm", "nrm_kept", "nrm_why", "nrm_desks", "nrm-tools", "README.md", "CHANGELOG.md", "LICENSE", "VERSION",
              "SHA256SUMS",
              "docs/nrm.1", "docs/nrm_kept.1", "docs/nrm_why.1", "docs/nrm_desks.1",
              "docs/analyst/README.md", "docs/operator/operating.md", "docs/auditor/auditor.md",
              "examples/log/network.csv",
              "python/src/nrm/audit.py", "python/src/nrm/pages/static/page.html",
              "bench/misses.py", "bench/nrm/__init__.py", "tests/databases.py"}
    want(wanted - files, set(), "files")
    want([it for it in files if "__pycache__" in it
          or it.startswith(("python/tests", "python/src/nrm.egg", "crates", "build"))], [])
    want(len([it for it in files if it.endswith(".whl")]), 1, "wheels")
    want({it for it in CRATES if not any(file.startswith(f"licences/{it}-") for file in files)}, set(), "licences")
    want(subprocess.run(["sha256sum", "--quiet", "-c", "SHA256SUMS"], cwd=release.made).returncode, 0, "sha256sum")
    want({*(release.made / "SHA256SUMS").read_text().split()[1::2]}, files - {"SHA256SUMS"}, "files with a checksum")
    for page in ("nrm.1", "nrm_kept.1", "nrm_why.1", "nrm_desks.1"):
        want_in((release.made / "docs" / page).read_text(), f'"nrm {release.version}"')
    want_in((release.made / "CHANGELOG.md").read_text(), f"\n## {release.version}\n")


@test
def tells_its_version_and_its_own_program(release):
    told = subprocess.run([release.made / "nrm-tools", "--version"], env={"PATH": SYSTEM}, capture_output=True,
                          text=True).stdout
    checksum = subprocess.run(["sha256sum", release.made / "nrm"], capture_output=True, text=True).stdout.split()[0]
    want(told, f"nrm-tools {release.version}\n{release.made / 'nrm'}\nsha256 {checksum}\n")


@test
def its_commands_run_its_own_program(release):
    stream, kept = release.folder / "stream", release.folder / "kept"
    stream.write_text("book ZV-Y 1\nbook ZV-Y 1\n")
    kept.write_text("ok 1\nok")
    done = subprocess.run([release.made / "nrm-tools", "resume", release.made / "examples" / "log" / "network.csv",
                           "first", stream, kept],
                          env={"PATH": SYSTEM}, cwd=release.folder, capture_output=True, text=True, timeout=SECONDS)
    want((done.stdout, done.returncode), ("continue at line 2; 5 bytes of whole replies come before it\n", 0),
         done.stderr)


@test
def its_wheel_is_installed_in_an_environment_of_its_own(release):
    place, [wheel] = release.folder / "environment", release.made.glob("*.whl")
    if subprocess.run(["/usr/bin/python3", "-m", "venv", place], stdout=subprocess.DEVNULL,
                      stderr=subprocess.DEVNULL).returncode:
        print("Debian's python3-venv isn't installed: the wheel was not")
        return
    subprocess.run([place / "bin" / "pip", "install", "--quiet", "--no-index", wheel], check=True, timeout=SECONDS)
    network = release.made / "examples" / "log" / "network.csv"
    done = subprocess.run([place / "bin" / "nrm-tools", "explain", network], cwd=release.folder,
                          capture_output=True, text=True)
    want((done.returncode, "no row is refused" in done.stdout), (0, True), done.stdout + done.stderr)


@test
def its_links_lead_somewhere(release):
    faults, links = pages.faulty_links([*release.made.glob("*.md"), *(release.made / "docs").rglob("*.md")])
    want((faults, links > 100), ([], True), "links")


@test
def its_commands_run_as_they_are_written(release):
    """With no folder on the path but its own and the system's, and in a copy of it."""
    faults, lacks = [], pages.lacks_a_database()
    for at, page in enumerate([release.made / "README.md", *sorted((release.made / "docs").rglob("*.md"))]):
        if not any(it.is_run() for it in blocks.parts_of(page)) or lacks and page.name == pages.WITH_DATABASE:
            continue
        copy = release.folder / f"copy-{at}"
        shutil.copytree(release.made, copy)
        pages.lay_typed(copy, SYSTEM)
        lists = blocks.Lists({**pages.NOT_RUN, **NOT_THERE, **blocks.missing(pages.NEEDS, SYSTEM)}, pages.ENDS,
                             pages.NOT_SHOWN)
        faults += blocks.faults_of(page, copy, f"{copy}:{SYSTEM}", lists)[0]
    if faults:
        raise Wrong("\n".join(faults))


def can_be_made():
    """Whether there is what a release is made with."""
    makes_wheels = not subprocess.run(WHEEL, stderr=subprocess.DEVNULL).returncode
    return bool(shutil.which("rt")) and (TOP / ".git").exists() and makes_wheels


def main():
    given = checks.words_of(__doc__)
    tests = test.picked(given.pattern)
    if not checks.is_built(given.program):
        checks.ended(0, len(tests))
        return checks.NOT_BUILT
    if not can_be_made():
        print("there is no kit, no git repository, or nothing to make a wheel with (python3-pip, python3-setuptools, "
              "python3-wheel): no release was made")
        checks.ended(0, 0)
        return 0
    failed = 0
    with tempfile.TemporaryDirectory() as folder:
        release = Release([os.path.abspath(it) if os.path.exists(it) else it for it in given.program], Path(folder))
        ended, told = release.make(release.out)
        if ended:
            print(told)
            return checks.ended(0, len(tests))
        for function in sorted(tests, key=lambda it: it is is_of_what_is_committed):  # that one takes the clone apart
            try:
                function(release)
            except (Wrong, OSError, subprocess.SubprocessError) as why:
                failed += 1
                print(f"{function.__name__}: {why}", flush=True)
    return checks.ended(len(tests) - failed, failed)


if __name__ == "__main__":
    sys.exit(main())
