#!/usr/bin/env python3
"""The pages: their links lead somewhere, and their commands print what the pages show.

    tests/pages.py [PATTERN] [--program WORD...]

The pages are README.md and those below docs/; PATTERN picks those with it in their path. The commands of each run
in a copy of what is committed or added, in their order, with the program that is tested in the place of the built one.
What isn't run or compared is listed below, each with the reason. With no --program it is the script `nrm` at the top of
the repository; the script `nrm_kept` is always that at the top, and so are `nrm_why` and `nrm_desks`, where the words
of NRM_WHY and NRM_DESKS name no other program. What fails is told; the last line is `N passed, M failed`.
"""
import concurrent.futures
import os
import re
import shlex
import shutil
import subprocess
import sys
import tempfile
from pathlib import Path

import blocks
import checks

TOP = Path(__file__).resolve().parent.parent
PAGES = [TOP / "README.md", *sorted((TOP / "docs").rglob("*.md"))]
USERS_OWN = "it is of files that the user has"
SERVERS = "it is of a server, whose tests run it"
MINUTES = "it needs Dask, and may take a minute and more"
THREE_MACHINES = "it is of three machines, for which the tests of the fleet have others"
NOT_RUN = {  # by the beginning of the commands; the reason
    "nrm plan bid network.csv > plan.new": USERS_OWN, "nrm print network.csv > canonical.new": USERS_OWN,
    "nrm print old.csv > new.part": USERS_OWN, "sender |": USERS_OWN, "head -c 123 replies": USERS_OWN,
    "awk '/^ok /": USERS_OWN,
    "/usr/bin/python3 -m distributed": SERVERS, "openssl req -x509 -newkey rsa": SERVERS,
    "nrm-tools simulate": MINUTES, "nrm-tools authorise": MINUTES,
    "nrm-tools thresholds mine/train.csv 5 --search": MINUTES,
    "nrm-tools thresholds examples/season/network.csv 5 --search": MINUTES,
    "nrm-tools averaged examples/season/network.csv --seasons": MINUTES,
    "apt-get": "it installs into the system", "install -o": "it installs into the system",
    "patronictl": THREE_MACHINES, "createuser": THREE_MACHINES,
    "useradd": "it needs root and systemd", "systemctl": "it needs root and systemd",
    "git clone": "it proves all crates again", "install -m 755": "it installs into the system",
    "sqlite3 mine/bookings.db 'SELECT * FROM kept WHERE number = N'": "N stands for a number that was told",
}
# commands of Debian's packages glpk-utils, qsopt-ex, sqlite3, gcc, nodejs, openssl and curl: not run without them
NEEDS = ("glpsol", "esolver", "sqlite3", "cc", "node", "openssl", "curl")
TYPED = Path(__file__).with_name("typed.py")  # in the place of `socat` where it isn't installed
WITH_DATABASE = "fleet.md"  # the page whose commands need a database
ENDS = {  # by the beginning of the commands that end with another status than 0 on purpose: the status
    "python3 examples/line/make.py trains": 1, "python3 examples/line/make.py line": 1, "sed 's/AB 120/AB 119/'": 1,
    "sed 's/^protect BC 4 6/": 1, "nrm-tools explain mine/train.csv": 3, 'cp "$store-wal" mine/backup': 1}
NOT_SHOWN = {}  # by the beginning of what isn't compared: the reason
LISTS = blocks.Lists({**NOT_RUN, **blocks.missing(NEEDS)}, ENDS, NOT_SHOWN)


def headings_of(path):
    """The anchors of a page's headings."""
    return {re.sub(r"[^\w -]", "", it.lower()).replace(" ", "-")
            for it in re.findall(r"^#+ (.*)", path.read_text(), re.M)}


def faulty_links(pages):
    """The links of some pages that lead nowhere, and how many links there are."""
    faults, links = [], 0
    for path in pages:
        for link in re.findall(r"\]\(([^)#:]*(?:#[^)]*)?)\)", path.read_text()):
            file, _, heading = link.partition("#")
            linked = path.parent / file if file else path
            if not linked.exists() or heading and heading not in headings_of(linked):
                faults.append(f"{blocks.name_of(path)}: there is no {link}")
            links += 1
    return faults, links


def copied(top, program):
    """Copies what git knows of to a folder, but for the crates, with the program in the place of the built one."""
    names = subprocess.run(["git", "ls-files", "-z", ":!crates"], cwd=TOP, stdout=subprocess.PIPE,
                           check=True).stdout.split(b"\0")
    for name in map(os.fsdecode, filter(None, names)):
        if (TOP / name).exists():
            (top / name).parent.mkdir(parents=True, exist_ok=True)
            shutil.copy2(TOP / name, top / name, follow_symlinks=False)
    lay_programs(top, program)
    lay_typed(top)


def lay_typed(top, path=None):
    """Lays `typed.py` at the top of a folder, in the place of `socat` where that isn't on a path of programs."""
    if not shutil.which("socat", path=path):
        (top / "socat").symlink_to(TYPED)


def lay_programs(top, program):
    """Lays the program, `nrm_kept`, `nrm_why` and `nrm_desks` in the place of the built ones of a folder."""
    why, desks = (checks.named(name.upper(), str(TOP / name)) for name in ("nrm_why", "nrm_desks"))
    kept = [str(TOP / "nrm_kept")]
    for name, words in (("nrm", program), ("nrm_kept", kept), ("nrm_why", why), ("nrm_desks", desks)):
        built = top / "crates" / name / "out" / name
        built.parent.mkdir(parents=True, exist_ok=True)
        built.write_text(f'#!/bin/sh\nexec {shlex.join(words)} "$@"\n')
        built.chmod(0o755)


def lacks_a_database():
    """Why the page of a database isn't tried here; nothing if it is."""
    if not list(Path("/usr/lib/postgresql").glob("*/bin/initdb")):
        return "PostgreSQL isn't installed (Debian has postgresql)"
    done = subprocess.run(["/usr/bin/python3", "-c", "import psycopg"], stderr=subprocess.DEVNULL)
    return "/usr/bin/python3 has no psycopg (Debian has python3-psycopg)" if done.returncode else ""


def page_tried(path, program):
    """What is wrong with a page, how many parts were run and how many compared."""
    with tempfile.TemporaryDirectory() as folder:
        os.chmod(folder, 0o755)  # the servers of a database run as somebody else where this is root
        top = Path(folder) / "copy"
        if any(it.is_run() for it in blocks.parts_of(path)):
            copied(top, program)
        return blocks.faults_of(path, top, f"{top}:{os.environ['PATH']}", LISTS)


def main():
    given = checks.words_of(__doc__)
    pages = [it for it in PAGES if given.pattern in blocks.name_of(it)]
    if not checks.is_built(given.program):
        checks.ended(0, len(pages))
        return checks.NOT_BUILT
    faults, links = faulty_links([*TOP.glob("*.md"), *pages])
    if links < 100 and not given.pattern:
        faults.append(f"there are {links} links alone")
    unmet = []
    if not given.pattern:
        met = set().union(*map(LISTS.met_by, pages))
        unmet = [f"no page has `{it}`, which is listed" for it in [*NOT_RUN, *ENDS, *NOT_SHOWN] if it not in met]
    if (why := lacks_a_database()) and (without := [it for it in pages if it.name == WITH_DATABASE]):
        print(f"{WITH_DATABASE}: its commands aren't run: {why}")
        pages = [it for it in pages if it not in without]
    if not shutil.which("socat"):
        print("socat isn't installed (Debian has socat): tests/typed.py types the lines of desks in its place")
    failed = bool(faults) + bool(unmet)
    faults += unmet
    with concurrent.futures.ThreadPoolExecutor(4) as pool:
        tried = pool.map(lambda it: page_tried(it, given.program), pages)
        for path, (wrong, ran, compared) in zip(pages, tried):
            print(f"{blocks.name_of(path)}: commands run {ran}, compared with what is shown {compared}", flush=True)
            faults += wrong
            failed += bool(wrong)
    for it in faults:
        print(it)
    return checks.ended(len(pages) + 2 - failed, failed)


if __name__ == "__main__":
    sys.exit(main())
