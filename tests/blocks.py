"""The blocks of commands of a page, run in its order in one shell, and what the page shows of what they print.

A block is what is indented by four blanks or more behind an empty line. A part of it that begins with the name of a
command is run; any other shows something. What is shown behind commands must have been printed by those above it under
the same heading, or written by them into files of the folder `mine`, which the pages write to. Lines of a stream with
their replies beside them may also stand above the commands that answer that stream. Where a page links to `the first
commands of` another, these are run there.
"""
import os
import re
import shutil
import subprocess
import tempfile
from dataclasses import dataclass, field
from pathlib import Path

SECONDS = 300  # that the commands of a page may take in all
COMMANDS = """nrm nrm-tools nrm_kept nrm_why nrm_desks ./nrm ./nrm_kept ./nrm_why ./nrm_desks ./nrm-tools
    tools/release.sh apt-get awk cat cc cmp coproc createuser curl echo esolver export for git glpsol
    grep head install kill mkdir openssl patronictl printf python3 /usr/bin/python3 rm sed sender socat sqlite3
    systemctl tail tests/databases.py until useradd {""".split()
ASSIGNED = re.compile(r"[a-z]+=")
TOLD = re.compile(r"nrm-tools [a-z]+: ")  # what a command tells on standard error
ELIDED = re.compile(r"\s*\.\.+\s*")  # a line that stands for several
ANSWERED = re.compile(r"(?:book|cancel|leg|plan|reoptimise|hindsight)\b.* {2,}\S")  # a line of a stream, and its reply
FIRST = re.compile(r"\[the first commands of [^]]*\]\(([^)#]*\.md)")
STREAM = re.compile(r" < (\S+)$")  # the file at the end of the commands that answer it
MARK = "blocks.py"


@dataclass
class Part:
    """A part of a block: its page and line, its lines, and, if it shows something, the commands that may print it, or
    those below that answer what it shows."""
    page: str
    line: int
    lines: list
    shows: list = field(default_factory=list, repr=False)
    answered_by: "Part | None" = field(default=None, repr=False)
    out: str = field(default="", repr=False)
    status: "int | None" = None

    def name(self):
        return f"{self.page}:{self.line}: {self.lines[0].strip()}"

    def text(self):
        """Its lines, moved to the left."""
        blanks = min(len(it) - len(it.lstrip()) for it in self.lines)
        return "\n".join(it[blanks:].rstrip() for it in self.lines) + "\n"

    def is_run(self):
        """Whether it is commands."""
        first = self.lines[0].split()[0]
        if TOLD.match(self.lines[0].strip()):
            return False
        return first in COMMANDS or ASSIGNED.match(first) is not None


def name_of(path):
    """A page's path from the top, of the repository or of a release."""
    return "/".join(path.parts[path.parts.index("docs"):]) if "docs" in path.parts else path.name


def parts_of(path):
    """The parts of a page, in their order."""
    found, above, lines, is_block, part = [], [], [*path.read_text().splitlines(), ""], False, None
    for at, line in enumerate(lines, 1):
        is_indented = line.startswith("    ")
        if is_indented and (is_block or not lines[at - 2].strip()):
            is_block = True
            if part is None:
                part = Part(name_of(path), at, [])
                found.append(part)
            part.lines.append(line)
            continue
        part, is_block = None, is_block and not line.strip()
        if linked := FIRST.search(line):
            found.append(next(it for it in parts_of(path.parent / linked[1]) if it.is_run()))
        if line.startswith("#"):
            found.append(None)  # a heading: what is shown below it isn't of the commands above
    exchange = None
    for part in found:
        if part is None:
            above, exchange = [], None
        elif part.is_run():
            above = [*above, part]
            if exchange and STREAM.search(part.lines[-1]):
                exchange.answered_by, exchange = part, None
        else:
            part.shows = above
            exchange = part if not above and ANSWERED.match(part.text()) else exchange
    return [it for it in found if it]


def is_exchange(part, stream):
    """Whether a part has the first lines of a stream on its left, and beside them the first replies that were printed.

    Further columns are remarks; further lines of a reply stand below its first.
    """
    rows = [re.split(r" {2,}", line) for line in part.text().splitlines()]
    asked, told = [row[0] for row in rows if row[0]], [row[1] for row in rows if len(row) > 1]
    return stream.splitlines()[:len(asked)] == asked and part.answered_by.out.splitlines()[:len(told)] == told


def is_shown_in(shown, printed):
    """Whether lines are in a text, one below the other, but for what they leave out."""
    wanted, lines = shown.splitlines(), [it.rstrip() for it in printed.splitlines()]
    pieces, at = [[]], 0
    for line in wanted:
        if ELIDED.fullmatch(line):
            pieces.append([])
        else:
            pieces[-1].append(line.strip())
    bare = [it.strip() for it in lines]
    for piece in filter(None, pieces):
        at = next((it + len(piece) for it in range(at, len(bare) - len(piece) + 1)
                   if bare[it:it + len(piece)] == piece), None)
        if at is None:
            return False
    return True


def run(parts, top, path):
    """Runs the commands of a page at the top of a folder, with a path of programs: each gets what it printed, and its
    status. A part that isn't reached keeps the status None."""
    with tempfile.TemporaryDirectory() as folder:
        script = ["exec </dev/null"]
        for number, part in enumerate(parts):
            Path(folder, f"{number}.sh").write_text(part.text())
            script.append(
                f". '{folder}/{number}.sh' >'{folder}/{number}.out' 2>&1; echo $? >'{folder}/{number}.status'")
            script.append(f"mkdir -p '{folder}/{number}.mine'; cp -r --preserve=timestamps mine/. "
                          f"'{folder}/{number}.mine' 2>/dev/null")
        process = subprocess.Popen(["bash", "-c", "\n".join(script), MARK], cwd=top, start_new_session=True,
                                   stdout=subprocess.DEVNULL,
                                   stderr=subprocess.DEVNULL,
                                   env={**os.environ, "PATH": path, "LC_ALL": "C.UTF-8", "NRM_PROGRAM": ""})
        try:
            process.wait(SECONDS)
        except subprocess.TimeoutExpired:
            os.killpg(process.pid, 9)
            process.wait()
        for number, part in enumerate(parts):
            read_back(part, Path(folder, str(number)), Path(folder, str(number - 1)))


def read_back(part, place, before):
    """Takes what a part printed and wrote into files that weren't so before, and its status."""
    status = place.with_suffix(".status")
    if status.exists() and status.read_text():
        part.status = int(status.read_text())
    out = place.with_suffix(".out")
    part.out = out.read_text(errors="replace") if out.exists() else ""
    for path in sorted(place.with_suffix(".mine").rglob("*")):
        old = before.with_suffix(".mine") / path.relative_to(place.with_suffix(".mine"))
        if path.is_file() and not (old.is_file() and old.read_bytes() == path.read_bytes()):
            part.out += "\n" + path.read_text(errors="replace")


@dataclass(frozen=True)
class Lists:
    """What isn't run, how commands end, and what isn't compared, each by how a line of it begins."""
    not_run: dict
    ends: dict
    not_shown: dict

    @staticmethod
    def found(texts, part):
        """The texts of a list with which a line of a part begins."""
        return [it for it in texts if any(line.strip().startswith(it) for line in part.lines)]

    def met_by(self, page):
        """The texts of the lists with which a line of a page's parts begins, whether they are run or not."""
        return {found for texts in (self.not_run, self.ends, self.not_shown) for it in parts_of(page)
                for found in self.found(texts, it)}


def missing(needs, path=None):
    """Those commands of a list that aren't on a path of programs: a part that runs one isn't run."""
    return {command: "it isn't installed" for command in needs if not shutil.which(command, path=path)}


def faults_of(page, top, path, lists):
    """Runs a page in a folder: what is wrong, and how many parts were run and compared."""
    parts = parts_of(page)
    chosen = [it for it in parts if it.is_run() and not lists.found(lists.not_run, it)]
    if chosen:
        run(chosen, top, path)
    faults = []
    for it in chosen:
        wanted = next((lists.ends[found] for found in lists.found(lists.ends, it)), 0)
        if it.status != wanted:
            how = "was not reached" if it.status is None else f"ended with status {it.status}"
            faults.append(f"{it.name()}: {how}, and {wanted} is wanted: {it.out[-300:]}")
    compared = [it for it in parts if it.shows and it.shows[-1] in chosen and not lists.found(lists.not_shown, it)]
    for it in compared:
        if not any(is_shown_in(it.text(), above.out) for above in it.shows):
            faults.append(f"{it.name()}: this wasn't printed by {it.shows[-1].name()}\n{it.shows[-1].out[-600:]}")
    exchanges = [it for it in parts if it.answered_by in chosen]
    for it in exchanges:
        stream = top / STREAM.search(it.answered_by.lines[-1])[1]
        if not is_exchange(it, stream.read_text()):
            faults.append(f"{it.name()}: {it.answered_by.name()} answers other lines, or these in another way\n"
                          f"{it.answered_by.out[:600]}")
    return faults, len(chosen), len(compared) + len(exchanges)
