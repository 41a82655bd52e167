#!/usr/bin/env python3
r"""The end-to-end cases, on the built program with real files, pipes and outputs.

    tests/run.py [PATTERN] [--lay FOLDER] [--program WORD...] [--kept WORD...]

PATTERN picks the cases whose name has it in it, or matches it whole where it has a * or a ?. With --lay nothing is run:
what each case gives and wants is laid out in FOLDER/NAME, to be looked at and tried by hand. With no --program and no
--kept the programs are the scripts `nrm` and `nrm_kept` at the top of the repository. Each case that fails is told, and
how many were not run and why; the last line is `N passed, M failed`.

The cases stand in tests/tables/*.txt. A line at the margin opens an entry, and the indented lines below belong
to it; a line that begins with # is a remark, and an empty line is nothing.

    base NAME             a file's text, or a stream's, that the cases of all tables may start from
        LINES
    every case            what each case below in this table has, as far as it doesn't say its own
        PARTS
    case NAME
        PARTS

A part is one of these lines, and what stands below it, indented once more:

    program NAME          the program that the case runs: `nrm_kept`, and `nrm` where nothing is said
    words WORD WORD..     the words of the command line, none where none stand
    FILE                  a file of this name in the folder where the program runs
    stdin                 standard input, empty where nothing is said
    stdout                what must come on standard output, nothing where nothing is said
    session               both in rows `LINE => REPLY`; a row `=> REPLY` is a further line of the reply
    status N              the status that must come, 0 where nothing is said; `status N: TEXT` wants the line TEXT too
    outside               what is done to the outside, see below

and, of files that stay from run to run,

    store FILE            an SQLite file of this name, which the statements of SQL below make
    earlier [WORD..]      a run before, on the same files, in rows as those of `session`, with the words that stand here
                          or else those of the case; there may be several, and each must end with status 0
    rows FILE             the rows that the table `kept` of this SQLite file must have at the end, a blank between two
                          columns
    same FILE             at the end the file must have the bytes that it had before the run
    none FILE             at the end there must be no file whose name begins so

FILE, stdin, stdout, store, rows and base have their lines below; one line may stand beside the word instead, `stdin:
TEXT`. With `of NAME` they have those of a base, or of a file that the case named before, and with `from PATH` those of
a file of the repository. Changes of these stand below or, if it is one, after `with`:

    3: TEXT               line 3 is this
    3 gone                line 3 is left out
    3 then: TEXT          after line 3 comes this; 0 stands for the start
    end: TEXT             at the end comes this

Lines are counted as they stand in the table. TEXT, a WORD and a FILE are as they stand, in UTF-8, with these escapes:

    \n \r \t \s \\ \xNN   a line feed, a carriage return, a tab, a blank, a backslash, a byte
    \BOM                  a byte order mark
    \-                    nothing, so that an empty line is seen
    \{N TEXT}             N times TEXT
    \ at the end          no line feed comes after this line
    \for a=1..9 b=1..4: TEXT
                          as a whole line: a line for each a and each b; {a + 1} is a sum, and {a:02} has two digits

A case with an outside of its own has a part `outside`, a line for each thing that is done to it:

    mkdir NAME            a folder of that name stands in the folder where the program runs
    link NAME PATH        a link of that name stands in that folder, which leads to a path
    hard NAME FILE        the file has that name too
    fixed NAME            nobody may write to this file or folder; `.` is the folder where the program runs. If the
                          cases are run by root, who may, the program is run by another user
    fifo FILE N           the file is a FIFO, which gives its bytes in pieces of N
    pieces N              standard input comes in pieces of N bytes
    stdin-missing         the program has no standard input at all
    stdin-fails           reading standard input fails
    stdin-breaks          standard input gives its bytes, and then reading it fails
    stdout-missing        the program has no standard output at all
    stdout-full           every write to standard output fails
    stdout-closed         nobody reads standard output
    stdout-takes N        who reads standard output takes N bytes and leaves; these must be the first N bytes of
                          `stdout`
    disk-of N             standard output is a file on a disk that is full after N bytes; what the file has at the end
                          must be the first N bytes of `stdout`. (No disk is filled: the system lets the file grow no
                          further, and a write is short and then fails, as on a disk that is full.)

Whatever a case says, standard error must stay empty.
"""
import argparse
import collections
import fnmatch
import itertools
import os
import re
import resource
import signal
import socket
import subprocess
import sys
import tempfile
import threading
import time

HERE = os.path.dirname(os.path.realpath(__file__))
TOP = os.path.dirname(HERE)
sys.dont_write_bytecode = True
import checks
import stores

PROGRAMS = ["nrm", "nrm_kept"]
OTHER_USER = 65534  # `nobody`


class Bad(Exception):
    """A case that can't be read."""


class NotRun(Exception):
    """Why a case can't be run on this machine."""


# Text

SIGNS = {"n": b"\n", "r": b"\r", "t": b"\t", "s": b" ", "\\": b"\\", "-": b"", "BOM": b"\xef\xbb\xbf"}
WORD = re.compile(r"(?:\\\{[^}]*\}|\S)+")
ESCAPE = re.compile(r"\\(?:(BOM|[nrts\\-])|x([0-9a-f]{2})|\{(\d+) ([^}]*)\}|(.?))")


def unescaped(text):
    """The bytes of a text."""
    made, at = b"", 0
    for it in ESCAPE.finditer(text):
        sign, byte, count, again, other = it.groups()
        if other is not None:
            raise Bad(f"no such escape: {text}")
        made += text[at:it.start()].encode()
        made += SIGNS[sign] if sign else bytes([int(byte, 16)]) if byte else int(count) * unescaped(again)
        at = it.end()
    return made + text[at:].encode()


def line_of(text):
    """The bytes of a line, with its line feed unless a backslash stands at the end."""
    is_open = len(text) - len(text.rstrip("\\")) & 1
    return unescaped(text[:-1]) if is_open else unescaped(text) + b"\n"


def lines_of(text):
    """The lines of one line of a table: itself, or those of a \\for."""
    if not text.startswith("\\for "):
        return [line_of(text)]
    ranges, _, each = text[len("\\for "):].partition(": ")
    names = [re.fullmatch(r"(\w+)=(\d+)\.\.(\d+)", it) for it in ranges.split()]
    counts = [range(int(it[2]), int(it[3]) + 1) for it in names]
    text = compile("f" + repr(each), "<a line of a table>", "eval")
    return [line_of(eval(text, {}, dict(zip([it[1] for it in names], numbers))))
            for numbers in itertools.product(*counts)]


CHANGE = re.compile(r"(?:(\d+)(?:( then)?: (.*)| gone)|end: (.*))")


def changed(entries, changes):
    """Entries, each a list of lines, with the changes made; their numbers are those of before."""
    made = [[]] + [[it] for it in entries]
    for text in changes:
        found = CHANGE.fullmatch(text)
        number, then, line, last = found.groups() if found else (None, None, None, None)
        at = len(entries) if last is not None else int(number or -1)
        if not 0 <= at <= len(entries) or at == 0 and not (then or last is not None):
            raise Bad(f"no such change: {text}")
        if then or last is not None:
            made[at].append(lines_of(line if then else last))
        else:
            made[at][0] = [] if line is None else lines_of(line)
    return [it for some in made for it in some]


def bytes_of(entries):
    return b"".join(itertools.chain(*entries))


# Cases

class Case:
    """What a case gives the program, and what it wants of it."""

    def __init__(self, name):
        self.name = name
        self.program, self.words = PROGRAMS[0], None
        self.files, self.folders, self.links, self.fifos = {}, [], {}, {}
        self.stores, self.rows, self.same, self.none = {}, {}, [], []
        self.earlier = []  # of each run its words or none, and standard input and output
        self.hard, self.fixed = {}, []
        self.stdin = self.stdout = b""
        self.status = 0
        self.stdin_missing = self.stdin_fails = self.stdin_breaks = False
        self.stdout_missing = self.stdout_full = self.stdout_closed = False
        self.piece = self.taken = self.disk = None

    def set_up(self, line):
        """What a line of `outside` does."""
        verb, *rest = line.split(" ")
        if verb == "mkdir":
            self.folders.append(rest[0])
        elif verb == "link":
            self.links[rest[0]] = rest[1]
        elif verb == "hard":
            self.hard[rest[0]] = rest[1]
        elif verb == "fixed":
            self.fixed.append(rest[0])
        elif verb == "fifo":
            self.fifos[rest[0]] = int(rest[1])
        elif verb == "pieces":
            self.piece = int(rest[0])
        elif verb == "stdout-takes":
            self.taken = int(rest[0])
        elif verb == "disk-of":
            self.disk = int(rest[0])
        elif verb in ("stdin-missing", "stdin-fails", "stdin-breaks", "stdout-missing", "stdout-full", "stdout-closed"):
            setattr(self, verb.replace("-", "_"), True)
        else:
            raise Bad(f"this can't be done to the outside: {line}")

    def cut(self):
        """Leaves of what is wanted on standard output what its reader or its disk takes."""
        taken = [it for it in (self.taken, self.disk) if it is not None]
        self.stdout = self.stdout[:min(taken)] if taken else self.stdout

    def lay(self, folder):
        """Makes the files and folders of the case in a folder."""
        for name in self.folders:
            os.makedirs(os.path.join(folder, name))
        for name, content in self.files.items():
            path = os.path.join(folder, name)
            os.makedirs(os.path.dirname(path), exist_ok=True)
            with open(path, "wb") as file:
                file.write(content)
        for name, statements in self.stores.items():
            stores.make(os.path.join(folder, name), statements)
        for name, path in self.links.items():
            os.symlink(path, os.path.join(folder, name))
        for name, file in self.hard.items():
            os.link(os.path.join(folder, file), os.path.join(folder, name))

    def fix(self, folder):
        """Takes away who may write, and lets everybody read."""
        os.chmod(folder, 0o755)
        for name in self.fixed:
            path = os.path.join(folder, name)
            os.chmod(path, 0o555 if os.path.isdir(path) else 0o444)

    def lay_all(self, folder):
        """Writes what the case gives and wants, to be looked at and to be tried by hand."""
        os.makedirs(os.path.join(folder, "files"))
        self.lay(os.path.join(folder, "files"))
        told = {"words": lines_of_words(self.words), "stdin": self.stdin, "stdout": self.stdout,
                "status": b"%d\n" % self.status}
        for number, (words, stdin, _) in enumerate(self.earlier, 1):
            told |= {f"words-earlier-{number}": lines_of_words(words or self.words), f"stdin-earlier-{number}": stdin}
        for name, content in told.items():
            with open(os.path.join(folder, name), "wb") as file:
                file.write(content)


def lines_of_words(words):
    return b"".join(word + b"\n" for word in words)


def word_of(head):
    """The word that a part or a base begins with."""
    return re.match(r"[^ :]*", head)[0]


class Tables:
    """The bases and the cases of the tables."""

    def __init__(self, folder):
        self.bases, self.cases = {}, {}
        entries = []
        for name in sorted(os.listdir(folder)):
            every = []
            for head, parts in entries_of(os.path.join(folder, name)):
                if head == "every case":
                    every = parts
                else:
                    entries.append((name, head, every, parts))
        for is_base in (True, False):
            for table, head, every, parts in entries:
                try:
                    self.read(head, every, parts, is_base)
                except Bad as why:
                    sys.exit(f"tests/tables/{table}, {head}: {why}")

    def read(self, head, every, parts, is_base):
        kind, _, rest = head.partition(" ")
        if kind == "base" and is_base:
            name = word_of(rest)
            if name in self.bases:
                raise Bad("this name is taken")
            self.bases[name] = self.content(rest[len(name):], [line for line, _ in parts], {})
        elif kind == "case" and not is_base:
            if rest in self.cases:
                raise Bad("this name is taken")
            self.cases[rest] = self.case(rest, every, parts)
        elif kind not in ("base", "case"):
            raise Bad("this is no entry")

    def case(self, name, every, parts):
        case, content = Case(name), {}
        told = {word_of(head) for head, _ in parts}
        told |= {"stdin", "stdout"} if "session" in told else set()
        for head, below in [it for it in every if word_of(it[0]) not in told] + parts:
            word = word_of(head)
            rest = head[len(word):]
            if word == "words":
                case.words = words_of(rest)
            elif word == "program":
                case.program = program_of(rest)
            elif word == "earlier":
                case.earlier.append((words_of(rest) or None, *session_of(below)))
            elif word in ("same", "none"):
                getattr(case, word).append(unescaped(rest[1:]).decode())
            elif word in ("store", "rows"):
                self.stored(case, word, rest[1:], below)
            elif word == "session":
                case.stdin, case.stdout = session_of(below)
            elif word == "outside":
                for line in ([rest[2:]] if rest else []) + below:
                    case.set_up(line)
            elif word == "status":
                number, _, line = rest.partition(": ")
                case.status = int(number)
                case.stdout = line_of(line) if line else case.stdout
            else:
                content[unescaped(word).decode()] = self.content(rest, below, content)
        case.files = {it: bytes_of(entries) for it, entries in content.items()}
        case.stdin = case.files.pop("stdin", case.stdin)
        case.stdout = case.files.pop("stdout", case.stdout)
        case.cut()
        if case.words is None:
            raise Bad("it says no words")
        return case

    def stored(self, case, word, rest, below):
        """What an SQLite file is made of, or the rows that it must have."""
        name = word_of(rest)
        held = case.stores if word == "store" else case.rows
        held[name] = bytes_of(self.content(rest[len(name):], below, {}))

    def content(self, rest, below, known):
        """The entries of a part, each a list of lines."""
        found = re.fullmatch(r"(?:: (.*)| (of|from) (\S+)(?: with (.*))?)?", rest)
        if not found:
            raise Bad(f"this can't be read: {rest}")
        line, way, name, change = found.groups()
        if way is None:
            return [lines_of(it) for it in ([] if line is None else [line]) + below]
        if way == "from":
            with open(os.path.join(TOP, name), "rb") as file:
                entries = [[it] for it in file]
        elif name in known or name in self.bases:
            entries = known[name] if name in known else self.bases[name]
        else:
            raise Bad(f"there is no {name}")
        return changed(entries, ([] if change is None else [change]) + below)


def words_of(text):
    """The words of a command line."""
    return [unescaped(it) for it in WORD.findall(text)]


def program_of(rest):
    """The program that a case names."""
    if rest[1:] not in PROGRAMS:
        raise Bad(f"there is no program{rest}")
    return rest[1:]


def session_of(rows):
    """Standard input and output of rows."""
    given = wanted = b""
    for row in rows:
        line, arrow, reply = re.fullmatch(r"(.*?)(?:( *=> ?)(.*))?", row).groups()
        given += line_of(line) if line else b""
        wanted += line_of(reply) if arrow else b""
    return given, wanted


def entries_of(path):
    """The entries of a table: the head of each, and its parts, each with the lines below it."""
    entries = []
    with open(path, encoding="utf-8", newline="\n") as file:
        for number, line in enumerate(file.read().split("\n"), 1):
            text = line.lstrip(" ")
            depth = min(len(line) - len(text), 8)
            if not text or line.startswith("#"):
                continue
            if depth not in (0, 4, 8) or text != text.rstrip():
                sys.exit(f"{path}, line {number}: it stands at no margin, or has a blank at its end")
            if depth == 0:
                entries.append((line, []))
            elif depth == 4:
                entries[-1][1].append((text, []))
            else:
                entries[-1][1][-1][1].append(line[8:])
    return entries


# Runs

class Fifo:
    """A FIFO in the place of a file, and who gives the file's bytes to it."""

    def __init__(self, path, piece):
        with open(path, "rb") as file:
            content = file.read()
        os.remove(path)
        os.mkfifo(path)
        self.path, self.giver = path, threading.Thread(target=self.give, args=(content, piece), daemon=True)
        self.giver.start()

    def give(self, content, piece):
        try:
            with open(self.path, "wb", buffering=0) as end:  # waits for who reads
                for at in range(0, len(content), piece):
                    end.write(content[at:at + piece])
                    time.sleep(0.001)
        except BrokenPipeError:
            pass  # who reads has had enough

    def end(self):
        os.close(os.open(self.path, os.O_RDONLY | os.O_NONBLOCK))  # nobody may have read
        self.giver.join()


def content_of(path):
    """The bytes of a file, or nothing if it isn't there."""
    try:
        with open(path, "rb") as file:
            return file.read()
    except FileNotFoundError:
        return None


class Run:
    """A run of a program on a case, in a folder."""

    def __init__(self, case, program, folder):
        self.case, self.took, self.folder = case, None, folder
        if (case.stores or case.rows) and not stores.is_there:
            raise NotRun(stores.WANTING)
        case.lay(folder)
        for words, stdin, stdout in case.earlier:
            self.run_earlier(program + (words or case.words), stdin, stdout)
        if case.fixed:
            case.fix(folder)
        self.before = {name: content_of(os.path.join(folder, name)) for name in case.same}
        stdin, stdout = self.stdin_end(), self.stdout_end()
        fifos = [Fifo(os.path.join(folder, name), piece) for name, piece in case.fifos.items()]
        process = self.begun(program + case.words, stdin, stdout)
        for end in (stdin, stdout):
            if end is not subprocess.PIPE:
                end.close()
        given = case.stdin if stdin is subprocess.PIPE else None
        if case.piece:
            self.give_in_pieces(process.stdin)
            given = b""
        self.out, self.err = process.communicate(given, timeout=120)
        self.status = process.returncode
        for fifo in fifos:
            fifo.end()
        if case.taken is not None:
            self.reader.wait(timeout=120)
        if self.took:
            self.took.seek(0)
            self.out = self.took.read()
            self.took.close()
        self.faults = list(self.left_wrong())

    def run_earlier(self, words, stdin, stdout):
        """A run before that of the case."""
        done = subprocess.run(words, cwd=self.folder, input=stdin, capture_output=True, timeout=120)
        if (done.returncode, done.stdout, done.stderr) != (0, stdout, b""):
            raise Bad(f"an earlier run ended with status {done.returncode}, wrote {done.stdout[:300]!r}, wanted "
                      f"{stdout[:300]!r}; standard error {done.stderr[:300]!r}")

    def begun(self, words, stdin, stdout):
        """The process of the program."""
        case, user = self.case, {}
        if case.fixed and os.geteuid() == 0:
            user = {"user": OTHER_USER, "group": OTHER_USER, "extra_groups": []}
        is_prepared = case.stdin_missing or case.stdout_missing or case.disk is not None
        try:
            return subprocess.Popen(words, cwd=self.folder, stdin=stdin, stdout=stdout, stderr=subprocess.PIPE,
                                    preexec_fn=self.prepare if is_prepared else None, **user)
        except PermissionError:
            if not user:
                raise
            raise NotRun(
                "the cases are run by root, who may write everywhere, and another user may not run the program")

    def left_wrong(self):
        """What is wrong with the files that are there at the end."""
        for name, wanted in self.case.rows.items():
            try:
                got = stores.text(os.path.join(self.folder, name))
            except stores.Unread as why:
                got = str(why).encode()
            if got != wanted:
                yield f"{name} has {got[:300]!r}, wanted {wanted[:300]!r}"
        yield from (f"{name} has changed" for name, was in self.before.items()
                    if content_of(os.path.join(self.folder, name)) != was)
        for name in self.case.none:
            yield from (f"{it} is there" for it in stores.files(os.path.join(self.folder, name)))

    def prepare(self):
        """What is done in the program's process, before it begins."""
        if self.case.stdin_missing:
            os.close(0)
        if self.case.stdout_missing:
            os.close(1)
        if self.case.disk is not None:
            signal.signal(signal.SIGXFSZ, signal.SIG_IGN)
            resource.setrlimit(resource.RLIMIT_FSIZE, (self.case.disk, self.case.disk))

    def stdin_end(self):
        """What the program has as standard input."""
        if self.case.stdin_fails:
            return open("/proc/self/mem", "rb", buffering=0)  # reading it at its start is an error
        if self.case.stdin_breaks:
            near, far = socket.socketpair()
            far.sendall(b"never read")  # a socket that closes with unread bytes breaks the other one, after its bytes
            near.sendall(self.case.stdin)
            near.close()
            return far
        return subprocess.PIPE

    def stdout_end(self):
        """What the program has as standard output."""
        if self.case.stdout_full:
            return open("/dev/full", "wb")
        if self.case.stdout_closed:
            reading, writing = os.pipe()
            os.close(reading)
            return open(writing, "wb")
        if self.case.taken is not None:
            self.took = tempfile.TemporaryFile()
            words = ["head", "-c", str(self.case.taken)]
            self.reader = subprocess.Popen(words, stdin=subprocess.PIPE, stdout=self.took)
            return self.reader.stdin
        if self.case.disk is not None:
            self.took = tempfile.TemporaryFile()
            return os.fdopen(os.dup(self.took.fileno()), "wb")
        return subprocess.PIPE

    def give_in_pieces(self, end):
        try:
            for at in range(0, len(self.case.stdin), self.case.piece):
                end.write(self.case.stdin[at:at + self.case.piece])
                end.flush()
                time.sleep(0.001)
        except BrokenPipeError:
            pass  # the program has ended

    def is_as_wanted(self):
        has_no_output = self.case.stdout_missing or self.case.stdout_full or self.case.stdout_closed
        is_told = has_no_output or self.out == self.case.stdout
        return self.status == self.case.status and not self.err and is_told and not self.faults

    def told(self):
        wrote = (self.out or b"")[:300]
        return (f"{self.case.name}: status {self.status}, wanted {self.case.status}; wrote {wrote!r}, "
                f"wanted {self.case.stdout[:300]!r}; standard error {self.err[:300]!r}"
                + "".join(f"; {it}" for it in self.faults))


def cases_of(pattern):
    """The cases that a pattern picks, by name."""
    cases = Tables(os.path.join(HERE, "tables")).cases
    is_whole = re.search(r"[*?\[]", pattern)
    return [cases[name] for name in sorted(cases) if (fnmatch.fnmatch(name, pattern) if is_whole else pattern in name)]


def programs_of(given):
    """The command of each program by its name."""
    words = {"nrm": given.program, "nrm_kept": given.kept}
    return {name: checks.itself(checks.placed(some or [os.path.join(TOP, name)])) for name, some in words.items()}


def outcome(case, program):
    """Whether a case passed, and what is told of it; no truth value if it was not run."""
    with tempfile.TemporaryDirectory() as folder:
        try:
            run = Run(case, program, folder)
        except NotRun as why:
            return None, str(why)
        except Bad as why:
            return False, f"{case.name}: {why}"
    return run.is_as_wanted(), run.told()


def main():
    parser = argparse.ArgumentParser(usage=__doc__)
    parser.add_argument("pattern", nargs="?", default="")
    parser.add_argument("--lay")
    parser.add_argument("--program", nargs="+")
    parser.add_argument("--kept", nargs="+")
    given = parser.parse_args()
    cases, programs = cases_of(given.pattern), programs_of(given)
    if given.lay:
        for case in cases:
            case.lay_all(os.path.join(given.lay, case.name))
        return 0
    if not all(checks.is_built(programs[name]) for name in sorted({case.program for case in cases})):
        checks.ended(0, len(cases))
        return checks.NOT_BUILT
    passed, left_out = 0, collections.Counter()
    for case in cases:
        is_good, told = outcome(case, programs[case.program])
        passed += is_good or 0
        if is_good is None:
            left_out[told] += 1
        elif not is_good:
            print(told)
    for why, count in left_out.items():
        print(f"{count} not run: {why}")
    failed = len(cases) - passed - left_out.total()
    print(f"{passed} passed, {failed} failed")
    return 0 if passed + left_out.total() and not failed else 1


if __name__ == "__main__":
    sys.exit(main())
