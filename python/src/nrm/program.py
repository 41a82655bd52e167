"""The program `nrm`, and `nrm_desks`: how it is found and run, as a whole run, a dialogue or a stream. None is built.

A run that ends with another status than 0 is a `Stop` that tells the status and the last line that was written.
"""
from __future__ import annotations

import contextlib
import hashlib
import io
import os
import shutil
import subprocess
import threading
from dataclasses import dataclass
from pathlib import Path
from typing import Callable, ContextManager, Iterable, Iterator, Sequence, TypeVar

from nrm import Stop
from nrm.replies import replies_of

TOP = Path(__file__).resolve().parents[3]  # of the checkout, where this file stands in one
PIECE = 65_536
LINES_AT_ONCE = 1000  # that are sent before their replies are read: they and their replies fit into a pipe
REFUSED = 3
INPUT_FAULT = 4
DOORS = ("nrm", "nrm_kept", "nrm_why", "nrm_desks")  # the scripts at the top of a checkout, which may build
WHICH = "--program names the one to run"
Told = TypeVar("Told")


# Where it is


def is_checkout(top: Path) -> bool:
    """Whether a folder has the sources of the program, so that `nrm` in it is a script that may build it."""
    return (top / "crates.txt").exists()


def is_program(path: Path) -> bool:
    """Whether a file is there that can be run."""
    return path.is_file() and os.access(path, os.X_OK)


def built_in(top: Path, name: str = "nrm") -> Path | None:
    """The built program of a checkout of some name; None if there is none, or one that is older than its sources."""
    program = top / "crates" / name / "out" / name
    if not is_program(program):
        return None
    built = program.stat().st_mtime_ns
    return None if any(it.lstat().st_mtime_ns > built for it in sources_of(top)) else program


def sources_of(top: Path) -> Iterator[Path]:
    """The files of a checkout that its scripts look at, to see whether a program is older."""
    yield top / "crates.txt"
    for folder, folders, files in os.walk(top / "crates"):
        folders[:] = [it for it in folders if it not in ("out", "must-fail")]
        yield from (Path(folder, it) for it in files)


def program_behind(path: str) -> str | None:
    """The program that a file is, or that the script of a checkout stands for; None if none there fits its sources."""
    script = Path(path).resolve()
    if script.name not in DOORS or not is_checkout(script.parent):
        return path
    built = built_in(script.parent, script.name)
    return str(built) if built else None


def beside(top: Path, name: str = "nrm") -> str | None:
    """The program beside the folder `python` that this file stands in, where that is no checkout, as in a release."""
    program = top / name
    is_there = Path(__file__).resolve().parts[-4:-1] == ("python", "src", "nrm") and is_program(program)
    return str(program) if is_there else None


def on_path(name: str = "nrm") -> str | None:
    """The first of a name on the path that is a program, or the script of a checkout with one."""
    for folder in os.get_exec_path():
        there = shutil.which(name, path=folder)
        found = there and program_behind(os.path.abspath(there))
        if found:
            return found
    return None


def no_program(top: Path, name: str = "nrm") -> Stop:
    """Why there is no program, for who has a checkout at a folder or none."""
    if is_checkout(top):
        return Stop(f"{top} has no built program that fits its sources, there is no other `{name}` on the path, "
                    f"and nothing is built here: `{top / name} --build` proves and builds it, and {WHICH}")
    return Stop(f"there is no `{name}` on the path; {WHICH}")


# How it is run


@dataclass(frozen=True)
class Program:
    """The words that run the program."""
    words: tuple[str, ...]

    @classmethod
    def found(cls, words: Sequence[str] | None = None, name: str = "nrm") -> Program:
        """The program of some words, else that of a name in this file's checkout or release, or on the path."""
        if words:
            there = shutil.which(words[0])
            found = program_behind(os.path.abspath(there)) if there else words[0]
            if not found:
                raise no_program(Path(str(there)).resolve().parent, Path(str(there)).resolve().name)
            return cls((found if found != os.path.abspath(words[0]) else words[0], *words[1:]))
        built = built_in(TOP, name) if is_checkout(TOP) else beside(TOP, name)
        found = str(built) if built else on_path(name)
        if not found:
            raise no_program(TOP, name)
        return cls((found,))

    def checksum(self) -> str:
        """The SHA-256 of the file that is run."""
        there = shutil.which(self.words[0])
        if not there:
            raise Stop(f"there is no program {self.words[0]}")
        return hashlib.sha256(Path(there).read_bytes()).hexdigest()

    def lines(self, *words: str) -> list[str]:
        """The lines that a run with some words writes."""
        done = subprocess.run([*self.words, *words], stdin=subprocess.DEVNULL, stdout=subprocess.PIPE)
        lines = done.stdout.decode("latin-1").splitlines()
        if done.returncode:
            raise ended(" ".join(words), done.returncode, lines[-1] if lines else "")
        return lines

    def told(self, read: Callable[[list[str]], Told], *words: str) -> Told:
        """What a run with some words tells, as its lines are read; a Stop where they are no answer."""
        lines = self.lines(*words)
        try:
            return read(lines)
        except (ValueError, LookupError):
            raise Stop(f"what `{' '.join(words)}` wrote isn't an answer to it: is it another program?")

    def replies(self, mode: str, network: str, stream: bytes) -> list[bytes]:
        """The replies to the lines of a stream, one each, by a run on the network file at a path."""
        done = subprocess.run([*self.words, "run", mode, network], input=stream, stdout=subprocess.PIPE)
        if done.returncode:
            raise unanswered(mode, network, done.returncode, done.stdout)
        return list(replies_of(io.BytesIO(done.stdout)))

    def replies_of_a_line(self, mode: str, network: str, stream: bytes,
                          clock: ContextManager[object] | None = None) -> list[bytes]:
        """The replies to a stream none of whose lines asks for a text, without line feeds: as `replies`, and much
        faster, since all goes through two files in memory. A clock counts the time in the program."""
        given, told = os.memfd_create("stream"), os.memfd_create("replies")
        try:
            os.write(given, stream)
            os.lseek(given, 0, os.SEEK_SET)
            words = [*self.words, "run", mode, network]
            with clock or contextlib.nullcontext():
                done = subprocess.run(words, stdin=given, stdout=told, close_fds=False)
            written = os.pread(told, os.fstat(told).st_size, 0)
        finally:
            os.close(given)
            os.close(told)
        if done.returncode:
            raise unanswered(mode, network, done.returncode, written)
        return written.split(b"\n")[:-1]


def ended(words: str, status: int, told: str) -> Stop:
    """A Stop for a run with some words that ended with a status, and with what it told."""
    advice = "; `nrm-tools explain` lists every row of a network file that is refused" if status == REFUSED else ""
    return Stop(f"`{words}` ended with status {status}{f': {told}' if told else ''}{advice}")


def unanswered(mode: str, network: str, status: int, written: bytes = b"") -> Stop:
    """A Stop for a run on a stream that ended with a status, behind the last line that it wrote."""
    return ended(f"run {mode} {network}", status, written.rstrip(b"\n").rpartition(b"\n")[2].decode("latin-1"))


# A dialogue, and a stream


class Run:
    """A run that is given its lines as it answers."""

    def __init__(self, program: Program, mode: str, network: str) -> None:
        self.mode, self.network = mode, network
        words = [*program.words, "run", mode, network]
        self.process = subprocess.Popen(words, stdin=subprocess.PIPE, stdout=subprocess.PIPE)
        given, told = self.process.stdin, self.process.stdout
        assert isinstance(given, io.BufferedWriter) and isinstance(told, io.BufferedReader)
        self.input, self.output = given, told

    def kill(self) -> None:
        """Ends a run of which no more is wanted."""
        self.process.kill()
        self.process.wait()


class Dialogue(Run):
    """A run whose replies are read before more is sent. None of its lines asks for a text."""

    def ask(self, lines: Sequence[str]) -> list[bytes]:
        """The replies to some lines, without line feeds."""
        replies: list[bytes] = []
        for at in range(0, len(lines), LINES_AT_ONCE):
            part = lines[at:at + LINES_AT_ONCE]
            self.input.write("\n".join([*part, ""]).encode())
            self.input.flush()
            replies += [self.output.readline().rstrip(b"\n") for _ in part]
        return replies

    def end(self) -> None:
        """Ends the input, and waits for the program; a Stop if it has another status than 0."""
        self.input.close()
        self.output.close()
        if status := self.process.wait():
            raise unanswered(self.mode, self.network, status)

    def broke(self) -> Stop:
        """A Stop for a program that has ended before it was told to."""
        self.output.close()
        return unanswered(self.mode, self.network, self.process.wait())

    def kill(self) -> None:
        super().kill()
        self.output.close()
        with contextlib.suppress(BrokenPipeError):
            self.input.close()


class Stream(Run):
    """A run that is given lines by a thread of its own, and then, if one is named, what a file descriptor has; its
    output is read as it comes. `fault` is the status if that descriptor can't be read, and None otherwise."""

    def __init__(self, program: Program, mode: str, network: str, lines: Iterable[bytes],
                 source: int | None = None) -> None:
        super().__init__(program, mode, network)
        self.fault: int | None = None
        threading.Thread(target=self.feed, args=(lines, source), daemon=True).start()

    def feed(self, lines: Iterable[bytes], source: int | None) -> None:
        """Gives the program its input, to the end."""
        with contextlib.suppress(BrokenPipeError), self.input as end:
            try:
                end.writelines(lines)
                end.flush()
                while source is not None and (piece := os.read(source, PIECE)):
                    end.write(piece)
                    end.flush()
            except BrokenPipeError:
                pass  # the program has ended, or is wanted no longer
            except OSError:
                self.fault = INPUT_FAULT
                self.process.kill()  # before its input ends: an unfinished line must not be taken for a whole one

    def wait(self) -> int:
        """The status, once the program has ended."""
        return self.process.wait()
