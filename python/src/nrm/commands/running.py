"""How a command begins and ends: its words, its status, and how a mistake, a closed pipe or Ctrl-C is told."""
from __future__ import annotations

import argparse
import importlib.util
import os
import re
import signal
import subprocess
import sys
from typing import Callable, NoReturn, Sequence

from nrm import Stop, said
from nrm.libraries import DEBIANS_PYTHON, is_debians, is_there, missing
from nrm.network import number
from nrm.program import TOP
from nrm.records.name_lists import texts_in

TOOLS = "nrm-tools"
SOURCES, OF_DEBIAN = TOP / "python" / "src", "/usr/lib/python3/dist-packages"
SEEN = "\n\t"  # what may stand in what is told
SENTENCES = (  # what argparse says of a mistake, beginning with an argument's name or none, and what is said in its place
    (r"argument (\S+): invalid choice: (.+) \(choose from (.+)\)", "{0}: {1} isn't one of: {2}"),
    (r"argument (\S+): expected one argument", "{0} needs a value"),
    (r"argument (\S+): expected at least one argument", "{0} needs at least one value"),
    (r"argument (\S+): expected (\d+) arguments", "{0} needs {1} values"),
    (r"argument (\S+): ignored explicit argument .*", "{0} takes no value"),
    (r"argument (\S+): not allowed with argument (\S+)", "{0} can't be used with {1}"),
    (r"argument (\S+): (.*)", "{0}: {1}"),
    (r"one of the arguments (.+) is required", "one of {0} must be given"),
    (r"the following arguments are required: (.+)", "{0} must be given"),
    (r"unrecognized arguments:() (.+)", "this command doesn't take {1}"),
    (r"ambiguous option: (\S+) could match (.+)", "{0} could be any of {1}"))
Run = Callable[[Sequence[str]], int]


def title(name: str) -> str:
    """How a command is called: `nrm-tools` and its name; a script beside the package by its path, as bench/plan.py."""
    return name if "/" in name else f"{TOOLS} {name}"


class Words(argparse.ArgumentParser):
    """A reader of words, which says in a sentence what is wrong, and what can't be seen in a word."""

    def error(self, message: str) -> NoReturn:
        super().error(said(sentence_of(message), "\n"))


def sentence_of(message: str) -> str:
    """What argparse says of a mistake, as a sentence in the words of the usage."""
    message = re.sub(r"(?<=\(choose from ).+(?=\)$)", lambda it: it[0].replace("'", ""), message)
    for pattern, sentence in SENTENCES:
        if found := re.fullmatch(pattern, message, re.DOTALL):
            name, *rest = found.groups()
            return sentence.format(re.sub(r"(?<![\w-])[a-z]+", lambda it: it[0].upper(), name), *rest)
    return message


def parser(name: str, manual: str) -> argparse.ArgumentParser:
    """A reader of the words of a command. The manual is the head of its file: a sentence, the usage, and the rest."""
    summary, usage, rest = manual.split("\n\n", 2)
    return Words(prog=title(name), usage=usage.strip(), description=f"{summary}\n\n{rest}",
                 formatter_class=argparse.RawDescriptionHelpFormatter)


def refused_word(text: str, wanted: str) -> argparse.ArgumentTypeError:
    """What is said of a word that isn't what is wanted."""
    return argparse.ArgumentTypeError(f"{text!r} isn't {wanted}")


def whole_number(text: str) -> int:
    """The whole number that a word says."""
    try:
        return number(text)
    except ValueError:
        raise refused_word(text, "a whole number")


def at_least(least: int, most: int) -> Callable[[str], int]:
    """A reader of whole numbers within two limits."""
    def within_limits(text: str) -> int:
        if not least <= (found := whole_number(text)) <= most:
            raise refused_word(text, f"a whole number from {least:,} to {most:,}")
        return found
    return within_limits


def add_program(words: argparse.ArgumentParser) -> None:
    """The option for which program is run, among the words of a command."""
    words.add_argument("--program", nargs="+", metavar="WORD",
                       help="the program nrm and its first arguments; by default that of this folder, or the one on "
                            "the path")


def add_names(words: argparse.ArgumentParser) -> None:
    """The option for what names stand for, among the words of a command."""
    words.add_argument("--names", metavar="FILE",
                       help="a list of what names stand for, as `nrm-tools log` writes it; its texts are shown beside "
                            "the names")


def asked_with_texts(words: argparse.ArgumentParser, given: Sequence[str]) -> tuple[argparse.Namespace, dict[str, str]]:
    """What the words ask of a program, and what names stand for."""
    add_names(words)
    add_program(words)
    asked = words.parse_args(given)
    return asked, texts_in(asked.names)


def status_of(name: str, run: Run, words: Sequence[str]) -> int:
    """Runs a command, and gives its status."""
    status = 1
    try:
        tell_what_cant_be_shown()
        status = run(words)
        if sys.stdout:
            sys.stdout.flush()
    except Stop as stop:
        tell(name, str(stop))
        status = stop.status
    except KeyboardInterrupt:
        forget_output()
        signal.signal(signal.SIGINT, signal.SIG_DFL)
        os.kill(os.getpid(), signal.SIGINT)  # so that a loop in a shell ends too
    except BrokenPipeError:
        forget_output()
        status = 128 + signal.SIGPIPE
    except subprocess.CalledProcessError as fault:
        tell(name, f"`{' '.join(map(str, fault.cmd))}` ended with status {fault.returncode}")
    except OSError as fault:
        tell(name, f"{f'{said(fault.filename)}: ' if fault.filename else ''}{fault.strerror or fault}")
        forget_output()
    return status


def tell(name: str, text: str) -> None:
    """Tells something on standard error, in the name of a command."""
    print(f"{title(name)}: {said(text, SEEN)}", file=sys.stderr)


def see_libraries(name: str, given: Sequence[str], *libraries: str) -> None:
    """Goes on under Debian's Python with a command where this Python lacks some libraries, and that one has them."""
    is_in_debians = all(os.path.isdir(f"{OF_DEBIAN}/{it}") for it in libraries) and os.access(DEBIANS_PYTHON, os.X_OK)
    if (not all(map(importlib.util.find_spec, libraries)) and is_in_debians and not is_debians()
            and (SOURCES / "__main__.py").is_file()):
        os.execv(DEBIANS_PYTHON, [DEBIANS_PYTHON, str(SOURCES), name, *given])


def lacking(name: str, *libraries: str) -> list[str]:
    """Those of some libraries that aren't there; what isn't made without them is told in the name of a command."""
    found = [it for it in libraries if not is_there(it)]
    if found:
        tell(name, missing(found))
    return found


def tell_what_cant_be_shown() -> None:
    """Has letters that the terminal can't show written out, since a name or a field of a file may hold any."""
    reconfigure = getattr(sys.stdout, "reconfigure", None)
    if reconfigure:
        reconfigure(errors="backslashreplace")


def forget_output() -> None:
    """Nothing more is written: what is left would be told as a fault once again."""
    os.dup2(os.open(os.devnull, os.O_WRONLY), 1)
