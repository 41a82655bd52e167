"""Prints a script with which a shell completes the words of nrm-tools: commands, options, choices and names of files.

    nrm-tools completion bash|zsh|fish > SCRIPT

The script is made from the parsers of the commands, so it has every option of this version: make it again after an
upgrade. Bash reads it from ~/.local/share/bash-completion/completions/nrm-tools if Debian's bash-completion is
installed, zsh as the file `_nrm-tools` in a folder of its `fpath`, and fish from
~/.config/fish/completions/nrm-tools.fish. To try it in the current shell, run `source SCRIPT`.
"""
from __future__ import annotations

import argparse
import importlib
from dataclasses import dataclass
from shlex import quote
from typing import Iterator, Mapping, NoReturn, Sequence

from nrm.commands import NAMED
from nrm.commands.running import parser

FILES = {"CA", "CERTIFICATE", "FILE", "FOLDER", "JOURNAL", "KEY", "LIST", "LOG", "NETWORK", "OPENED", "PATH", "PLACE",
         "REPLIES", "STREAM", "TIMETABLE", "WORD"}  # what an argument is called that may name a file
OPEN = 999  # how many words are taken where there is no limit
OF_ALL = ("--help", "--version")


class Shown(Exception):
    """The parser of a command that was asked for its help."""

    def __init__(self, of_command: argparse.ArgumentParser) -> None:
        super().__init__()
        self.parser = of_command


@dataclass(frozen=True)
class Taken:
    """An option with its names, or an argument, which has none: how many words it takes, how they are called, which
    they may be, and what it is for."""
    names: Sequence[str]
    most: int
    called: Sequence[str]
    choices: Sequence[str]
    purpose: str

    @classmethod
    def of(cls, action: argparse.Action) -> Taken:
        """What an action of argparse takes."""
        called = action.metavar or action.dest.upper()
        most = action.nargs if isinstance(action.nargs, int) else OPEN if action.nargs in ("*", "+") else 1
        return cls(action.option_strings, most, [called] if isinstance(called, str) else called,
                   [*map(str, action.choices or ())], (action.help or "") % {"default": action.default})

    @property
    def is_file(self) -> bool:
        """Whether a word that it takes may be the name of a file."""
        return bool(self.most) and not self.choices and not FILES.isdisjoint(self.called)


@dataclass(frozen=True)
class Command:
    """A command: what it does, its options and its arguments."""
    name: str
    purpose: str
    options: Sequence[Taken]
    arguments: Sequence[Taken]

    @classmethod
    def of(cls, name: str) -> Command:
        """A command, by its parser."""
        made = parser_of(name)
        taken = [Taken.of(it) for it in made._actions]  # which argparse lists nowhere else
        return cls(name, (made.description or "").partition("\n")[0], [it for it in taken if it.names],
                   [it for it in taken if not it.names])


def parser_of(name: str) -> argparse.ArgumentParser:
    """The parser that a command makes, taken when it is to show its help."""
    def show(of_command: argparse.ArgumentParser, _: object = None) -> NoReturn:
        raise Shown(of_command)
    usual = argparse.ArgumentParser.print_help
    setattr(argparse.ArgumentParser, "print_help", show)
    try:
        importlib.import_module(NAMED[name]).run(["--help"])
    except Shown as shown:
        return shown.parser
    finally:
        setattr(argparse.ArgumentParser, "print_help", usual)
    raise AssertionError(f"{name} has no --help")


def in_bash(commands: Sequence[Command]) -> Iterator[str]:
    """What each word takes, and what is offered there, as cases."""
    yield f"    '') offered={quote(' '.join([*(it.name for it in commands), *OF_ALL]))} ;;"
    for command in commands:
        keys = [(quote(f"{command.name} {name}"), it) for it in command.options for name in it.names]
        keys += [(quote(f"{command.name} @") + ("*" if it.most == OPEN else str(at)), it)
                 for at, it in enumerate(command.arguments, 1)]
        for key, it in keys:
            yield f"    {key}) most={it.most} offered={'@files' if it.is_file else quote(' '.join(it.choices))} ;;"
        yield f"    '{command.name} -') offered={quote(' '.join(name for it in command.options for name in it.names))} ;;"


def in_zsh(commands: Sequence[Command]) -> Iterator[str]:
    """The specifications of `_arguments` for each command."""
    def plain(text: str) -> str:
        return "".join(f"\\{it}" if it in "\\:[]" else it for it in text)

    def taken(it: Taken) -> list[str]:
        action = "_files" if it.is_file else f"({' '.join(it.choices)})" if it.choices else " "
        return [f"{plain(name)}:{action}" for name in it.called]
    listed = " ".join(quote(f"{it.name}:{it.purpose}") for it in commands)
    yield f"    0*) commands=({listed}); _describe command commands; compadd -- {' '.join(OF_ALL)} ;;"
    for command in commands:
        specs = [f"{name}{'=' if it.most == 1 and name.startswith('--') else ''}[{plain(it.purpose)}]"
                 + "".join(f":{one}" for one in taken(it)[:1 if it.most == OPEN else it.most])
                 for it in command.options for name in it.names]
        yield f"    1{command.name}) _arguments \\"
        yield from (f"      {quote(f'*{it}')} \\" for it in specs)
        yield "      " + " ".join(quote(f"{'*' if it.most == OPEN else at}:{taken(it)[0]}")
                                  for at, it in enumerate(command.arguments, 1)) + " ;;"


def in_fish(commands: Sequence[Command]) -> Iterator[str]:
    """A line for each command, option and argument."""
    def offered(it: Taken) -> str:
        return f" -a {quote(' '.join(it.choices))}" if it.choices else ""
    for name, purpose in [*((it.name, it.purpose) for it in commands), *((it, "") for it in OF_ALL)]:
        yield f"complete -c nrm-tools -n __nrm_tools_first -f -a {name} -d {quote(purpose)}"
    for command in commands:
        here = f"complete -c nrm-tools -n '__nrm_tools_at {command.name}"
        for it in command.options:
            names = " ".join(f"-l {name[2:]}" if name.startswith("--") else f"-s {name[1:]}" for name in it.names)
            takes = "" if not it.most else " -r -F" if it.is_file else " -x" + offered(it)
            yield f"{here}' {names}{takes} -d {quote(it.purpose)}"
        for at, it in enumerate(command.arguments, 2):
            if not it.is_file:
                yield f"{here} {at}' -f{offered(it)}"


WAYS = {"bash": in_bash, "zsh": in_zsh, "fish": in_fish}
HEADS = {"bash": """\
_nrm_tools_offer() {  # how many words one takes, and what is offered there: of a command, an option or the argument @N
  most=0 offered=
  case $1 in
""", "zsh": """\
#compdef nrm-tools
_nrm-tools() {
  local -a commands
  shift words
  case $((--CURRENT > 1))$words[1] in
""", "fish": """\
function __nrm_tools_first
    test (count (commandline -opc)) -eq 1
end
function __nrm_tools_at  # whether it is this command, and as many words stand before the one to complete
    set -l words (commandline -opc)
    test (count $words) -gt 1 && test $words[2] = $argv[1] || return 1
    test (count $argv) -eq 1 || test (count $words) -eq $argv[2]
end
"""}
ENDS = {"bash": """\
  esac
}

_nrm_tools() {
  local command=${COMP_WORDS[1]-} word=${COMP_WORDS[COMP_CWORD]} most offered left=0 values= at=1 i
  COMPREPLY=()
  [[ $word = : || ${COMP_WORDS[COMP_CWORD - 1]} = : ]] && return  # within HOST:PORT, which bash divides
  [[ $word = = ]] && word=  # behind --option=, which it divides too
  ((COMP_CWORD > 1)) || command=
  for ((i = 2; i < COMP_CWORD; i++)); do
    case ${COMP_WORDS[i]} in
      =) ;;
      :) ((i++)) ;;
      -*) _nrm_tools_offer "$command ${COMP_WORDS[i]}"; left=$most values=$offered ;;
      *) ((left ? left-- : at++)) ;;
    esac
  done
  if ((COMP_CWORD == 1)); then
    _nrm_tools_offer ''
  elif ((left)) && [[ $word != -* ]]; then
    offered=$values
  else
    _nrm_tools_offer "$command @$at"
    [[ $word != -* ]] && ((most)) || _nrm_tools_offer "$command -"
  fi
  if [[ $offered = @files ]]; then
    compopt -o default
  else
    mapfile -t COMPREPLY < <(compgen -W "$offered" -- "$word")
  fi
}
complete -F _nrm_tools nrm-tools
""", "zsh": """\
  esac
}
if [[ $funcstack[1] = _nrm-tools ]]; then _nrm-tools "$@"; else compdef _nrm-tools nrm-tools; fi
""", "fish": ""}


def run(given: Sequence[str]) -> int:
    """Prints the script for a shell."""
    words = parser("completion", __doc__)
    words.add_argument("shell", choices=WAYS)
    shell = words.parse_args(given).shell
    commands = [Command.of(it) for it in NAMED]
    print(HEADS[shell] + "\n".join(WAYS[shell](commands)) + "\n" + ENDS[shell], end="")
    return 0
