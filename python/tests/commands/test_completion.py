"""Each option of each command is in the scripts by which shells complete, and each shell that is here does it."""
from __future__ import annotations

import argparse
import os
import pty
import re
import select
import shlex
import shutil
import time
import unittest

from harness import SECONDS, PlaceTest, WithinTest
from nrm.commands import NAMED
from nrm.commands.completion import FILES, OPEN, WAYS, Command, Taken, parser_of

ELSE = {"ADDRESS", "BYTES", "C", "COLUMN", "DATE", "DAYS", "FROM", "GROUPS", "HOST:PORT", "K", "K=TIME", "LEG", "N",
        "NAME", "NUMBER", "P", "RIGHT", "RIGHTS", "SECONDS", "SEED", "SIZE:WEIGHT,...", "STOP", "TEXT", "TIME", "TO",
        "TRAIN"}  # what arguments are called that name no file
LINES = [  # what stands before the word that is completed, this word, and what is offered for it
    ([], "", [*NAMED, "--help", "--version"]), ([], "s", ["split", "season", "simulate", "serve", "status"]),
    (["serve"], "", "files"), (["serve"], "--lo", ["--log", "--log-level"]), (["serve", "--log"], "j", ["json"]),
    (["serve", "--log", "="], "s", ["systemd"]), (["serve", "--log"], "=", ["text", "json", "systemd"]),
    (["serve", "--socket"], "", "files"), (["serve", "--slow"], "", []), (["serve", "--slow", "1"], "", "files"),
    (["serve", "--listen", "localhost", ":", "80"], "", "files"), (["serve", "--listen", "localhost"], ":", []),
    (["serve", "--listen", "localhost", ":"], "8", []), (["serve", "j"], "--send", ["--send-on"]),
    (["journal"], "t", ["times", "thaw"]), (["journal", "look"], "", "files"), (["journal", "open", "j"], "", "files"),
    (["resume", "n.csv"], "", ["first", "bid", "davn"]), (["resume", "n.csv", "bid"], "", "files"),
    (["resume", "n", "bid", "s", "r"], "--g", ["--go-on"]),
    (["resume", "n", "bid", "s", "r"], "-", ["-h", "--help", "--go-on", "--program"]),
    (["resume", "--program", "sh", "nrm"], "", "files"), (["simulate", "--modes", "bid", "first"], "d", ["davn"]),
    (["simulate", "a", "b"], "", "files"), (["simulate", "--tls", "a", "b"], "", "files"),
    (["completion"], "", [*WAYS]), (["nope"], "", [])]
TYPED = {  # and what it becomes
    "nrm-tools thresh": "thresholds", "nrm-tools serve --list": "serve --listen", "nrm-tools lp netw": "lp network.csv",
    "nrm-tools serve --log sys": "serve --log systemd", "nrm-tools journal fr": "journal freeze",
    "nrm-tools resume n.csv da": "resume n.csv davn", "nrm-tools season n s --out pic": "season n s --out pictures",
    "nrm-tools simulate n --seasons 2 --dem": "simulate n --seasons 2 --demand",
    "nrm-tools serve --log=te": "serve --log=text",
    "nrm-tools replay n --program sh x --see": "replay n --program sh x --seed",
    "nrm-tools completion fi": "completion fish"}
SHELLS = {  # how each begins, and what it is told first
    "bash": ("bash --noprofile --norc -i", "nrm-tools() { echo \"<$*>\"; }"),
    "zsh": ("zsh -f -i", "nrm-tools() { echo \"<$*>\"; }; autoload -Uz compinit; compinit -u -D"),
    "fish": ("fish --no-config -i", "function nrm-tools; echo \"<$argv>\"; end")}


class Terminal:
    """A shell at a terminal, at which somebody types."""

    def __init__(self, words: list[str], folder: str) -> None:
        self.child, self.file = pty.fork()
        if not self.child:
            os.chdir(folder)
            os.execvpe(words[0], words, {**os.environ, "TERM": "dumb", "HOME": folder, "PS1": ""})
        self.seen = ""

    def type(self, text: str, wanted: str) -> str:
        """Types something, and waits until something is shown; what was shown until then."""
        self.seen = ""
        os.write(self.file, text.encode())
        until = time.monotonic() + SECONDS
        while wanted not in self.seen and time.monotonic() < until:
            if select.select([self.file], [], [], 0.1)[0]:
                self.seen += os.read(self.file, 65536).decode(errors="replace")
        return self.seen

    def end(self) -> None:
        """Ends the shell."""
        os.close(self.file)
        os.waitpid(self.child, 0)


def of_command(shell: str, script: str, name: str) -> str:
    """What a script has of a command."""
    begin = {"bash": rf"    '{name} .*\n", "fish": rf"complete .*_at {name}'.*\n",
             "zsh": rf"    1{name}\) (?:.* \\\n)+.* ;;\n"}
    return "".join(re.findall(f"^{begin[shell]}", script, re.M)).replace("=[", "[")  # as zsh has it for one value


class Scripts(WithinTest):
    def test_each_option_of_each_command_is_in_each(self) -> None:
        count = 0
        for shell in WAYS:
            script = self.told("completion", shell)
            for name in NAMED:
                text = of_command(shell, script, name)
                for option in (option for action in parser_of(name)._actions for option in action.option_strings):
                    in_fish = f" -l {option[2:]} " if option.startswith("--") else f" -s {option[1:]} "
                    wanted = {"bash": f"    '{name} {option}') ", "zsh": f"'*{option}[", "fish": in_fish}[shell]
                    self.assertIn(wanted, text, f"{shell}: {name}")
                    count += 1
        self.assertGreater(count, 500)

    def test_it_is_known_of_each_argument_whether_it_names_a_file(self) -> None:
        found = {called for name in NAMED for it in [*Command.of(name).options, *Command.of(name).arguments]
                 if it.most and not it.choices for called in it.called}
        self.assertEqual(found, FILES | ELSE)
        self.assertEqual(FILES & ELSE, set())

    def test_what_an_action_takes_is_what_argparse_lets_it_take(self) -> None:
        words = argparse.ArgumentParser()
        for more, most in (({}, 1), ({"nargs": "?"}, 1), ({"nargs": "*"}, OPEN), ({"nargs": "+"}, OPEN),
                           ({"nargs": 3}, 3), ({"action": "store_true"}, 0), ({"action": "append"}, 1)):
            self.assertEqual(Taken.of(words.add_argument(f"--{len(words._actions)}", **more)).most, most, more)

    def test_help_is_shown_as_ever_afterwards(self) -> None:
        self.told("completion", "bash")
        self.want_in(self.exited("completion", "csh").err, "usage: nrm-tools completion ")


class Asked(PlaceTest):
    def test_bash_offers_what_fits(self) -> None:
        script = self.file("script", self.told("completion", "bash"))
        ask = "compopt() { echo files; }\n"
        for words, word, _ in LINES:
            ask += (f"COMP_WORDS=(nrm-tools {shlex.join([*words, word])})\nCOMP_CWORD={len(words) + 1}\n"
                    '_nrm_tools\necho "${COMPREPLY[*]}."\n')
        done = self.finished("bash", "--noprofile", "--norc", "-c", f"source {script}\n{ask}")
        self.assertEqual((done.err, done.status), ("", 0))
        offered = done.out.replace("files\n.", "files.").split(".\n")[:-1]
        wanted = [it if isinstance(it, str) else " ".join(it) for *_, it in LINES]
        self.assertEqual([*zip(LINES, offered)], [*zip(LINES, wanted)])

    def at_terminal(self, shell: str) -> None:
        """Sees what a shell makes of what is typed, if it is here."""
        if not shutil.which(shell):
            raise unittest.SkipTest(f"there is no {shell} (Debian has {shell})")
        script = self.file("script", self.told("completion", shell))
        self.file("network.csv", "")
        (self.folder / "pictures").mkdir()
        begin, first = SHELLS[shell]
        terminal = Terminal(begin.split(), str(self.folder))
        self.addCleanup(terminal.end)
        self.want_in(terminal.type(f"{first}; source {script}; echo rea''dy\n", "ready"), "ready")
        for typed, wanted in TYPED.items():
            with self.subTest(typed):
                self.want_in(terminal.type(f"{typed}\t\n", f"<{wanted}"), f"<{wanted}")

    def test_bash_completes_at_a_terminal(self) -> None:
        self.at_terminal("bash")

    def test_zsh_completes_at_a_terminal(self) -> None:
        self.at_terminal("zsh")

    def test_fish_completes_at_a_terminal(self) -> None:
        self.at_terminal("fish")
