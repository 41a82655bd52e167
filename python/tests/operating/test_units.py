"""The unit files of examples/operating: what systemd says of them, and that they are as the servers need it."""
from __future__ import annotations

import re
import shlex
import shutil
from pathlib import Path

from harness import TOP, PlaceTest
from nrm.commands.web import words_of as words_of_web
from nrm.journal.stores import REPLACED
from nrm.server.relay import JOURNAL_FAULT

UNITS = {it: TOP / "examples" / "operating" / f"nrm-{it}.service" for it in ("serve", "web")}
INSTALLED = "/opt/nrm/nrm-tools"
MOST_EXPOSED = 15  # tenths, of 100
USAGE = 2  # the status after wrong words


def settings_of(path: Path) -> dict[str, list[str]]:
    """The settings of a unit, each with its values in their order."""
    found: dict[str, list[str]] = {}
    for name, value in re.findall(r"^(\w+)=(.*)$", path.read_text(), re.MULTILINE):
        found.setdefault(name, []).append(value)
    return found


class Units(PlaceTest):
    def analyse(self, *words: str) -> str:
        """What systemd-analyze says of both units, which must be good; their program stands in this checkout."""
        if not shutil.which("systemd-analyze"):
            self.skipTest("there is no systemd-analyze (Debian has systemd)")
        told = ""
        for unit in UNITS.values():
            path = self.file(unit.name, unit.read_text().replace(INSTALLED, str(TOP / "nrm-tools")))
            done = self.finished("systemd-analyze", *words, path)
            self.assertEqual(done.status, 0, f"{unit.name}: {done.err}{done.out[-2000:]}")
            told += done.out + done.err
        return told

    def test_systemd_takes_them(self) -> None:
        """With no word about a setting that it doesn't know, or a value that is none."""
        self.assertEqual(self.analyse("verify", "--man=no"), "")

    def test_they_may_do_little(self) -> None:
        told = self.analyse("security", "--offline=true", "--no-pager", f"--threshold={MOST_EXPOSED}")
        self.assertEqual(len(re.findall(r"Overall exposure level for nrm-\w+\.service: [01]\.\d OK", told)), 2, told)

    def test_they_are_as_the_servers_need_it(self) -> None:
        """They are told when clients may come and that the loop turns; a server ends its programs itself, has time for
        that, and begins anew after a fault of the disk."""
        for name, unit in UNITS.items():
            found = settings_of(unit)
            for setting, value in (("Type", "notify"), ("NotifyAccess", "main"), ("Restart", "on-failure"),
                                   ("NoNewPrivileges", "yes"), ("PrivateTmp", "yes"), ("ProtectSystem", "strict"),
                                   ("ProtectHome", "yes"), ("StateDirectory", "nrm")):
                self.assertEqual(found[setting], [value], f"{name} {setting}")
            self.assertGreaterEqual(int(found["WatchdogSec"][0]), 30, "a disk may be slow")
        serve = settings_of(UNITS["serve"])
        self.assertEqual((serve["KillMode"], serve["RuntimeDirectory"]), (["mixed"], ["nrm"]))
        self.assertEqual(serve["RestartPreventExitStatus"], [f"{USAGE} {REPLACED}"], f"and not {JOURNAL_FAULT}")
        self.assertEqual(settings_of(UNITS["web"])["RestartPreventExitStatus"], [f"{USAGE}"])
        self.assertGreaterEqual(int(serve["TimeoutStopSec"][0]), 60, "twice what --slow says")
        self.assertNotIn("RuntimeDirectory", settings_of(UNITS["web"]), "its end would take the socket away")

    def test_their_commands_are_ones(self) -> None:
        program, command, *words = shlex.split(settings_of(UNITS["web"])["ExecStart"][0])
        self.assertEqual((program, command, words.pop()), (INSTALLED, "web", "$NRM_WEB"))
        asked = words_of_web(words)[1]
        socket = asked.socket
        program, command, *words = shlex.split(settings_of(UNITS["serve"])["ExecStart"][0])
        self.assertEqual((program, command, words.pop()), (INSTALLED, "serve", "$NRM_SERVE"))
        self.assertEqual((words[0], words[words.index("--socket") + 1]), (asked.journal, socket))
        self.stopped("serve", "journal", *words[1:], "--program", "/none", "--socket", "s", says="there is no program /none")
