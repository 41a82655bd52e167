"""What happens when the disk of a database server is full."""
from __future__ import annotations

import contextlib
import os
import subprocess
from pathlib import Path

from databases import Fault  # of the folder tests at the top
from fleet.patroni_lines import PatroniTest
from fleet.patroni_nodes import SUPERUSER, WAITED_FOR, Nodes
from fleet.standing import free_ports

SIZE = "240M"  # of the disk of a node
PIECE = bytes(1 << 20)
NEXT_SEGMENT = "SELECT pg_switch_wal() FROM pg_logical_emit_message(false, 'next', 'segment')"
SEGMENTS = 20  # more than are there ahead
FULL = "No space left on device"


class Disks(PatroniTest):
    """The data of each node is on a small disk of its own, in memory."""

    @classmethod
    def why_not(cls) -> str:
        return super().why_not() or ("full disks need the rights of root" if os.geteuid() else cls.why_not_mounted())

    @classmethod
    def why_not_mounted(cls) -> str:
        """Why nothing can be mounted here."""
        done = subprocess.run(["unshare", "--mount", "mount", "-t", "tmpfs", "tmpfs", "/mnt"], capture_output=True,
                              text=True)
        return f"disks can't be mounted here: {done.stderr.strip()}" if done.returncode else ""

    @classmethod
    def make(cls, nodes: Nodes) -> None:
        for it in "abc":
            folder = nodes.folder / it
            folder.mkdir(parents=True)
            subprocess.run(["mount", "-t", "tmpfs", "-o", f"size={SIZE},mode=700", "tmpfs", str(folder)], check=True)
            cls.addClassCleanup(taken_away, folder)
        nodes.make_nodes(free_ports(8))

    def fill(self, server: str) -> Path:
        """Leaves no space on the disk of a node."""
        path = self.databases.folder / server / "ballast"
        with contextlib.suppress(OSError), open(path, "wb", 0) as file:
            while file.write(PIECE) == len(PIECE):
                pass
        return path

    def write_until(self, primary: str, stopped: str) -> None:
        """Has a primary write its log until a node has told of a full disk."""
        for _ in range(SEGMENTS):
            with contextlib.suppress(Fault):
                self.databases.asked(primary, NEXT_SEGMENT, user=SUPERUSER)
            if FULL in self.log_of(stopped):
                return
        self.fail(f"the log of {stopped} goes on")

    def test_of_a_standby(self) -> None:
        """It can't write the log, the other is waited for, and desks are answered. With space it goes on by itself."""
        fleet, nodes = self.served(), self.databases
        primary, full = nodes.primary_by_patroni(), nodes.waited_for()
        [other] = {*nodes.ports} - {primary, full}
        with self.buying(fleet) as desk:
            ballast = self.fill(full)
            self.write_until(primary, full)
            nodes.wait(lambda: nodes.roles().get(other) == WAITED_FOR, f"that {other} is waited for")
            desk.go_on()
            self.assertEqual(nodes.primary_by_patroni(), primary)
            ballast.unlink()
            nodes.wait_until_whole()

    def test_of_the_primary(self) -> None:
        """It stops, Patroni doesn't begin it again, and the standby that was waited for is promoted."""
        fleet, nodes = self.served(), self.databases
        full, heir = nodes.primary_by_patroni(), nodes.waited_for()
        with self.buying(fleet) as desk:
            ballast = self.fill(full)
            self.write_until(full, full)
            self.wait_for_primary(heir)
            desk.go_on()
            ballast.unlink()
            nodes.wait_until_whole()
        self.wait_for_standby(full)


def taken_away(folder: Path) -> None:
    """Takes a disk away, though something may still be at work on it."""
    subprocess.run(["umount", "--lazy", str(folder)], check=True)
