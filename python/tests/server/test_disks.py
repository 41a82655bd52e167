"""What a full disk, a fault of the disk or a kill in the middle of a commit leaves: what was answered is there."""
from __future__ import annotations

import contextlib
import os
import shutil
import signal
import sqlite3
import subprocess
from contextlib import closing
from pathlib import Path

from harness import wait_for
from server.servers import answers
from server.serves import ONE, Serve, ServeTest, all_told, rows_in, talk

SMALL_FILES = """import resource
resource.setrlimit(resource.RLIMIT_FSIZE, (300_000, 300_000))
"""
ON_A_SMALL_DISK = """disk=$1; shift
mount -t tmpfs -o size=400k none "$disk" && cp "$disk.begun" "$disk/journal" && "$@"
status=$?; for log in '' -wal; do cp "$disk/journal$log" "$disk.kept$log"; done; exit $status"""
REPLIES = "SELECT reply FROM line ORDER BY number"


class Disks(ServeTest):
    def full_disk(self, serve: Serve) -> list[str]:
        """Books and cancels until the journal is full, and gives what was answered."""
        told = b""
        with serve.connect() as client:
            with contextlib.suppress(OSError):
                for number in range(1, 50_000, 50):
                    client.sendall(b"".join(b"book LOC 1\ncancel %d\n" % it for it in range(number, number + 50)))
                    told += client.recv(65_536)
            told += all_told(client)
        serve.end(74, sent=None)
        lines = told.decode().splitlines()
        self.assertEqual(lines.pop(), "closed journal", "the last line")
        self.assertGreater(len(lines), 100)
        return lines

    def see_that_it_goes_on(self, journal: Path, told: list[str]) -> None:
        """All that was answered is there, and a next server goes on behind it."""
        kept = [reply for (reply,) in rows_in(journal, REPLIES)]
        self.assertEqual(kept[:len(told)], told, "what was answered")
        with self.served(journal, name="next") as serve:
            self.assertEqual(talk(serve, b"desk D1\nleg AB\n")[:5], b"at 1\n")
            self.assertEqual([reply for (reply,) in rows_in(journal, REPLIES)], kept)

    def test_a_full_disk_under_the_journal_is_told(self) -> None:
        journal = self.journal(file=ONE.encode())
        with self.serve(journal, variables=self.patched(SMALL_FILES)) as serve:
            told = self.full_disk(serve)
            self.want_in(serve.told(), f"{journal}: ")
            self.assertEqual("Traceback" in serve.told(), False, serve.told())
        self.see_that_it_goes_on(journal, told)

    def test_a_full_small_disk_is_told(self) -> None:
        begun, disk = self.journal(file=ONE.encode(), at="disk.begun"), self.folder / "disk"
        disk.mkdir()
        enter = ["unshare", "--mount", *([] if os.geteuid() == 0 else ["--map-root-user"])]
        enter += ["sh", "-c", ON_A_SMALL_DISK, "sh", str(disk)]
        if not shutil.which("unshare") or subprocess.run([*enter, "true"], capture_output=True).returncode:
            self.skipTest("a full small disk wasn't tried: it can't be mounted here")
        for log in ("", "-wal"):
            with contextlib.suppress(FileNotFoundError):
                os.unlink(self.folder / f"disk.kept{log}")
        with self.serve(disk / "journal", before=enter) as serve:
            told = self.full_disk(serve)
            self.want_in(serve.told(), "full")
        self.assertEqual(rows_in(begun), [])
        self.see_that_it_goes_on(self.folder / "disk.kept", told)

    def test_a_program_may_die_while_its_rows_are_written(self) -> None:
        """They are written all the same, and a line that comes again gets its reply; those of another desk, which
        waited behind them, were never carried out."""
        journal = self.journal(file=ONE.encode())
        with self.served(journal) as serve, serve.connect() as one, serve.connect() as other:
            self.assertEqual(answers(one, b"desk D1 1\n", 1), [b"at 1\n"])
            self.assertEqual(answers(other, b"desk D2 1\n", 1), [b"at 1\n"])
            with closing(sqlite3.connect(journal, isolation_level=None)) as connection:
                connection.execute("BEGIN IMMEDIATE")
                one.sendall(b"book LOC 1\n")
                wait_for(lambda: not self.is_answered(serve), "the row's way to the journal")
                other.sendall(b"book LOC 2\n")
                os.kill(serve.program(), signal.SIGKILL)
                self.assertEqual([all_told(it) for it in (one, other)], [b"closed program 137\n"] * 2)
                self.assertEqual(rows_in(journal), [])
                connection.execute("ROLLBACK")
            self.assertEqual(talk(serve, b"desk D2 1\nbook LOC 2\n"), b"at 1\nok 2\n")
            self.assertEqual(talk(serve, b"desk D1 1\nbook LOC 1\n"), b"at 1\nok 1\n")
            self.assertEqual("Traceback" in serve.told(), False, serve.told())
        self.same(rows_in(journal, "SELECT desk, line, reply FROM line"), ("D1", "book LOC 1", "ok 1"),
                  ("D2", "book LOC 2", "ok 2"))

    def is_answered(self, serve: Serve) -> bool:
        """Whether a look is answered within half a second: none is while the program waits for its row."""
        with serve.connect() as client:
            client.settimeout(0.5)
            with contextlib.suppress(OSError):
                client.sendall(b"ask LOC\n")
                return bool(client.recv(100))
            return False
