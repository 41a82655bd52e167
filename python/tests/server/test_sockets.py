"""Where clients come: a socket that is one run's alone, who may come by TCP, and mistakes in the words."""
from __future__ import annotations

import contextlib
import os
import signal
import socket
import subprocess
import sys
import time
from collections import Counter
from pathlib import Path

from harness import SECONDS, SOURCES, wait_for
from nrm.desk import Desk, Late
from server.servers import answers
from server.serves import ONE, TOLD, Serve, ServeTest, talk

SLOW_UNLINK = """import os, time
unlink = os.unlink
def slow(path, **more):
    time.sleep(0.3)
    unlink(path, **more)
os.unlink = slow
"""
LOOK, REPLY = b"ask LOC\n", b"ask LOC 300 leg AB\n"


class Sockets(ServeTest):
    def one(self, at: str = "journal") -> Path:
        """A journal with a network of one leg."""
        return self.journal(file=ONE.encode(), at=at)

    def sockets(self) -> list[str]:
        """What is there of the socket."""
        return sorted(it.name for it in self.folder.glob("socket*") if it.suffix != ".told")

    def test_a_socket_is_for_its_owner_alone(self) -> None:
        """Whatever the umask; and it is gone at the end, with its lock."""
        with self.served(self.one(), variables=self.patched("import os\nos.umask(0)\n")) as serve:
            self.assertEqual(os.stat(serve.path).st_mode & 0o777, 0o600)
            self.assertEqual(self.sockets(), ["socket", "socket.lock"])
        self.assertEqual(self.sockets(), [], "what is left")

    def test_a_port_beyond_this_machine_must_be_allowed(self) -> None:
        """A loopback address may be written as one of IPv6, and a range of others too."""
        for host, is_beyond in [("0.0.0.0", True), ("[::ffff:10.1.2.3]", True), ("[::]", True),
                                ("[::ffff:127.0.0.1]", False), ("[::1]", False)]:
            with self.serve(self.one(f"journal-{host}"), "--listen", f"{host}:0", name=f"s-{host}",
                            status=2) as serve:
                wait_for(serve.told, "what it tells")
                self.assertEqual("is beyond this machine" in serve.told(), is_beyond, f"{host}: {serve.told()}")
                if is_beyond:
                    serve.end(2, sent=None)
        with self.served(self.one(), "--listen", "0.0.0.0:0", "--beyond-this-machine") as serve:
            self.want_in(serve.told(), "event=listening on=0.0.0.0:")

    def test_what_is_no_socket_is_left_alone(self) -> None:
        (self.folder / "socket").write_text("mine")
        with self.serve(self.one(), status=1) as serve:
            serve.end(1, sent=None)
            self.assertEqual(serve.told(), f"{TOLD}{serve.path} is there, and no socket\n")
        self.assertEqual((self.folder / "socket").read_text(), "mine", "the file")

    def test_a_socket_of_a_killed_run_is_taken_over(self) -> None:
        journal = self.one()
        with self.serve(journal) as killed:
            killed.end(-signal.SIGKILL, signal.SIGKILL)
        self.assertEqual(self.sockets(), ["socket", "socket.lock"], "what it left")
        with self.served(journal) as serve:
            self.assertEqual(talk(serve, LOOK), REPLY)
        self.assertEqual(self.sockets(), [], "what is left")

    def test_a_socket_whose_queue_is_full_is_told(self) -> None:
        """By the server that would have its path, and by a desk, once its time is over."""
        path = self.folder / "socket"
        with socket.socket(socket.AF_UNIX) as other, contextlib.ExitStack() as all_:
            other.bind(str(path))
            other.listen(0)
            with contextlib.suppress(BlockingIOError):
                for _ in range(10):
                    asker = all_.enter_context(socket.socket(socket.AF_UNIX))
                    asker.setblocking(False)
                    asker.connect(str(path))
            with self.serve(self.one(), status=1) as serve:
                serve.end(1, sent=None)
                self.assertEqual(serve.told(), f"{TOLD}another process listens on {path}\n")
            begun = time.monotonic()
            self.want_in(str(self.expect(Late, lambda: Desk(path, "D1", seconds=1))), "no answer in 1 seconds")
            self.assertEqual(0.8 < time.monotonic() - begun < 10, True, "when")
            self.assertEqual(self.sockets(), ["socket"])

    def test_a_server_that_ends_leaves_the_next_its_socket(self) -> None:
        """The first is told to end, and waits for a client that doesn't take its replies. Meanwhile another is started
        on the same journal, again and again until it listens, as a supervisor does."""
        journal = self.journal(mode="bid")
        with self.serve(journal, "--slow", "3") as first, first.connect() as deaf:
            deaf.setblocking(False)
            deadline = time.monotonic() + 2
            while time.monotonic() < deadline:
                with contextlib.suppress(BlockingIOError):
                    deaf.send(b"plan\n" * 100)
                time.sleep(0.01)
            first.process.terminate()
            with self.next_server(journal) as following:
                self.assertEqual(first.process.wait(SECONDS), 0, "the first's status")
                self.assertEqual(talk(following, b"desk D1\nbook HJ-Q 1\n"), b"at 1\nok 1\n", "the next one's reply")
                self.assertEqual(self.sockets(), ["socket", "socket.lock"])
                following.end()
        self.assertEqual(self.sockets(), [], "what is left")

    def next_server(self, journal: Path) -> Serve:
        """A server of a journal, once it listens."""
        deadline = time.monotonic() + SECONDS
        while time.monotonic() < deadline:
            with contextlib.suppress(AssertionError):
                return self.serve(journal)
        self.fail("the next server doesn't listen")

    def test_a_socket_is_had_by_one_of_many(self) -> None:
        """Of servers of several journals that are started at once on a socket that a killed one left, one has it,
        though each is slow."""
        with self.serve(self.one()) as killed:
            killed.process.kill()
            killed.process.wait()
        journals = [self.one(f"journal-{at}") for at in range(8)]
        variables = {**os.environ, **self.patched(SLOW_UNLINK)}
        many = [subprocess.Popen([sys.executable, str(SOURCES), "serve", str(journal), "--socket", str(killed.path),
                                  "--program", *self.desks_program.words], stderr=subprocess.PIPE, text=True,
                                 env=variables) for journal in journals]
        try:
            told = [it.stderr.readline() for it in many]
            begun = Counter("event=started" in it for it in told)
            self.assertEqual(begun, {True: 1, False: 7}, told)
            [server] = [it for it, line in zip(many, told) if "event=started" in line]
            self.assertIn(f"event=listening on={killed.path}", server.stderr.readline())
            with killed.connect() as connection:
                self.assertEqual(answers(connection, LOOK, 1), [REPLY], "its reply")
        finally:
            for it in many:
                it.terminate()
                it.communicate(timeout=SECONDS)

    def test_a_mistake_is_told_in_a_line(self) -> None:
        folder, journal = self.folder / "place", self.one()
        folder.mkdir()
        os.mkfifo(self.folder / "fifo")
        run, place = ["--program", *self.desks_program.words], ["--socket", str(folder / "socket")]
        for words, status, told in [
                (["--help"], 0, ""), ([], 2, "usage: nrm-tools serve"), (place, 2, "usage: nrm-tools serve"),
                ([journal, *run], 2, "--socket or --listen must be given"),
                ([journal, *place, "--listen", "", *run], 2, "can't be empty"), (["", *place, *run], 2, "can't be empty"),
                ([self.folder / "none", *place, *run], 1, f"{self.folder}/none: "),
                ([folder, *place, *run], 1, f"{folder} isn't a plain file"),
                (["/dev/null", *place, *run], 1, "/dev/null isn't a plain file"),
                ([self.folder / "fifo", *place, *run], 1, "fifo isn't a plain file"),
                ([journal, *place, "--clients", "0", *run], 2, "--clients"),
                ([journal, *place, "--clients", "99999999", *run], 1, "ulimit"),
                ([journal, *place, "--clients", "9" * 4301, *run], 2, "--clients"),
                ([journal, *place, "--idle", "-1", *run], 2, "--idle"),
                ([journal, *place, "--answer", "0", *run], 2, "--answer"),
                ([journal, *place, "--linger", "no", *run], 2, "--linger"),
                ([journal, *place, "--slow", "1e" + "9" * 4301, *run], 2, "--slow"),
                ([journal, *place, "--mode", "9", *run], 2, "--mode: '9' isn't a file mode"),
                ([journal, *place, "--unsent", "65535", *run], 2, "--unsent must be at least 65536"),
                ([journal, "--socket", folder / "none" / "socket", *run], 1, "No such file"),
                ([journal, "--socket", "x" * 200, *run], 1, "too long"),
                ([journal, "--listen", "nowhere", *run], 2, "HOST:PORT is wanted"),
                ([journal, "--listen", "127.0.0.1:99999", *run], 2, "HOST:PORT is wanted"),
                ([journal, "--listen", "127.0.0.1:" + "9" * 4301, *run], 2, "HOST:PORT is wanted"),
                ([journal, "--listen", "none.invalid:80", *run], 1, "--listen none.invalid:80: "),
                ([journal, "--listen", "a" * 300 + ":80", *run], 1, "too long")]:
            done = self.ran("serve", *words)
            found = done.status, told in done.err, "Traceback" in done.err
            self.assertEqual(found, (status, True, False), f"{words} {done.err}")
        self.assertEqual(list(folder.iterdir()), [], "what is left")
