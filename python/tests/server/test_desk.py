"""A desk in Python at a server of a journal: its answers, and that none of its lines is left unknown."""
from __future__ import annotations

import contextlib
import os
import shutil
import signal
import socket
import subprocess
import threading
from fractions import Fraction
from pathlib import Path
from typing import Callable, Iterator
from unittest import mock

from harness import EXAMPLES, SECONDS, meanwhile, wait_for
from nrm import desk as of
from nrm.desk import Desk, Ended, Late, Sold, Strange
from nrm.replies import Nest
from server.old_sockets import OldSocket, OldTimeout
from server.servers import HUB
from server.serves import ONE, ServeTest, rows_in


def answering(path: Path, *replies: bytes) -> threading.Thread:
    """A server in the place of one, which gives each connection a next reply to each piece, and then ends it."""
    listener = socket.socket(socket.AF_UNIX)
    listener.bind(str(path))
    return answering_at(listener, *replies)


def answering_at(listener: socket.socket, *replies: bytes) -> threading.Thread:
    """The same with a socket that is bound."""
    listener.listen(8)

    def serve() -> None:
        with listener:
            for reply in replies:
                with listener.accept()[0] as made:
                    for part in reply.split(b"|"):
                        made.recv(1000)
                        made.sendall(part)

    return meanwhile(serve)


def has_ipv6() -> bool:
    """Whether this machine has the loopback address of IPv6."""
    with contextlib.suppress(OSError), socket.socket(socket.AF_INET6) as made:
        made.bind(("::1", 0))
        return True
    return False


class Desks(ServeTest):
    def test_answers_are_values(self) -> None:
        network = (EXAMPLES / "certificate" / "network.csv").read_bytes()
        with self.served(self.journal(mode="davn", file=network)) as serve, Desk(serve.path, "D1") as desk:
            self.assertEqual(desk.book("ABL", 4), of.NoLeg("AB"))
            found = desk.book("ABL", 3), desk.book("NONE", 1), desk.cancel(7)
            self.assertEqual(found, (Sold(1), of.Unknown(), of.Unknown()))
            self.assertEqual(desk.leg("AB"), of.Leg("AB", 10, 10, 3, 7, {"ABL": 3}))
            self.assertEqual((desk.leg("NONE"), desk.leg("BC")), (of.Unknown(), of.Leg("BC", 10, 10, 0, 10, {})))
            plan = desk.plan()
            self.assertEqual((plan.protections, plan.nests["BC", "ACL"], plan.prices["AB"]),
                             ({"AB": (7, 10), "BC": (4, 6)}, Nest(Fraction(79), 3), 150))
            self.assertEqual((desk.cancel(1), desk.reoptimise(1)),
                             (of.Cancelled(1, 450), of.Optimised(Fraction(4130))))
            self.assertEqual((desk.hindsight().revenue, desk.hindsight().withheld), (0, 0))
            self.assertEqual([desk.available(it) for it in ("ABL", "BCL", "ABH")], [3, 4, 10])
            self.assertEqual(desk.ask_for("ABL"), of.Available(3, of.NoLeg("AB")))
            self.expect(KeyError, lambda: desk.available("NONE"))
            for call, words in [(desk.book, ("ABL", 0)), (desk.book, ("a\nb", 1)), (desk.reply, ("a\nb",)),
                                (desk.cancel, (-1,)), (desk.again, ())]:
                self.expect(ValueError, lambda: call(*words))
            self.assertEqual(desk.sequence, 18)
        self.expect(ValueError, lambda: Desk(serve.path, "no name"))
        self.expect(ValueError, lambda: Desk(serve.path, "D1", sequence=0))

    def test_it_goes_on_while_servers_and_programs_are_killed(self) -> None:
        """Each line is carried out once, and its reply comes by itself."""
        journal = self.journal("one", "two", file=ONE.encode())
        serve = self.serve(journal)
        with Desk(serve.path, "D1", network="two", seconds=60) as desk:
            for number in range(1, 13):
                if number % 4 == 0:
                    serve.end(-signal.SIGKILL, signal.SIGKILL)
                    serve = self.serve(journal)
                elif number % 4 == 2:
                    os.kill(serve.program(), signal.SIGKILL)
                self.assertEqual((desk.book("LOC", 1), desk.sequence), (Sold(number), number + 1))
            self.assertEqual(desk.leg("AB").sold, 12)
        with Desk(serve.path, "D1", network="two") as desk, Desk(serve.path, "D1", network="two", sequence=12) as again:
            self.assertEqual(again.book("LOC", 1), Sold(12))
            self.assertEqual(desk.sequence, 13)
            self.expect(Ended, lambda: desk.book("LOC", 1))
        serve.end()
        self.assertEqual(len(rows_in(journal)), 12)

    def desks_of_others(self) -> Iterator[list[str]]:
        """The words of the desks in C and in JavaScript, as far as they can be run here."""
        if shutil.which("cc"):
            built = str(self.folder / "counter")
            source = EXAMPLES / "desk" / "counter.c"
            subprocess.run(["cc", "-Wall", "-Wextra", "-Werror", "-o", built, source], check=True)
            yield [built]
        if shutil.which("node"):
            yield ["node", str(EXAMPLES / "desk" / "counter.js")]
        for name, package in (("cc", "gcc"), ("node", "nodejs")):
            with self.subTest(name):
                if not shutil.which(name):
                    self.skipTest(f"there is no {name} (Debian has {package})")

    def test_desks_in_other_languages_go_on_too(self) -> None:
        """While the server and the program are killed; with texts of several lines among their replies."""
        lines = ["book HJ-Q 1", "leg HAM-FRA", "leg FRA-NRT", "plan", "cancel 1", "ask HJ-Q", "odd", "book HN-Y 2"] * 3
        for at, words in enumerate(self.desks_of_others()):
            journal = self.journal(mode="bid", at=f"journal-{at}")
            serve = self.serve(journal)
            with subprocess.Popen([*words, str(serve.path), "D1", "hub"], stdin=subprocess.PIPE, stdout=subprocess.PIPE,
                                  text=True) as desk:
                assert desk.stdin and desk.stdout
                for number, line in enumerate(lines):
                    if number % 8 == 4:
                        os.kill(serve.program(), signal.SIGKILL)
                    elif number % 8 == 7:
                        serve.end(-signal.SIGKILL, signal.SIGKILL)
                        serve = self.serve(journal)
                    desk.stdin.write(f"{line}\n")
                    desk.stdin.flush()
                    rows = sum(it[:4] in ("book", "canc") for it in lines[:number + 1])
                    wait_for(lambda: len(rows_in(journal)) == rows, "the row of a line")
                told = desk.communicate(timeout=SECONDS)[0]
                self.assertEqual(desk.returncode, 0, told)
            serve.end()
            stream = "".join(f"{it}\n" for it in lines if it[:3] not in ("ask", "odd")).encode()
            wanted = b"".join(self.program.replies("bid", HUB, stream)).decode()
            kept = [it for it in told.split("\n") if it and it != "bad" and not it.startswith("ask ")]
            self.same(kept, *wanted.split("\n")[:-1])
            with self.served(journal) as serve:
                done = self.finished(*words, serve.path, "D1", "none", input=b"plan\n")
                self.assertEqual((done.out, done.status), ("closed network\n", 1))

    def test_desks_in_other_languages_come_again_where_several_servers_are(self) -> None:
        """After `wait`, and after `moved` at the server that it names; one that ends sends them back to the first."""
        for at, words in enumerate(self.desks_of_others()):
            for host, shown in [("127.0.0.1", "127.0.0.1"), *([("::1", "[::1]")] if has_ipv6() else [])]:
                with socket.socket(socket.AF_INET6 if ":" in host else socket.AF_INET) as other:
                    other.bind((host, 0))
                    there = answering_at(other, b"at 4\n|ok 7\n")
                    moved = f"closed moved {shown}:{other.getsockname()[1]}\n".encode()
                    path = self.folder / f"socket-{at}-{len(host)}"
                    here = answering(path, b"closed wait\n", b"at 4\n|closed wait\n", b"at 4\n|" + moved,
                                     b"at 5\n|ok 8\n")
                    done = self.finished(*words, path, "D1", input=b"book LOC 1\nbook LOC 2\n")
                    self.assertEqual((done.out, done.status), ("ok 7\nok 8\n", 0), (words, host))
                    there.join()
                    here.join()

    def test_what_was_late_is_asked_again(self) -> None:
        journal = self.journal(file=ONE.encode())
        with self.serve(journal) as serve, Desk(serve.path, "D1", seconds=60) as desk:
            self.assertEqual(desk.book("LOC", 1), Sold(1))
            os.kill(serve.process.pid, signal.SIGSTOP)
            desk.seconds = 0.5
            self.want_in(str(self.expect(Late, lambda: desk.book("LOC", 2))), "no answer in 0.5 seconds")
            self.assertEqual(desk.pending, "book LOC 2")
            self.expect(ValueError, lambda: desk.book("LOC", 1))
            self.expect(Late, desk.again)
            os.kill(serve.process.pid, signal.SIGCONT)
            desk.seconds = 60
            self.assertEqual((desk.again(), desk.pending, desk.sequence), (Sold(2), None, 3))
            self.assertEqual(desk.book("LOC", 1), Sold(3))
            serve.end()
        self.assertEqual(len(rows_in(journal)), 3)

    def test_it_is_told_why_it_is_turned_away(self) -> None:
        with self.served(self.journal("one", "two", file=ONE.encode())) as serve:
            self.assertEqual(str(self.expect(Ended, lambda: Desk(serve.path, "D1", network="three"))), "network")
            self.assertEqual(str(self.expect(Ended, lambda: Desk(serve.path, "D1"))), "network")
            with Desk(serve.path, "D1", network="one") as desk:
                desk.book("LOC", 1)
            with Desk(serve.path, "D1", network="one", sequence=1) as desk:
                self.assertEqual(str(self.expect(Ended, lambda: desk.book("LOC", 2))), "sequence")
        for place in (self.folder / "none", ("a" * 300, 80), ("127.0.0.1", 99_999)):
            self.expect(Late, lambda: Desk(place, "D1", seconds=0.1))

    def test_what_is_no_answer_is_strange(self) -> None:
        odd: list[tuple[bytes, Callable[[Desk], object]]] = [
            (b"at 1\n|odd\n", Desk.plan), (b"at 1\n|ok " + b"9" * 4301 + b"\n", lambda it: it.cancel(1)),
            (b"at 1\n|value 1/" + b"9" * 4301 + b"\n\n", Desk.plan), (b"at 1\n|value 1/1\nproduct\n\n", Desk.plan),
            (b"at 1\n|denied\n", lambda it: it.ask("plan", of.Plan))]
        for at, (replies, call) in enumerate(odd):
            answering(self.folder / f"odd-{at}", replies)
            with Desk(self.folder / f"odd-{at}", "D1", seconds=5) as desk:
                self.expect(Strange, lambda: call(desk))
        answering(self.folder / "no", b"bad\n")
        self.expect(Strange, lambda: Desk(self.folder / "no", "D1"))

    def test_it_comes_again_where_that_may_help(self) -> None:
        answering(self.folder / "busy", b"closed clients\n", b"at 1\n|closed program 137\n", b"at 1\n|ok",
                  b"at 1\n|ok 7\n")
        with Desk(self.folder / "busy", "D1", seconds=5) as desk:
            self.assertEqual((desk.book("LOC", 1), desk.sequence), (Sold(7), 2))
        answering(self.folder / "halted", b"at 1\n|closed halted\n")
        with Desk(self.folder / "halted", "D1", seconds=5) as desk:
            self.assertEqual(str(self.expect(Ended, desk.plan)), "halted")

    def test_what_is_late_is_told_under_python_3_9_too(self) -> None:
        path = str(self.folder / "socket")
        with mock.patch.multiple(socket, timeout=OldTimeout, socket=OldSocket), socket.socket(socket.AF_UNIX) as deaf:
            deaf.bind(path)
            deaf.listen(1)
            self.expect(Late, lambda: Desk(path, "D1", seconds=0.2))
