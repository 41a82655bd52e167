"""Those who stand in the way of others are cut off or wait alone, and each gets its own replies in order."""
from __future__ import annotations

import contextlib
import os
import signal
import socket
import threading
import time
from pathlib import Path

from harness import EXAMPLES, meanwhile, wait_for
from nrm.program import Program
from server.servers import answers, child_of
from server.serves import ONE, ServeTest, all_told, journal_of, rows_in, talk

CLOSES = """import os, sys, time
sys.stdin.readline()
os.write(1, b"ready 0\\n")
os.close(1)
time.sleep(1000)
"""


def sent_by_a_thread(connection: socket.socket, lines: bytes) -> threading.Thread:
    """Has lines sent, as far as the connection lasts, while others go on."""
    def send() -> None:
        with contextlib.suppress(OSError):
            connection.sendall(lines)

    return meanwhile(send)


class Lines(ServeTest):
    def test_who_never_reads_is_cut_off(self) -> None:
        """And the others notice nothing."""
        for at, options in enumerate([("--slow", "1"), ("--unsent", "65536", "--slow", "20")]):
            journal = self.journal(mode="davn", at=f"journal-{at}")
            with self.served(journal, *options) as serve, serve.connect() as deaf, serve.connect() as other:
                deaf.settimeout(0.2)
                with contextlib.suppress(OSError):
                    for _ in range(100_000):
                        deaf.sendall(b"leg HAM-FRA\nplan\nleg FRA-JFK\n" * 20)
                begun = time.monotonic()
                self.assertEqual(answers(other, b"book HJ-Q 1\n" * 300, 300)[0], b"ok 1\n", "another's reply")
                if time.monotonic() - begun > 5:
                    self.fail("the others to notice nothing")
                wait_for(lambda: "event=unread" in serve.told(), f"the end of it with {options}", 10)
                self.assertEqual(answers(other, b"cancel 1\n", 1), [b"cancelled 1 270\n"], "another's reply")

    def test_a_line_that_is_too_long_is_told(self) -> None:
        """One of 999 bytes is a line, one of 1,000 is too long, and so is one without an end."""
        with self.served(self.journal(file=ONE.encode())) as serve:
            lines = b"desk D1\nbook LOC 1\n" + b"x" * 999 + b"\nbook LOC 1\n"
            self.assertEqual(talk(serve, lines + b"x" * 1000 + b"\nbook LOC 1\n"),
                             b"at 1\nok 1\nbad\nok 2\nclosed long\n")
            with serve.connect() as endless:
                sent_by_a_thread(endless, b"x" * 1_000_000)
                self.assertEqual(all_told(endless), b"closed long\n", "a megabyte")
            self.assertEqual(talk(serve, b"desk D1\nbook LOC 1\n"), b"at 4\nok 3\n")

    def test_who_asks_for_long_work_waits_alone(self) -> None:
        """Of lines that take long the program takes one of a client at a time, so that another's come between them."""
        journal = self.journal(mode="bid")
        count = 400  # all of them are read at once
        with self.served(journal) as serve, serve.connect() as busy, serve.connect() as other:
            self.assertEqual(answers(other, b"desk D2\n", 1), [b"at 1\n"])
            busy.sendall(b"desk D1\n" + b"reoptimise 1\n" * count)
            answers(busy, b"", 2)
            self.assertEqual(answers(other, b"book HJ-Q 1\n", 1), [b"ok 1\n"], "another's reply")
            [(at,)] = rows_in(journal, "SELECT number FROM line WHERE desk = 'D2'")
            if at > count // 2:
                self.fail(f"the other's line soon after it came, and not after {at} of {count}")

    def test_who_asks_for_texts_waits_alone(self) -> None:
        """A text is long too: a flood of them leaves room for another's line."""
        count = 6_000  # half a second of work; more than half of them are read at a time
        with self.served(self.journal(mode="davn")) as serve, serve.connect() as busy, serve.connect() as other:
            self.assertEqual(answers(other, b"desk D2\n", 1), [b"at 1\n"])
            heard = Heard(busy, b"value ")
            busy.sendall(b"desk D1\n" + b"plan\n" * count)
            wait_for(lambda: heard.count, "the first text")
            self.assertEqual(answers(other, b"book HJ-Q 1\n", 1), [b"ok 1\n"], "another's reply")
            if heard.count > count // 2:
                self.fail(f"the other's reply after a few texts, and not after {heard.count}")
            wait_for(lambda: heard.count == count, "the other texts")

    def test_a_client_alone_gets_its_replies_in_order(self) -> None:
        """It sends far ahead, with texts among its lines: more than the program may have unused."""
        with self.served(self.journal(file=ONE.encode())) as serve, serve.connect() as client:
            numbers = range(1, 18_001)
            sent = sent_by_a_thread(client, b"desk D1\nbook LOC 7\n" + b"".join(
                b"ask P%d\n" % at if at % 70 else b"leg AB\n" for at in numbers))
            leg = b"leg AB seats 300 authorised 300 sold 7 left 293\non AB LOC 7\n"
            wanted = [b"ask P%d unknown\n" % at if at % 70 else leg for at in numbers]
            self.assertEqual(answers(client, b"", 2 + len(wanted)), [b"at 1\n", b"ok 1\n", *wanted], "the replies")
            sent.join()

    def test_who_has_said_all_is_answered(self) -> None:
        """The end of what a client says leaves its replies to come; half a line at the end is nothing."""
        stream, wanted = ((EXAMPLES / "hub" / it).read_bytes() for it in ("commands.txt", "replies.txt"))
        with self.served(self.journal()) as serve:
            told = talk(serve, stream + b"book HJ-Q 1")
            self.assertEqual(told.replace(b"\n\n", b"\n"), wanted, "the replies of the example")

    def test_lines_that_are_taken_are_answered_at_the_end(self) -> None:
        """Also those that the program hasn't used, since there are many. More than it may have aren't taken."""
        for at, sent in enumerate((signal.SIGTERM, signal.SIGINT, signal.SIGHUP)):
            journal, count = self.journal(file=ONE.encode(), at=f"journal-{at}"), 60_000
            with self.serve(journal, name=f"socket-{at}") as serve, serve.connect() as client:
                sent_by_a_thread(client, b"desk D1\n" + b"book LOC 1\n" * count)
                wait_for(lambda: len(rows_in(journal)) >= 100, "a hundred lines")
                serve.process.send_signal(sent)
                told = all_told(client).splitlines()
                serve.end(sent=None)
                self.assertEqual((told[0], told[-1]), (b"at 1", b"closed stopping"))
                self.assertEqual(told[1:-1], [it.encode() for (it,) in rows_in(journal, "SELECT reply FROM line")])
                self.assertEqual(100 <= len(told) - 2 < count, True, f"not all lines are taken: {len(told)}")
                self.assertFalse(serve.path.exists(), "nobody listens")

    def test_the_program_is_not_of_the_terminal(self) -> None:
        """So that Ctrl-C, which goes to every process of a terminal, comes to the server alone, which ends in order."""
        journal = self.journal(file=ONE.encode())
        with self.serve(journal) as serve, serve.connect() as client:
            self.assertEqual(answers(client, b"desk D1\nbook LOC 1\n", 2), [b"at 1\n", b"ok 1\n"])
            self.assertNotEqual(os.getpgid(serve.program()), os.getpgid(serve.process.pid))
            serve.end(sent=signal.SIGINT)
            self.assertEqual(all_told(client), b"closed stopping\n")
            self.assertEqual(serve.told().count("event="), serve.told().count("\n"), "no traceback")

    def test_a_program_that_falls_silent_is_ended(self) -> None:
        """While it serves, with what it has started; and one that has closed its output."""
        around = self.file("around", f"#!/bin/sh\n{' '.join(self.desks_program.words)} \"$@\"\ntrue\n")
        os.chmod(around, 0o755)
        programs = {"around": Program((around,)), "closes": Program((self.script("closes", CLOSES),))}
        journals = {name: journal_of(self.folder / f"journal-{name}", it, {"one": ("first", ONE.encode())})
                    for name, it in programs.items()}
        with self.served(journals["around"], "--answer", "2", "--slow", "1", program=programs["around"]) as serve, \
                serve.connect() as client:
            self.assertEqual(answers(client, b"desk D1\n", 1), [b"at 1\n"])
            below = child_of(serve.program())
            os.kill(below, signal.SIGSTOP)
            client.sendall(b"book LOC 1\n")
            self.assertEqual(all_told(client), b"closed program 137\n", "what a client is told")
            self.want_in(serve.told(), "level=error tool=nrm-tools-serve event=silent network=one seconds=2.0\n")
            wait_for(lambda: not Path(f"/proc/{below}").exists(), "the end of what it has started")
            self.assertEqual(talk(serve, b"desk D1 1\nbook LOC 1\n"), b"at 1\nok 1\n", "the next run's reply")
        with self.served(journals["closes"], "--slow", "1", program=programs["closes"]) as serve:
            self.assertEqual(talk(serve, b"desk D1\n"), b"closed program 137\n")
            self.want_in(serve.told(), "event=program-ended network=one status=137\n")


class Heard(threading.Thread):
    """Reads what comes, and counts the lines that begin in some way."""

    def __init__(self, connection: socket.socket, front: bytes) -> None:
        super().__init__(daemon=True)
        self.connection, self.front, self.count = connection, b"\n" + front, 0
        self.start()

    def run(self) -> None:
        left = b""
        with contextlib.suppress(OSError):
            while piece := self.connection.recv(65_536):
                self.count += (left + piece).count(self.front)
                left = (left + piece)[-len(self.front) + 1:]
