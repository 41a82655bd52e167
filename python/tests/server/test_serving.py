"""A server of a journal: what clients are told, who is cut off, what halts a network, and how it begins and ends."""
from __future__ import annotations

import os
import shutil
import signal
import socket
import sqlite3
import time
from contextlib import closing
from pathlib import Path

from harness import SECONDS, SOURCES, wait_for
from nrm.desk import Desk, Sold
from nrm.journal.networks import open_network
from nrm.journal.sqlite_tables import using
from nrm.program import Program
from nrm.server.status_text import ask_status
from server.servers import answers, child_of
from server.serves import ONE, ServeTest, all_told, journal_of, rows_in, talk
from server.troubles import OTHER

HUB_LEG = b"leg FRA-NRT seats 80 authorised 80 sold 1 left 79\non FRA-NRT HN-Y 1\n\n"


class Serving(ServeTest):
    def test_lines_are_answered_and_kept(self) -> None:
        journal = self.journal()
        with self.served(journal) as serve:
            told = talk(serve, b"desk C-7 1\nbook HJ-Q 2\nbook HN-Y 1\ncancel 1\nleg FRA-NRT\nask HJ-Q\nnonsense\n")
            self.assertEqual(told, b"at 1\nok 1\nok 2\ncancelled 1 540\n" + HUB_LEG + b"ask HJ-Q 59 leg HAM-FRA\nbad\n")
            rows = [(1, "C-7", 1, "book HJ-Q 2", "ok 1"), (2, "C-7", 2, "book HN-Y 1", "ok 2"),
                    (3, "C-7", 3, "cancel 1", "cancelled 1 540")]
            self.same(rows_in(journal), *rows)
            self.assertEqual(talk(serve, b"book HN-Y 1\n"), b"ok 3\n")
        self.same(rows_in(journal), *rows, (4, "AT-0", 1, "book HN-Y 1", "ok 3"))
        self.assertEqual(serve.path.exists(), False)

    def test_it_goes_on_where_it_was(self) -> None:
        """After kill -9 too; a line that comes again gets the reply that it had."""
        journal = self.journal()
        with self.serve(journal) as serve:
            self.assertEqual(talk(serve, b"desk C-7 1\nbook HJ-Q 2\n"), b"at 1\nok 1\n")
            program = serve.program()
            serve.end(-signal.SIGKILL, signal.SIGKILL)
        wait_for(lambda: not Path(f"/proc/{program}").exists(), "the program's end with the server")
        with self.served(journal) as serve:
            self.assertEqual(talk(serve, b"desk C-7 1\nbook HJ-Q 2\nbook HJ-Q 1\n"), b"at 1\nok 1\nok 2\n")
            self.assertEqual(talk(serve, b"desk C-7\n"), b"at 3\n")
            self.assertEqual(talk(serve, b"desk C-7 1\nbook HJ-Q 3\n"), b"at 1\nclosed sequence\n")
        self.same(rows_in(journal, "SELECT epoch, desk, sequence FROM line"), (1, "C-7", 1), (2, "C-7", 2))

    def test_a_program_that_is_killed_begins_anew(self) -> None:
        journal = self.journal()
        with self.served(journal) as serve, serve.connect() as client:
            self.assertEqual(answers(client, b"desk C-7\nbook HJ-Q 2\n", 2), [b"at 1\n", b"ok 1\n"])
            os.kill(serve.program(), signal.SIGKILL)
            self.assertEqual(all_told(client), b"closed program 137\n")
            self.want_in(serve.told(), "level=warning tool=nrm-tools-serve event=program-ended network=hub status=137")
            self.assertEqual(talk(serve, b"desk C-7 2\nbook HJ-Q 1\n"), b"at 2\nok 2\n")

    def test_a_port_is_as_good_as_a_path(self) -> None:
        with self.served(self.journal(), "--listen", "127.0.0.1:0") as serve:
            port = int(serve.told().split("event=listening on=127.0.0.1:")[1].split("\n")[0])
            with socket.create_connection(("127.0.0.1", port), SECONDS) as client:
                self.assertEqual(answers(client, b"desk D1\nbook HJ-Q 2\n", 2), [b"at 1\n", b"ok 1\n"])
            with Desk(("127.0.0.1", port), "D1") as desk:
                self.assertEqual((desk.sequence, desk.book("HJ-Q", 1)), (2, Sold(2)))

    def test_a_first_line_chooses_the_network(self) -> None:
        journal = self.journal("one", "two", file=ONE.encode())
        with self.served(journal) as serve:
            self.assertEqual(talk(serve, b"desk one D1\nbook LOC 1\n"), b"at 1\nok 1\n")
            self.assertEqual(talk(serve, b"desk two D1 5\r\nbook LOC 2\n"), b"at 5\nok 1\n")
            for line in (b"desk D1 1\n", b"desk three D1\n", b"book LOC 1\n", b"desk One D1\n"):
                self.assertEqual(talk(serve, line), b"closed network\n", line)
            self.assertEqual(talk(serve, b"desk one " + b"x" * 2000), b"closed long\n")
            self.assertEqual((talk(serve, b""), talk(serve, b"desk o")), (b"", b""))
            with serve.connect() as client:
                for piece in (b"de", b"sk tw", b"o D", b"2\nbook", b" LOC 2\nleg AB\n"):
                    client.sendall(piece)
                    time.sleep(0.02)
                self.same(answers(client, b"\n", 4)[:2], b"at 1\n", b"ok 2\n")
        self.same(rows_in(journal, "SELECT network, line, reply FROM line ORDER BY network, number"),
                  (1, "book LOC 1", "ok 1"), (2, "book LOC 2", "ok 1"), (2, "book LOC 2", "ok 2"))

    def test_a_network_is_opened_and_ended_while_it_serves(self) -> None:
        journal = self.journal("one", file=ONE.encode())
        with self.served(journal) as serve:
            self.assertEqual(talk(serve, b"desk one D1\nbook LOC 1\n"), b"at 1\nok 1\n")
            with using(str(journal), is_to_write=True) as connection:
                open_network(connection, "two", "first", ONE.encode(), self.desks_program.checksum())
            self.assertEqual(talk(serve, b"desk two D1\nbook LOC 1\n"), b"at 1\nok 1\n")
            self.told("journal", "end", "journal", "two")
            wait_for(lambda: "event=ended network=two" in serve.told(), "the end of its program")
            self.assertEqual(talk(serve, b"desk two D1\nbook LOC 1\nask LOC\n"), b"at 2\ndenied\nask LOC 299 leg AB\n")

    def test_half_a_line_is_never_given(self) -> None:
        journal = self.journal()
        with self.served(journal) as serve:
            self.assertEqual(talk(serve, b"desk D1\nbook HJ-Q 1\nbook HJ-Q 2"), b"at 1\nok 1\n")
            with serve.connect() as client:
                client.sendall(b"desk D1\nbook HJ-Q 4")
            self.assertEqual(talk(serve, b"desk D2\nleg HAM-FRA\n").count(b"sold 1 "), 1)
        self.assertEqual(len(rows_in(journal)), 1)

    def test_a_client_that_sends_far_ahead_gets_all_replies(self) -> None:
        """More than the program may have unused, and with looks among them."""
        journal = self.journal(file=ONE.encode())
        count = 3000
        with self.served(journal) as serve, serve.connect() as client:
            client.settimeout(SECONDS)
            lines = b"desk D1\n" + b"nonsense that is long, so that many bytes wait for the program to use\n" * count
            done: list[bytes] = []
            pid = os.fork()
            if not pid:
                client.sendall(lines)
                os._exit(0)
            while sum(map(len, done)) < 5 + 4 * count:
                done.append(client.recv(65_536))
            os.waitpid(pid, 0)
            self.assertEqual(b"".join(done), b"at 1\n" + b"bad\n" * count)

    def test_who_is_cut_off(self) -> None:
        journal = self.journal()
        with self.served(journal, "--clients", "2", "--slow", "1", "--idle", "3", "--unsent", "65536") as serve:
            with serve.connect() as half, serve.connect() as idle:
                half.sendall(b"desk D1\nbook HJ")
                self.assertEqual(answers(idle, b"desk D2\n", 1), [b"at 1\n"])
                with serve.connect() as third:
                    self.assertEqual(all_told(third), b"closed clients\n")
                self.assertEqual(all_told(half), b"at 1\nclosed half\n")
                self.assertEqual(all_told(idle), b"closed idle\n")
            with serve.connect() as deaf:
                deaf.setsockopt(socket.SOL_SOCKET, socket.SO_RCVBUF, 4096)
                deaf.setblocking(False)
                deadline = time.monotonic() + SECONDS
                while "event=unread" not in serve.told():
                    self.assertLess(time.monotonic(), deadline)
                    try:
                        deaf.send(b"plan\n" * 50)
                    except BlockingIOError:
                        time.sleep(0.05)
                    except OSError:
                        break
            wait_for(lambda: "level=warning tool=nrm-tools-serve event=unread\n" in serve.told(), "what is told")
        for told in ("turned-away most=2", "closed reason=half network=hub", "closed reason=idle network=hub"):
            self.want_in(serve.told(), f"level=warning tool=nrm-tools-serve event={told}\n")

    def test_a_desk_is_one_connection(self) -> None:
        with self.served(self.journal()) as serve, serve.connect() as first, serve.connect() as second:
            self.assertEqual(answers(first, b"desk D1\n", 1), [b"at 1\n"])
            self.assertEqual(answers(second, b"desk D1\n", 1), [b"at 1\n"])
            self.assertEqual(all_told(first), b"closed elsewhere\n")

    def test_a_changed_journal_halts_its_network_and_no_other(self) -> None:
        journal = self.journal("one", "two", file=ONE.encode())
        with self.served(journal) as serve:
            for name in (b"one", b"two"):
                self.assertEqual(talk(serve, b"desk %s D1\nbook LOC 1\nbook LOC 2\n" % name), b"at 1\nok 1\nok 2\n")
        with closing(sqlite3.connect(journal, isolation_level=None)) as connection:
            connection.execute("DROP TRIGGER line_stays")
            connection.execute("UPDATE line SET reply = 'ok 9' WHERE network = 1 AND number = 2")
        with self.served(journal) as serve:
            self.assertEqual(talk(serve, b"desk one D1\n"), b"closed halted\n")
            self.assertEqual(talk(serve, b"desk two D1\n"), b"at 3\n")
            self.assertEqual(talk(serve, b"desk one D1\n"), b"closed halted\n")
            why = "row 2, `book LOC 2` of D1 2 with the reply `ok 9`, isn't what the program answers"
            self.want_in(serve.told(), f'level=error tool=nrm-tools-serve event=halted network=one row=2 why="{why}"\n')
        self.same(rows_in(journal, "SELECT name, halted FROM network"), ("one", why), ("two", None))
        self.want_in(self.told("journal", "look", "journal"), f", halted: {why}, program ")
        with self.served(journal) as serve:
            self.want_in(serve.told(), 'event=halted network=one why="row 2, ')
            self.assertEqual(talk(serve, b"desk one D1\n"), b"closed halted\n")

    def test_lines_that_are_gone_halt_a_network(self) -> None:
        journal = self.journal(file=ONE.encode())
        with self.served(journal) as serve:
            talk(serve, b"desk D1\nbook LOC 1\nbook LOC 2\n")
        with closing(sqlite3.connect(journal, isolation_level=None)) as connection:
            connection.execute("DROP TRIGGER line_is_kept")
            connection.execute("DELETE FROM line WHERE number = 2")
        with self.served(journal) as serve:
            self.assertEqual(talk(serve, b"desk D1\n"), b"closed halted\n")
        self.same(rows_in(journal, "SELECT halted FROM network"), ("row 2 is missing: the journal counts 2 lines",))

    def other(self) -> Program:
        """Another program, whose fares have a figure more."""
        path = self.file("other", OTHER.format(words=" ".join(self.desks_program.words)))
        os.chmod(path, 0o755)
        return Program((path,))

    def test_another_program_is_refused(self) -> None:
        """It answers for a network without lines, and lets one that has ended be looked at, if its answers are the
        same."""
        journal, other = self.journal("one", "two", file=ONE.encode()), self.other()
        with self.served(journal) as serve:
            self.assertEqual(talk(serve, b"desk one D1\nbook LOC 1\n"), b"at 1\nok 1\n")
        with self.served(journal, program=other) as serve:
            self.want_in(serve.told(), f"event=version network=one began={self.desks_program.checksum()} "
                                       f"answers={other.checksum()}\n")
            self.assertEqual(talk(serve, b"desk one D1\nbook LOC 1\n"), b"closed version\n")
            self.assertEqual(talk(serve, b"desk two D1\nbook LOC 1\n"), b"at 1\nok 1\n")
            self.assertEqual(ask_status(serve.path, SECONDS).unfit(), ["one"])
        self.same(rows_in(journal, "SELECT name, program FROM network"), ("one", self.desks_program.checksum()),
                  ("two", other.checksum()))
        self.told("journal", "end", "journal", "one")
        with self.served(journal, program=other) as serve:
            self.assertEqual(talk(serve, b"desk one D1\nbook LOC 1\nask LOC\n"),
                             b"at 2\ndenied\nask LOC 299 leg AB\n")
            self.assertEqual(ask_status(serve.path, SECONDS).unfit(), [])

    def test_a_program_that_isnt_named_is_the_one_on_the_path(self) -> None:
        """Where nothing is built: another than a network began with doesn't answer for it, with lines or without."""
        source, folder = self.folder / "top" / "src", self.folder / "path"
        shutil.copytree(SOURCES, source)
        folder.mkdir()
        path = self.file("path/nrm_desks", f'#!/bin/sh\nexec {" ".join(self.desks_program.words)} "$@"\n')
        os.chmod(path, 0o755)
        more = {"source": source, "is_named": False,
                "variables": {"PATH": f"{folder}:{os.environ['PATH']}"}}
        journal = journal_of(self.folder / "journal", Program((path,)), {"one": ("first", ONE.encode())})
        with self.served(journal, **more) as serve:
            self.assertEqual(talk(serve, b"desk D1\n"), b"at 1\n")
        with open(path, "a") as script:
            script.write("# another\n")
        with self.served(journal, **more) as serve:
            self.assertEqual(talk(serve, b"desk D1\n"), b"closed version\n")

    def test_a_second_server_is_refused(self) -> None:
        journal = self.journal()
        with self.served(journal) as serve:
            for name in ("other", "socket"):
                self.stopped("serve", journal, "--socket", name, "--program", *self.desks_program.words,
                             says="another server has the journal")
            self.assertEqual(talk(serve, b"desk D1\n"), b"at 1\n")
        self.same(rows_in(journal, "SELECT count(*) FROM tenure"), (1,))
        with self.served(journal) as serve:
            other = self.journal(at="other")
            self.stopped("serve", other, "--socket", serve.path, "--program", *self.desks_program.words,
                         says="another run has the socket")

    def test_words_that_mean_nothing(self) -> None:
        words = ("--program", *self.desks_program.words)
        journal = self.journal()
        for more in ((), ("--socket", ""), ("--socket", "s", "--slow", "0"), ("--socket", "s", "--unsent", "9"),
                     ("--socket", "s", "--clients", "none"), ("--listen", "127.0.0.1"), ("--listen", "0.0.0.0:7800")):
            self.stopped("serve", journal, *more, *words, status=2)
        self.stopped("serve", self.folder / "none", "--socket", "s", *words, says="unable to open")
        self.stopped("serve", journal, "--socket", "s", "--program", "/none", says="there is no program /none")

    def test_it_is_told_to_end(self) -> None:
        journal = self.journal()
        with self.serve(journal) as serve, serve.connect() as client:
            self.assertEqual(answers(client, b"desk D1\nbook HJ-Q 1\n", 2), [b"at 1\n", b"ok 1\n"])
            program = serve.program()
            serve.process.terminate()
            self.assertEqual(all_told(client), b"closed stopping\n")
            serve.end(sent=None)
            self.assertEqual(Path(f"/proc/{program}").exists(), False)

    def test_a_program_without_clients_ends(self) -> None:
        with self.served(self.journal(), "--linger", "1") as serve:
            self.assertEqual(talk(serve, b"desk D1\nbook HJ-Q 1\n"), b"at 1\nok 1\n")
            below = Path(f"/proc/{serve.process.pid}/task/{serve.process.pid}/children")
            wait_for(lambda: not below.read_text(), "the end of the program")
            self.assertEqual(talk(serve, b"desk D1\nbook HJ-Q 1\n"), b"at 2\nok 2\n")
            events = [it.split("event=")[1].split()[0] for it in serve.told().splitlines()]
            self.same(events, "started", "listening", "begun", "ended", "begun")

    def test_a_program_that_fails_is_told(self) -> None:
        for name, text, told in (("ends", "#!/bin/sh\nexit 6\n", b"closed program 6\n"),
                                 ("silent", "#!/bin/sh\nexec sleep 60\n", b"closed program 137\n")):
            path = self.file(name, text)
            os.chmod(path, 0o755)
            journal = self.journal(at=f"journal-{name}")
            with self.served(journal, "--answer", "1", "--slow", "1", program=Program((path,))) as serve:
                self.assertEqual(talk(serve, b"desk D1\n"), told)
                self.want_in(serve.told(), "event=program-ended network=hub status=")

    def test_a_journal_that_is_held_keeps_lines_waiting(self) -> None:
        """Nothing is answered before it is written, and looks are answered."""
        journal = self.journal(file=ONE.encode())
        with self.served(journal, "--slow", "2") as serve, serve.connect() as client:
            self.assertEqual(answers(client, b"desk D1\n", 1), [b"at 1\n"])
            with closing(sqlite3.connect(journal, isolation_level=None)) as connection:
                connection.execute("BEGIN IMMEDIATE")
                self.assertEqual(answers(client, b"ask LOC\n", 1), [b"ask LOC 300 leg AB\n"])
                client.sendall(b"book LOC 1\n")
                client.settimeout(1)
                with self.assertRaises((TimeoutError, socket.timeout)):
                    client.recv(100)
                self.assertEqual(len(rows_in(journal)), 0)
                wait_for(lambda: "event=journal-held seconds=" in serve.told(), "what is told")
                connection.execute("ROLLBACK")
            client.settimeout(SECONDS)
            self.assertEqual(client.recv(100), b"ok 1\n")

    def test_what_another_server_left_in_the_log_is_written_anew(self) -> None:
        """Before anything is told of it: it may not have been forced to the disk."""
        journal = self.journal(file=ONE.encode())
        with self.serve(journal) as serve:
            self.assertEqual(talk(serve, b"desk D1\nbook LOC 1\nbook LOC 1\n"), b"at 1\nok 1\nok 2\n")
            serve.end(-signal.SIGKILL, signal.SIGKILL)
        alone = self.folder / "alone"
        shutil.copy(journal, alone)
        self.same(rows_in(alone))
        with self.served(journal):
            shutil.copy(journal, alone)
            self.assertEqual(len(rows_in(alone)), 2)

    def test_it_is_read_while_it_sells(self) -> None:
        if not shutil.which("sqlite3"):
            self.skipTest("there is no sqlite3")
        journal = self.journal(file=ONE.encode())
        with self.served(journal) as serve, serve.connect() as client:
            self.assertEqual(answers(client, b"desk D1\nbook LOC 1\n", 2), [b"at 1\n", b"ok 1\n"])
            read = ["sqlite3", "-readonly", journal, "SELECT number, desk, line, reply FROM journal"]
            self.assertEqual(self.finished(*read), ("1|D1|book LOC 1|ok 1\n", "", 0))
            self.assertEqual(answers(client, b"book LOC 1\n", 1), [b"ok 2\n"])
            self.assertEqual(len(self.finished(*read).out.splitlines()), 2)
            self.told("journal", "backup", "journal", "copy")
            self.assertEqual(rows_in(self.folder / "copy"), rows_in(journal))

    def test_rights_of_the_files(self) -> None:
        journal = self.journal()
        with self.served(journal, "--mode", "660") as serve:
            talk(serve, b"desk D1\nbook HJ-Q 1\n")
            for name, wanted in (("journal", 0o600), ("journal-wal", 0o600), ("journal-shm", 0o600), ("socket", 0o660)):
                self.assertEqual(os.stat(self.folder / name).st_mode & 0o777, wanted, name)

