"""The clock of a server that runs: periods that are seconds away, missed ones at a start, what is told and kept, and
what a client of the server's own means for others."""
from __future__ import annotations

import re
import signal
import time
from pathlib import Path

from harness import SECONDS, wait_for
from nrm.journal.network_times import Times, set_times
from nrm.journal.sqlite_tables import using
from nrm.program import Program
from nrm.replies import answer_of, replies_of
from nrm.server.status_text import ask_status
from server.servers import HUB, answers
from server.serves import ServeTest, all_told, journal_of, rows_in, talk

CLOCKS = "SELECT network, line, reply FROM line WHERE desk = 'CLOCK' ORDER BY network, number"


def clock_of(told: str, event: str = "clock") -> list[dict[str, str]]:
    """The fields of each event of the clock that was told."""
    lines = [it.partition(f"serve event={event} ")[2] for it in told.splitlines()]
    return [dict(word.split("=", 1) for word in it.split(" ")) for it in lines if it]


class Served(ServeTest):
    def set(self, journal: Path, begins: dict[int, float], departs: float = 3600, network: int = 1) -> None:
        """Sets times that are so many seconds away."""
        now = time.time()
        times = Times(int(1000 * (now + departs)), tuple((it, int(1000 * (now + at))) for it, at in begins.items()))
        with using(str(journal), is_to_write=True) as connection, connection.change():
            set_times(connection, network, times)

    def test_a_period_begins_while_it_serves(self) -> None:
        """And a later one, without a program at work; prices that changed are those of two looks."""
        for mode in ("bid", "davn"):
            with self.subTest(mode):
                journal = self.journal(mode=mode, at=f"journal-{mode}")
                with self.served(journal, "--linger", "1", name=mode) as serve:
                    self.assertEqual(talk(serve, b"desk D1\nbook HJ-Y 30\n"), b"at 1\nok 1\n")
                    self.set(journal, {2: -5, 3: 8, 4: 3000})
                    wait_for(lambda: len(clock_of(serve.told())) == 2, "two plans")
                rows = rows_in(journal, "SELECT desk, line, reply FROM line ORDER BY number")
                self.assertEqual([it[:2] for it in rows],
                                 [("D1", "book HJ-Y 30"), ("CLOCK", "reoptimise 2"), ("CLOCK", "reoptimise 3")])
                stream = "plan\n".join(["", *(f"{line}\n" for _, line, _ in rows), ""]).encode()
                *_, one, made, two, later, three = replies_of(
                    it.encode() + b"\n" for it in self.nrm("run", mode, HUB, given=stream).splitlines())
                self.assertEqual([made, later], [f"{it[2]}\n".encode() for it in rows[1:]])
                plans = [answer_of(it).prices for it in (one, two, three)]
                for at, told in enumerate(clock_of(serve.told())):
                    self.assertEqual((told["network"], told["period"]), ("hub", str(at + 2)))
                    self.assertEqual(f"optimised {told['value']}", rows[at + 1][2])
                    changed = [leg for leg in plans[at] if plans[at][leg] != plans[at + 1][leg]]
                    self.assertEqual(told["changed"], ",".join(changed) or "none")
                    self.assertRegex(told["seconds"], r"^\d+\.\d{1,3}$")

    def test_what_was_missed_at_a_start_and_after_a_kill(self) -> None:
        """The latest alone, and once, in each network that wants it; two sides of it are told."""
        journal = self.journal("one", "two", "three", mode="bid")
        self.set(journal, {2: -30, 3: -20, 4: 3000})
        self.set(journal, {2: -30, 3: -20}, -10, 2)
        with self.serve(journal) as serve:
            wait_for(lambda: clock_of(serve.told()), "a plan")
            serve.end(-signal.SIGKILL, signal.SIGKILL)
        self.assertEqual(clock_of(serve.told(), "clock-missed"), [{"network": "one", "periods": "2"}])
        with self.served(journal) as serve:
            self.assertEqual(talk(serve, b"desk one CLOCK\n"), b"at 3\n")
            time.sleep(3)
        self.assertEqual([it[:2] for it in rows_in(journal, CLOCKS)], [(1, "reoptimise 3")])

    def test_what_fails_is_told(self) -> None:
        for reply in ("memory", "overflow"):
            with self.subTest(reply):
                program = self.instead(reply, f"at 1\nvalue 1/1\n\n{reply}\nvalue 1/1\n\n")  # between two looks
                journal = journal_of(self.folder / f"j-{reply}", program, {"net": ("bid", b"")})
                self.set(journal, {2: -5})
                with self.served(journal, program=program, name=f"s-{reply}") as serve:
                    wait_for(lambda: clock_of(serve.told(), "clock-failed"), "what is told")
                self.assertEqual(clock_of(serve.told(), "clock-failed"), [
                    {"network": "net", "period": "2", "why": reply, "again": "60" if reply == "memory" else "no"}])

    def test_it_isnt_counted(self) -> None:
        """While it asks the status tells of who asks for that alone."""
        silent = Program((self.script("silent", "import time\ntime.sleep(600)\n"),))
        journal = journal_of(self.folder / "journal", silent, {"net": ("bid", b"")})
        self.set(journal, {2: -5})
        with self.serve(journal, "--slow", "2", program=silent) as serve:
            wait_for(Path(f"/proc/{serve.process.pid}/task/{serve.process.pid}/children").read_text, "a program")
            told = ask_status(serve.path, SECONDS)
            self.assertEqual((told.clients.now, told.clients.ever, told.networks[0].clients), (1, 1, 1))
            serve.process.terminate()
            serve.end(sent=None)

    def test_it_takes_nobodys_place(self) -> None:
        """One that asks counts as no client, and ends as the server does."""
        silent = Program((self.script("silent", "import time\ntime.sleep(600)\n"),))
        journal = journal_of(self.folder / "journal", silent, {"net": ("bid", b"")})
        self.set(journal, {2: -5})
        with self.serve(journal, "--clients", "1", "--slow", "2", program=silent) as serve:
            wait_for(Path(f"/proc/{serve.process.pid}/task/{serve.process.pid}/children").read_text, "a program")
            with serve.connect() as client, serve.connect() as other:
                client.sendall(b"desk D1\n")
                self.assertEqual(all_told(other), b"closed clients\n")
                serve.process.terminate()
                self.assertEqual(all_told(client), b"closed stopping\n")
            serve.end(sent=None)

    def test_what_another_desk_and_a_second_of_the_name_ask(self) -> None:
        """A desk named CLOCK is one as others; what it asked for isn't asked for again."""
        journal = self.journal(mode="bid")
        with self.served(journal) as serve, serve.connect() as client:
            self.assertEqual(len(answers(client, b"desk CLOCK\nreoptimise 2\nbook HJ-Q 1\n", 3)), 3)
            self.set(journal, {2: -5, 3: 4})
            self.assertEqual(all_told(client), b"closed elsewhere\n")
            wait_for(lambda: clock_of(serve.told()), "a plan")
            self.same([it["period"] for it in clock_of(serve.told())], "3")
        self.same(rows_in(journal, "SELECT sequence, line FROM line"), (1, "reoptimise 2"), (2, "book HJ-Q 1"),
                  (4, "reoptimise 3"))

    def test_every(self) -> None:
        """Words that are refused, and a plan that is made anew at a start, since the last is an hour old."""
        journal = self.journal(mode="bid")
        for word in ("59", "0", "-60", "1.5m", "60s", "1d", "m", "999999999"):
            self.stopped("serve", journal, "--socket", "s", f"--every={word}", "--program",
                         *self.desks_program.words, status=2, says="--every")
        with self.served(journal) as serve:
            self.assertEqual(talk(serve, b"desk D1\nreoptimise 2\nbook HJ-Q 1\n").count(b"\n"), 3)
        with using(str(journal), is_to_write=True) as connection:
            connection.executescript("DROP TRIGGER line_stays; UPDATE line SET at = at - 3599000")
        self.set(journal, {2: -4000, 3: 3000})
        with self.served(journal, "--every", "1h") as serve:
            wait_for(lambda: clock_of(serve.told()), "a plan")
            time.sleep(2)
        self.assertEqual([it[1] for it in rows_in(journal, CLOCKS)], ["reoptimise 2"])
        self.assertEqual(len(re.findall("event=clock", serve.told())), 1)
