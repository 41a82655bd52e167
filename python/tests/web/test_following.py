"""What is read out of the journal: counts compared with what `nrm run` tells, and how often it is read."""
from __future__ import annotations

import random
import shutil
import threading
from collections import Counter
from pathlib import Path

from made import SECOND
from nrm.journal.looking import copy
from nrm.journal.sqlite_tables import using
from nrm.network import Network, rows_of
from nrm.replies import Hindsight, Leg, answer_of, replies_of
from nrm.web.followed_journal import Following
from nrm.web.network_counts import Counts, JournalRow
from server.servers import HUB
from server.serves import ONE
from web.webs import WebTest

KINDS = {"ok": "sold", "cancelled": "cancelled", "optimised": "optimised", "unknown": "unknown", "overflow": "overflow"}


def drawn(draw: random.Random, network: Network, count: int) -> list[str]:
    """Lines that book, cancel and plan."""
    lines: list[str] = []
    for _ in range(count):
        kind = draw.choices(["book", "cancel", "reoptimise"], [20, 5, 1])[0]
        if kind == "book":
            lines.append(f"book {draw.choice([*network.products, 'NONE'])} {draw.randint(1, 6)}")
        else:
            lines.append(f"cancel {draw.randint(1, 40)}" if kind == "cancel" else f"reoptimise {draw.randint(1, 5)}")
    return lines


def word_of(reply: str) -> str:
    return " ".join(reply.split(" ")[:2]) if reply == "no fare" else \
        "no leg" if reply.startswith("no ") else KINDS[reply.split(" ")[0]]


class FollowingTest(WebTest):
    def followed(self, journal: Path) -> Following:
        following = Following(str(journal))
        with using(str(journal)) as connection:
            following.look(connection)
            while following.is_behind:
                following.look(connection)
        return following

    def test_a_journal_that_has_lost_lines(self) -> None:
        """A backup was put in its place: who reads it anew begins anew."""
        journal = self.journal("one", file=ONE.encode())
        self.write(journal, [("book LOC 3", "ok 1")])
        copy(str(journal), f"{journal}-before")
        self.write(journal, [("book LOC 7", "ok 2")])
        following, found = Following(str(journal)), []
        for _ in range(2):
            is_over = threading.Event()
            following.follow(is_over, is_over.set)
            found.append((following.networks["one"].seen.lines, following.networks["one"].seen.revenue))
            for it in "-wal", "-shm":
                Path(f"{journal}{it}").unlink(missing_ok=True)
            shutil.copy(f"{journal}-before", journal)
        self.assertEqual(found, [(2, 2000), (1, 600)])

    def test_counts_are_those_of_a_run(self) -> None:
        """Seats, revenue and what was withheld, on drawn lines, in each mode, with refunds and without."""
        draw = random.Random(7)
        for at, text in enumerate((Path(HUB).read_text(), SECOND)):
            network = Network.of(rows_of(text.encode()))
            for mode in ("first", "bid", "davn"):
                lines = drawn(draw, network, 150)
                with self.subTest(mode=mode, network=at):
                    self.compare(network, mode, text, lines, f"journal-{at}-{mode}")

    def compare(self, network: Network, mode: str, text: str, lines: list[str], at: str) -> None:
        looks = [*(f"leg {it}" for it in network.legs), "hindsight"]
        told = self.nrm("run", mode, self.file("network.csv", text), given="\n".join([*lines, *looks, ""]).encode())
        replies = [it.decode() for it in replies_of(told.encode().splitlines(keepends=True))]
        if replies[0].startswith("ready"):
            replies = replies[1:]
        *given, last = replies
        journal = self.journal("one", mode=mode, file=text.encode(), at=at)
        answers = [it.rstrip("\n") for it in given[:len(lines)]]
        self.write(journal, list(zip(lines, answers)))
        following = self.followed(journal)
        followed = following.networks["one"]
        seen = followed.seen
        self.assertEqual((followed.fault, seen.lines), (None, len(lines)))
        legs = [answer_of(it.encode()) for it in given[len(lines):]]
        self.assertEqual([(it.name, it.authorised, it.sold, it.left) for it in legs if isinstance(it, Leg)],
                         [(it.name, it.authorised, it.sold, it.left) for it in seen.legs])
        bound = answer_of(last.encode())
        assert isinstance(bound, Hindsight)
        self.assertEqual((seen.revenue, seen.withheld), (bound.revenue, bound.withheld))
        self.assertEqual(sum(it.revenue for it in seen.products), bound.revenue)
        words = Counter((line.split(" ")[0], word_of(reply)) for line, reply in zip(lines, answers))
        self.assertEqual(dict(words), dict(seen.answers))
        self.assertGreater(len(words), 4, "the lines are of many kinds")
        refused = [at for at, it in enumerate(answers, 1) if it.startswith(("no ", "unknown", "overflow"))]
        self.assertEqual([it.number for it in seen.refusals], refused[::-1][:50])
        self.compare_bookings(following, lines, answers)

    def compare_bookings(self, following: Following, lines: list[str], answers: list[str]) -> None:
        """Each booking that was sold is found, with who sold it and who gave it back."""
        followed = following.networks["one"]
        sold = [at for at, it in enumerate(answers, 1) if it.startswith("ok ")]
        for number, at in enumerate(sold, 1):
            found = following.booking(followed, number)
            assert found
            self.assertEqual((f"book {found.product} {found.party}", found.sold_by), (lines[at - 1], at))
            ended = [(by, int(it.split(" ")[2])) for by, it in enumerate(answers, 1)
                     if it.startswith(f"cancelled {number} ")]
            self.assertEqual([(found.cancelled_by, found.amount)], ended or [(None, None)])
        self.assertIsNone(following.booking(followed, len(sold) + 1))
        self.assertIsNone(following.booking(followed, 0))

    def test_it_is_read_once_a_second_and_where_it_has_changed(self) -> None:
        journal = self.journal("one", file=ONE.encode())
        following = Following(str(journal))
        reads: list[float] = []
        read, following.read = following.read, lambda it: (reads.append(0), read(it))  # type: ignore[method-assign]
        with using(str(journal)) as connection:
            following.look(connection, 10)
            following.look(connection, 12)
            self.assertEqual((len(reads), following.networks["one"].seen.lines), (1, 0), "nothing has changed")
            self.write(journal, [("book LOC 1", "ok 1")])
            following.look(connection, 12.1)
            self.assertEqual((len(reads), following.networks["one"].seen.lines), (2, 1))
            self.write(journal, [("book LOC 2", "ok 2")])
            following.look(connection, 13)
            self.assertEqual(following.networks["one"].seen.lines, 1, "that was less than a second ago")
            following.look(connection, 13.2)
            self.assertEqual((len(reads), following.networks["one"].seen.lines), (3, 2))

    def test_networks_come_and_end_and_are_halted(self) -> None:
        journal = self.journal("one", "two", file=ONE.encode())
        self.write(journal, [("book LOC 3", "ok 1")], network=2)
        following = self.followed(journal)
        seen = {name: (it.seen.sold, it.state) for name, it in following.networks.items()}
        self.assertEqual(seen, {"one": (0, "open"), "two": (3, "open")})
        with using(str(journal)) as connection, using(str(journal), is_to_write=True) as other:
            following.version = -1
            other.execute("UPDATE network SET halted = 'row 1 is missing' WHERE name = 'two'")
            other.execute("UPDATE network SET ended = 1 WHERE name = 'one'")
            following.look(connection, 1e9)
            self.assertEqual([it.state for it in following.networks.values()], ["ended", "halted: row 1 is missing"])

    def test_a_strange_row_ends_the_reading_of_its_network(self) -> None:
        """What was read before stays."""
        for line, reply in (("book LOC 1", "ok 3"), ("book NONE 1", "ok 2"), ("cancel 2", "cancelled 2 200"),
                            ("cancel 1", "cancelled 2 200"), ("leg AB", "ok 2"), ("book LOC 1", "what"),
                            ("book LOC", "ok 2"), ("reoptimise 1", "denied"), ("hindsight", "unknown")):
            with self.subTest(line=line, reply=reply):
                journal = self.journal("one", "two", file=ONE.encode(), at=f"{line} {reply}")
                self.write(journal, [("book LOC 1", "ok 1"), (line, reply), ("book LOC 1", "ok 2")])
                self.write(journal, [("book LOC 2", "ok 1")], network=2)
                following = self.followed(journal)
                one, two = following.networks["one"], following.networks["two"]
                self.assertEqual((one.fault, one.seen.lines, one.seen.sold),
                                 (f"row 2, `{line}` with the reply `{reply}`, isn't one that a server writes", 1, 1))
                self.assertEqual((two.fault, two.seen.sold), (None, 2))

    def test_requests_a_minute(self) -> None:
        counts = Counts(Network.of(rows_of(ONE.encode())))
        at = 1_800_000_000_000 // 60_000 * 60_000
        for number, minute in enumerate((0, 0, 1, 59, 59, 59, 60), 1):
            counts.take(JournalRow(number, at + minute * 60_000 + 59_999, "D1", "book LOC 999", "no AB"))
        counts.take(JournalRow(8, at, "D1", "cancel 1", "unknown"))
        minutes = counts.seen().a_minute(at + 59 * 60_000)
        self.assertEqual((len(minutes), minutes[0], minutes[1], minutes[-1], sum(minutes)), (60, 2, 1, 3, 6))
        self.assertEqual(counts.seen().a_minute(at + 60 * 60_000)[-2:], [3, 1])
