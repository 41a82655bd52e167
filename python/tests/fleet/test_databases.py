"""The database servers of trials: what is acknowledged is on a standby, one that has more is promoted, and the old
primary comes back."""
from __future__ import annotations

import subprocess
import time

import databases  # of the folder tests at the top
from fleet.standing import FleetTest
from harness import TOP

ROWS = "SELECT count(*) FROM it"


class Databases(FleetTest):
    def put(self, count: int, more: str = "") -> None:
        """Writes rows, and waits until they are on a standby, unless more is said."""
        it = self.databases
        it.asked(it.primary(), f"{more} INSERT INTO it SELECT generate_series(1, {count})")

    def table(self) -> None:
        it = self.databases
        it.asked(it.primary(), "DROP TABLE IF EXISTS it; CREATE TABLE it (number int)")

    def test_what_was_acknowledged_stands_on_the_one_that_is_promoted(self) -> None:
        """One standby may be behind, and one that has all is promoted."""
        it = self.databases
        self.table()
        behind, other = it.standbys()
        it.stop(behind)
        self.put(7)
        lost = it.primary()
        it.kill(lost)
        it.go_on(behind)
        promoted = it.promote()
        self.assertIn(promoted, (behind, other))  # the first may have got the rest from a socket
        self.assertEqual((it.asked(promoted, ROWS), it.state()[lost]), ("7", "down"))
        it.rejoin()
        self.assertEqual(it.state(), {**dict.fromkeys((lost, behind, other), "standby"), promoted: "primary"})

    def test_what_wasnt_acknowledged_is_wound_back(self) -> None:
        """The old primary has a row that no standby has; as a standby it lacks it too."""
        it = self.databases
        self.table()
        lost = it.primary()
        it.hold(lost)
        self.put(3, "SET synchronous_commit = local;")
        self.assertEqual(it.asked(lost, ROWS), "3")
        it.kill(lost)
        promoted = it.promote()
        it.rejoin()
        for server in (promoted, lost):
            self.assertEqual(it.asked(server, ROWS), "0", server)

    def test_without_a_standby_nothing_is_acknowledged(self) -> None:
        it = self.databases
        self.table()
        lost = it.standbys()
        for server in lost:
            it.kill(server)
        writer = self.process_of_psql("INSERT INTO it VALUES (1)")
        time.sleep(1)
        self.assertIsNone(writer.poll(), "the commit waits")
        for server in lost:
            it.start(server)
        self.assertEqual(writer.wait(60), 0, "it goes on when there is a standby again")

    def process_of_psql(self, query: str) -> subprocess.Popen[bytes]:
        """A client of the primary that asks one query."""
        it = self.databases
        return subprocess.Popen([databases.tool("psql"), "-XAtqc", query, it.uri(server=it.primary(),
                                                                               database="postgres")])

    def test_the_command_says_where_they_are_and_how(self) -> None:
        script, folder = TOP / "tests" / "databases.py", self.databases.folder
        self.assertEqual(self.finished(script, "uri", folder).out, f"{self.databases.uri()}\n")
        told = self.finished(script, "state", folder).out.splitlines()
        self.assertEqual([it.split()[0] for it in told], [*self.databases.ports])
        self.assertEqual(sorted(it.split()[2] for it in told), ["primary", "standby", "standby"])
        for words, wanted in ((("make", folder), "is there already"), (("kill", folder / "none"), "has no servers"),
                              (("promote", folder), "there is a primary")):
            done = self.finished(script, *words)
            self.assertEqual((done.status, done.err.startswith("databases.py: ")), (1, True), done.err)
            self.want_in(done.err, wanted)
