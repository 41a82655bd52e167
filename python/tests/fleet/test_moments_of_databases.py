"""Moments of the database: lines that no standby has, commits whose waiting was cancelled, lines that it has lost."""
from __future__ import annotations

import signal

from fleet.pooler import Pooler
from fleet.standing import COUNT, HALTED, LEASE, Fleet, FleetTest, asked, heard, rows_of, silent
from harness import wait_for
from server.serves import Server

NO_WAITING = "ALTER SYSTEM SET synchronous_standby_names = ''"
RELOAD = "SELECT pg_reload_conf()"
WAITS = "FROM pg_stat_activity WHERE wait_event = 'SyncRep' AND query LIKE '%INSERT INTO line%'"


class Databases(FleetTest):
    def test_a_line_that_is_on_the_primary_alone_is_not_told(self) -> None:
        """The standbys are lost, a line is committed on the primary alone, and the primary begins anew, so that all see
        the line. Nobody may answer from it: then the primary is lost too, and a standby goes on without it."""
        (fleet, _), servers = self.begun(2), self.databases
        lost, primary = servers.standbys(), servers.primary()
        for it in lost:
            servers.kill(it)
        line = b"desk net D1 2\nbook LOC 2\n"
        self.assertIn(silent(fleet.owner(), line), (b"", b"at 2\n"), "with no standby nothing is answered")
        servers.kill(primary)
        servers.start(primary)
        self.assertEqual(fleet.value(COUNT), 2, "lines that are seen on the primary")
        owner, [left] = fleet.owner(), fleet.others()
        owner.kill()
        self.see_that_nothing_is_told([left], line, 8, "another answers from what it sees")
        servers.kill(primary)
        for it in lost:
            servers.start(it)
        servers.promote()
        self.assertEqual(asked([left], b"book LOC 2\nbook LOC 1\n", 2, sequence=2), [b"ok 2", b"ok 3"])
        self.same_rows(fleet, (1, "D1", 1, "book LOC 1", "ok 1"), (2, "D1", 2, "book LOC 2", "ok 2"),
                       (3, "D1", 3, "book LOC 1", "ok 3"))
        servers.rejoin()

    def test_a_cancelled_wait_is_no_commit(self) -> None:
        """A commit that waits for a standby is cancelled by an administrator: the database calls that a success, with a
        warning."""
        (fleet, [one]), servers = self.begun(), self.databases
        lost = servers.standbys()
        with one.connect() as made:
            made.sendall(b"desk net D1 2\n")
            self.assertEqual(heard(made, 1), b"at 2\n")
            for it in lost:
                servers.kill(it)
            made.settimeout(4)
            made.sendall(b"book LOC 2\n")
            self.until(fleet, f"SELECT 1 {WAITS}")
            self.assertEqual(fleet.rows(f"SELECT pg_cancel_backend(pid) {WAITS}"), [(True,)])
            told = heard(made, 1)
            self.assertFalse(told.startswith(b"ok"), f"a line is told that no standby has: {told!r}")
        self.see_that_it_goes_on(fleet, one, lost)

    def test_waiting_that_is_switched_off_is_no_commit(self) -> None:
        """While a commit waits for a standby somebody has the database wait for none: it calls that a success, without
        a warning. As long as it waits for none nothing is answered, and the server goes on when it does again."""
        fleet, servers = self.fleet(), self.databases
        one, primary, lost = fleet.start(0), servers.primary(), servers.standbys()
        self.assertEqual(asked([one], b"book LOC 1\n", 1), [b"ok 1"])
        with one.connect() as made:
            made.sendall(b"desk net D1 2\n")
            self.assertEqual(heard(made, 1), b"at 2\n")
            for it in lost:
                servers.kill(it)
            made.sendall(b"book LOC 2\n")
            self.until(fleet, f"SELECT 1 {WAITS}")
            servers.asked(primary, NO_WAITING)
            servers.asked(primary, RELOAD)
            self.assertNotIn(b"ok", heard(made, 1), "a line is told that no standby has")
        line, why = b"desk net D1 2\nbook LOC 2\n", "a line is told that no standby has"
        self.see_that_nothing_is_told([one], line, 2 * LEASE, why)
        self.wait_until_told(one, "event=database why=\"the database waits for no other machine")
        servers.asked(primary, "ALTER SYSTEM RESET synchronous_standby_names")
        servers.asked(primary, RELOAD)
        self.see_that_it_goes_on(fleet, one, lost)

    def test_a_session_that_has_lost_its_settings_answers_nothing(self) -> None:
        """A pooler drops what a session asks for, and the role has `synchronous_commit = off`: with all standbys lost a
        commit is a success, and no standby has the line. A server that is there answers nothing, and none begins."""
        fleet, servers = self.fleet(), self.databases
        pooler = Pooler(servers.ports[servers.primary()])
        self.addCleanup(pooler.close)
        self.addCleanup(servers.asked, servers.primary(), "ALTER ROLE fleet RESET synchronous_commit")
        one = fleet.start(0, uri=pooler.uri(fleet.uri))
        self.assertEqual(asked([one], b"book LOC 1\n", 1), [b"ok 1"])
        servers.asked(servers.primary(), "ALTER ROLE fleet SET synchronous_commit = off")
        lost = servers.standbys()
        for it in lost:
            servers.kill(it)
        pooler.cut()
        self.see_that_nothing_is_told([one], b"desk net D1 2\nbook LOC 2\n", 2 * LEASE,
                                      "a line is told that no standby has")
        self.wait_until_told(one, "synchronous_commit is off in its sessions, though on was asked for")
        refused = fleet.start(1, is_awaited=False, uri=pooler.uri(fleet.uri))
        self.assertEqual(refused.process.wait(20), 1, refused.told())
        self.want_in(refused.told(), "synchronous_commit is off in its sessions")
        servers.asked(servers.primary(), "ALTER ROLE fleet RESET synchronous_commit")
        for it in lost:
            servers.start(it)
        self.databases.wait_until_whole()
        pooler.cut()
        self.assertEqual(asked([one], b"book LOC 2\nbook LOC 1\n", 2, sequence=2), [b"ok 2", b"ok 3"])

    def wait_until_told(self, one: Server, text: str) -> None:
        """A server's look at the database comes a moment after a commit that nobody is told of."""
        wait_for(lambda: text in one.told(), f"{text!r} in what the server tells")

    def see_that_it_goes_on(self, fleet: Fleet, one: Server, lost: list[str]) -> None:
        """With the standbys that were lost a second line is answered, which was sent before, and a third."""
        for it in lost:
            self.databases.start(it)
        self.databases.wait_until_whole()
        self.assertEqual(asked([one], b"book LOC 2\nbook LOC 1\n", 2, sequence=2), [b"ok 2", b"ok 3"])
        self.assertEqual(fleet.value(COUNT), 3)

    def test_lines_that_a_database_has_lost_are_missed(self) -> None:
        """Somebody has switched the waiting for a standby off, and the primary is lost: a server that has answered
        lines which are gone has nobody answer any more."""
        (fleet, [one]), servers = self.begun(1, "--alone"), self.databases
        lost, primary = servers.standbys(), servers.primary()
        servers.asked(primary, NO_WAITING)
        servers.asked(primary, RELOAD)
        for it in lost:
            servers.kill(it)
        self.assertEqual(asked([one], b"book LOC 1\n", 1, sequence=2), [b"ok 2"])
        servers.kill(primary)
        for it in lost:
            servers.start(it)
        servers.promote()
        self.until(fleet, HALTED)
        self.assertRegex(fleet.value("SELECT halted FROM network"), r"\b2\b.* gone|\b2\b.*\b1\b", "it says which lines")
        self.assertEqual(asked([one], b"book LOC 1\n", 1, sequence=3), [b"closed halted"])

    def test_without_a_standby_to_wait_for_none_serves(self) -> None:
        fleet, servers = self.fleet(), self.databases
        servers.asked(servers.primary(), NO_WAITING)
        servers.asked(servers.primary(), RELOAD)
        wait_for(lambda: rows_of(fleet.uri, "SHOW synchronous_standby_names") == [("",)], "the setting")
        refused = fleet.start(0, is_awaited=False)
        self.assertEqual(refused.process.wait(20), 1, refused.told())
        self.want_in(refused.told(), "synchronous_standby_names")
        with_leave = fleet.start(1, "--alone")
        self.assertEqual(asked([with_leave], b"book LOC 1\n", 1), [b"ok 1"])
        with_leave.end(0, signal.SIGTERM)
        servers.asked(servers.primary(), "ALTER SYSTEM RESET synchronous_standby_names")
        servers.asked(servers.primary(), RELOAD)
