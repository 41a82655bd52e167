"""What Patroni does when a machine is lost, or when an operator asks for another primary, and what desks see of it."""
from __future__ import annotations

import time

from fleet.patroni_lines import ANYBODY, NAMES, PatroniTest
from fleet.patroni_nodes import LEADER, SUPERUSER, WAITED_FOR
from fleet.standing import COUNT, HALTED, LEASE, asked

BEHIND = 1.0  # seconds for which the log of the primary doesn't reach its standbys
CLONES = 'standby "pg_basebackup" is now a synchronous standby'


class Losses(PatroniTest):
    def test_the_primary_is_lost(self) -> None:
        """What it alone had was told to nobody; it comes back as a standby, without that."""
        fleet, nodes = self.served(), self.databases
        lost, heir = nodes.primary_by_patroni(), nodes.waited_for()
        with self.buying(fleet) as desk:
            nodes.hold(lost)
            time.sleep(BEHIND)
            nodes.kill(lost)
            self.wait_for_primary(heir)
            desk.go_on()
            nodes.start(lost)
            nodes.wait_until_whole()
        self.wait_for_standby(lost)
        self.want_in(self.log_of(lost), f"running pg_rewind from {heir}")

    def test_an_operator_asks_for_another_primary(self) -> None:
        """The standby that is waited for becomes it; the other is refused, also by `failover`."""
        fleet, nodes = self.served(), self.databases
        first, heir = nodes.primary_by_patroni(), nodes.waited_for()
        [other] = {*nodes.ports} - {first, heir}
        with self.buying(fleet) as desk:
            told = nodes.patronictl("switchover", "--leader", first, "--candidate", other, "--force", "fleet")
            self.want_in(told, "candidate name does not match with sync_standby")
            nodes.patronictl("failover", "--candidate", other, "--force", "fleet")
            self.assertEqual(nodes.primary_by_patroni(), first)
            nodes.patronictl("switchover", "--leader", first, "--candidate", heir, "--force", "fleet")
            self.wait_for_primary(heir)
            self.assertRegex(nodes.patronictl("list"), rf"\| {heir} +\| [0-9.:]+ +\| Leader ")
            desk.go_on()
            nodes.wait_until_whole()
        self.wait_for_standby(first)

    def test_no_standby_is_left(self) -> None:
        """Nothing is answered until one comes back. No base backup was ever taken for one."""
        fleet, nodes = self.served(), self.databases
        with self.buying(fleet) as desk:
            _, lost = self.without_standbys()
            self.see_that_nothing_is_answered(fleet, desk, 2 * LEASE)
            nodes.start(lost[0])
            desk.go_on()
            nodes.start(lost[1])
            nodes.wait_until_whole()
        self.assertEqual([it for it in nodes.ports if CLONES in self.log_of(it)], [])

    def test_the_primary_and_its_standby_are_lost(self) -> None:
        """The third may lack what was answered, so it isn't promoted, and nothing is answered until one is back."""
        fleet, nodes = self.served(), self.databases
        with self.buying(fleet) as desk:
            lost, heir, other = self.without_leader()
            self.see_that_nothing_is_answered(fleet, desk, 2 * LEASE)
            self.wait_for_standby(other)
            nodes.start(heir)
            nodes.start(lost)
            desk.go_on()
            nodes.wait_until_whole()

    def test_an_operator_promotes_who_lacks_lines(self) -> None:
        """Patroni does so where there is no leader. A server that has answered what is gone lets nobody answer more."""
        fleet, nodes = self.served(), self.databases
        servers = [*fleet.servers.values()]
        self.assertEqual(asked(servers, b"book LOC 1\n", 1), [b"ok 1"])
        [third] = {*nodes.ports} - {nodes.primary_by_patroni(), nodes.waited_for()}
        nodes.wait(lambda: nodes.has_all(third), f"that {third} has all")
        nodes.hold_from(third)
        self.assertEqual(asked(servers, b"book LOC 2\n" * 2, 2, sequence=2), [b"ok 2", b"ok 3"])
        lost, heir, other = self.without_leader()
        self.assertEqual(other, third)
        nodes.go_on(third)
        nodes.patronictl("failover", "--candidate", other, "--force", "fleet")
        self.wait_for_primary(other)
        nodes.start(heir)
        nodes.start(lost)
        self.until(fleet, HALTED, nodes.patience)
        self.want_in(fleet.value(HALTED), "lines 2 to 3 were answered and are gone from the journal")
        self.assertEqual(asked(servers, b"book LOC 4\n", 1, sequence=4), [b"closed halted"])
        self.same_rows(fleet, (1, "D1", 1, "book LOC 1", "ok 1"))
        nodes.patronictl("reinit", "fleet", heir, "--force")  # it has more than the primary, and may not see that
        nodes.wait_until_whole()

    def test_waiting_that_an_operator_switches_off_answers_nothing(self) -> None:
        """Without `synchronous_mode` commits wait all the same; where they don't PostgreSQL lets those who wait go on
        with a success. The servers stay, and go on once commits wait again."""
        fleet, nodes = self.served(), self.databases
        with self.buying(fleet) as desk:
            primary, lost = self.without_standbys()
            nodes.patronictl("edit-config", "--set", "synchronous_mode=false", "--force", "fleet")
            self.see_that_nothing_is_answered(fleet, desk, LEASE)
            self.assertEqual(nodes.asked(primary, NAMES), ANYBODY)
            self.set_by_hand(primary, "SET synchronous_standby_names = ''")
            self.until_setting(primary, "")
            self.see_that_nothing_is_answered(fleet, desk, 2 * LEASE)
            self.set_by_hand(primary, "RESET synchronous_standby_names")
            nodes.patronictl("edit-config", "--set", "synchronous_mode=true", "--force", "fleet")
            for it in lost:
                nodes.start(it)
            nodes.wait_until_whole()
            desk.go_on()

    def test_one_that_is_promoted_waits_from_its_first_commit_on(self) -> None:
        """Also one that was the primary before, on which Patroni has nothing waited for until it promotes it, and if
        the process that has all others wait is late, as when it writes a checkpoint to a slow disk."""
        fleet, nodes = self.served(), self.databases
        heir, lost = nodes.primary_by_patroni(), nodes.waited_for()
        [other] = {*nodes.ports} - {lost, heir}
        servers = [*fleet.servers.values()]
        nodes.patronictl("switchover", "--leader", heir, "--candidate", lost, "--force", "fleet")
        nodes.wait_until_whole()
        self.assertEqual(asked(servers, b"book LOC 1\n", 1), [b"ok 1"])
        nodes.kill(other)
        nodes.wait(lambda: nodes.roles().get(heir) == WAITED_FOR, f"that {heir} is waited for")
        nodes.hold_checkpointer(heir)
        nodes.kill(lost)
        self.wait_for_primary(heir)
        why = "a line is told that one disk has"
        self.see_that_nothing_is_told(servers, b"desk net D1 2\nbook LOC 2\n", 4 * LEASE, why)
        nodes.go_on(heir)
        nodes.start(other)
        nodes.start(lost)
        self.assertEqual(asked(servers, b"book LOC 2\n", 1, sequence=2), [b"ok 2"])
        self.assertEqual(fleet.value(COUNT), 2)
        nodes.wait_until_whole()

    def without_leader(self) -> tuple[str, str, str]:
        """Loses the primary and the standby that is waited for at one moment, and waits until the lock has ended; gives
        their names, and the third's."""
        nodes = self.databases
        lost, heir = nodes.primary_by_patroni(), nodes.waited_for()
        [other] = {*nodes.ports} - {lost, heir}
        nodes.kill(lost, heir)
        nodes.wait(lambda: LEADER not in nodes.roles().values(), "that the lock of the primary ends")
        return lost, heir, other

    def without_standbys(self) -> tuple[str, list[str]]:
        """Loses the standbys, one after the other; gives the primary, which waits for any, and who was lost."""
        nodes = self.databases
        primary, first = nodes.primary_by_patroni(), nodes.waited_for()
        [second] = {*nodes.ports} - {primary, first}
        nodes.kill(first)
        nodes.wait(lambda: nodes.roles().get(second) == WAITED_FOR, f"that {second} is waited for")
        nodes.kill(second)
        self.until_setting(primary, ANYBODY)
        return primary, [first, second]

    def set_by_hand(self, server: str, what: str) -> None:
        """What goes before all that Patroni sets."""
        for it in f"ALTER SYSTEM {what}", "SELECT pg_reload_conf()":
            self.databases.asked(server, it, user=SUPERUSER)

    def until_setting(self, server: str, wanted: str) -> None:
        """Waits until a server waits for these standbys."""
        self.databases.wait(lambda: self.databases.asked(server, NAMES) == wanted, f"the setting {wanted!r}")
