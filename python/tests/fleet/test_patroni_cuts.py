"""What Patroni does when the network of the primary is cut, but for the way to the servers of desks."""
from __future__ import annotations

from fleet.patroni_lines import PatroniTest
from fleet.patroni_nodes import Nodes
from fleet.spaces import FIRST, Spaces, why_not
from fleet.standing import free_ports


class Cuts(PatroniTest):
    """Each node on a machine of its own; etcd, the servers and the desks are on this one."""
    spaces: Spaces

    @classmethod
    def why_not(cls) -> str:
        return super().why_not() or why_not()

    @classmethod
    def make(cls, nodes: Nodes) -> None:
        machines = range(3)
        cls.spaces = Spaces(len(machines))
        cls.addClassCleanup(cls.spaces.end)
        nodes.make_nodes(free_ports(8), [cls.spaces.address(it) for it in machines],
                         [cls.spaces.within(it) for it in machines], FIRST)

    def test_a_primary_that_reaches_neither_etcd_nor_a_standby_gives_up(self) -> None:
        """A standby is promoted, servers find it, and what the first alone had is told to nobody."""
        fleet, nodes = self.served(), self.databases
        lost, heir = nodes.primary_by_patroni(), nodes.waited_for()
        at = [*nodes.ports].index(lost)
        with self.buying(fleet) as desk:
            self.spaces.cut(at, [nodes.etcd_port])
            for other in {*nodes.ports} - {lost}:
                self.spaces.cut(at, [*nodes.ports.values(), *nodes.rests.values()], nodes.places[other])
            self.wait_for_primary(heir)
            desk.go_on()
            self.assertNotEqual(nodes.state_of(lost), "primary")
            self.want_in(self.log_of(lost), "demoting self because DCS is not accessible and I was a leader")
            self.spaces.heal(at)
            nodes.wait_until_whole()
        self.wait_for_standby(lost)
