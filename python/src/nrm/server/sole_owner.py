"""A server that has all networks of its journal, as long as nobody else has the journal."""
from __future__ import annotations

from typing import Callable, Protocol, Sequence

from nrm.journal.networks import network_in, networks_in
from nrm.journal.stores import Fenced, Opened, Store, Tables
from nrm.server.sessions import Session
from nrm.server.status_text import FleetStatus, Share

LOST = "another server has the journal now, and this one answers nothing more"


class Owning(Protocol):
    """Whose each network is, as the server needs to know it."""

    def networks(self) -> Sequence[Opened]:
        """All networks, by their names."""

    def network(self, name: str) -> Opened | None:
        """The network of a name."""

    def size(self) -> int:
        """The bytes of the journal."""

    def elsewhere(self, network: Opened) -> str | None:
        """Why a client isn't taken to a network here: `wait`, or `moved` and where it is; None if it is."""

    def when_looked(self, then: Callable[[], None]) -> bool:
        """Has something done once the networks were looked at anew; gives whether they are."""

    def fleet(self) -> tuple[FleetStatus | None, tuple[Share, ...]]:
        """What is told of the servers that share the journal, and whose each network is; nothing of one that has it
        alone."""

    def may_read(self) -> bool:
        """Whether the journal is reached, so that to ask it keeps nobody waiting."""

    def has_changed(self, network: Opened) -> bool:
        """Whether it is seen that a network isn't there any more, or has other rights than when its program began."""

    def lost(self, session: Session, fault: Exception | None = None) -> None:
        """Another server has a network, or it has changed; with a fault, nobody knows whether its rows were written."""

    def give_up(self, network: int) -> None:
        """A network is about to be halted: nobody is taken to it meanwhile."""

    def given_up(self, network: int) -> None:
        """It is halted, or another server has it."""

    def unfit(self) -> str:
        """Why clients are turned away, since the program isn't the one any more that this server began with."""

    def hands_over(self) -> bool:
        """Whether this server, which was told to end, goes on until others have its networks."""

    def close(self) -> None:
        """Ends what stands between this server and others."""


class Sole:
    """It has all networks, by the epoch of its start. `fail` ends all."""

    def __init__(self, store: Store, tables: Tables, epoch: int, fail: Callable[[Exception], None]) -> None:
        self.store, self.tables, self.epoch, self.fail = store, tables, epoch, fail

    def networks(self) -> Sequence[Opened]:
        """All networks, as the journal has them now."""
        return networks_in(self.tables)

    def network(self, name: str) -> Opened | None:
        """The network of a name."""
        return network_in(self.tables, name)

    def size(self) -> int:
        """The bytes of the journal."""
        return self.store.size()

    def elsewhere(self, network: Opened) -> str | None:
        """There is no other."""
        return None

    def when_looked(self, then: Callable[[], None]) -> bool:
        """The journal is looked at each time."""
        return False

    def fleet(self) -> tuple[FleetStatus | None, tuple[Share, ...]]:
        """There is no other server."""
        return None, ()

    def may_read(self) -> bool:
        """A file is always reached."""
        return True

    def has_changed(self, network: Opened) -> bool:
        """Whether the journal has other rights of a network, or no such network."""
        row = self.tables.execute("SELECT ended FROM network WHERE network = ? AND name = ?",
                                  [network.number, network.name]).fetchone()
        return row is None or row[0] != network.ended

    def lost(self, session: Session, fault: Exception | None = None) -> None:
        """Another server has the journal, and so all networks; or it is this network alone that has changed: then its
        program begins again with the next client, as the journal has it. What nobody knows, the next server sees."""
        found = network_in(self.tables, session.network.name) if not fault else None
        if fault or found and found.epoch != self.epoch:
            self.fail(fault or Fenced(LOST))
        else:
            session.lose("wait" if found and found.number == session.network.number else "network")

    def give_up(self, network: int) -> None:
        """It is halted at once."""

    def given_up(self, network: int) -> None:
        """That shows in the journal."""

    def unfit(self) -> str:
        """It is another version."""
        return "version"

    def hands_over(self) -> bool:
        """To nobody."""
        return False

    def close(self) -> None:
        """There is nothing to be ended."""
