"""What halts a network: nobody answers for it any more, since its program doesn't take a row of its journal."""
from __future__ import annotations

from dataclasses import replace
from typing import Callable

from nrm.journal.networks import head_of
from nrm.journal.stores import Tables
from nrm.server.journal_asking import Journal
from nrm.server.sessions import Session
from nrm.server.sole_owner import Owning


class Halts:
    """The networks that are halted, by their numbers, while that isn't written yet; others may hold the journal. Once
    it is, `at_end` is called."""

    def __init__(self, journal: Journal, owning: Owning, at_end: Callable[[], None]) -> None:
        self.journal, self.owning, self.at_end = journal, owning, at_end
        self.networks: set[int] = set()

    def halt(self, session: Session, row: int, why: str) -> None:
        """Has nobody answer for a network from now on. If another server has the journal, it may have written while the
        rows were read: then it is this one that ends."""
        number, epoch = session.network.number, session.network.epoch

        def found(tables: Tables) -> str | None:
            if head_of(tables, number)[0] != epoch:
                return None
            line = tables.execute("SELECT line, desk, sequence, reply FROM line WHERE network = ? AND number = ?",
                                  [number, row]).fetchone()
            return f"row {row}{', `{}` of {} {} with the reply `{}`,'.format(*line) if line else ''} {why}"

        def halting(tables: Tables) -> str | None:
            told = found(tables)
            if told is not None:
                self.journal.store.halt(number, epoch, told)
            return told

        def tell(told: str | None) -> None:
            self.networks.discard(number)
            self.owning.given_up(number)
            if told is None:
                session.network = replace(session.network, halted=None)
                self.owning.lost(session)
            else:
                session.halted(row, told)
            self.at_end()

        session.network = replace(session.network, halted=why)  # so that nobody is told otherwise meanwhile
        self.networks.add(number)
        self.owning.give_up(number)
        # whose the network is can be read while others write, so nobody is told that it is halted where it is another's
        self.journal.asker.ask(found, lambda told: tell(None) if told is None
                               else self.journal.changer.ask(halting, tell))
