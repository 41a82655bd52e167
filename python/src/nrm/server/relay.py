"""The server itself: who comes, which program runs and what is written, joined by one loop, and how all of it ends."""
from __future__ import annotations

from nrm import Stop
from nrm.journal.stores import Fenced, Gone, Named, Store
from nrm.server.arrivals import Arrivals
from nrm.server.clients import ClientLimits
from nrm.server.clock import Clock
from nrm.server.clock_jumps import Jumps
from nrm.server.counters import Counters
from nrm.server.event_log import Events, LogForm
from nrm.server.fleet import Fleet, Sharing
from nrm.server.group_commit import GroupCommit
from nrm.server.halts import Halts
from nrm.server.journal_asking import Journal
from nrm.server.loop import Loop
from nrm.server.programs import Answering, Owned, Programs
from nrm.server.sole_owner import Owning, Sole
from nrm.server.status_now import StatusWriter

JOURNAL_FAULT = 74


class Relay:
    """Puts the parts one above the other: what is written, which program runs, whose each network is, and who comes. A
    part calls one above it by a function that it was given."""

    def __init__(self, store: Store, answering: Answering, limits: ClientLimits, every: int = 0,
                 log: LogForm = LogForm(), sharing: Sharing = Sharing()) -> None:
        self.limits, self.loop, self.counters = limits, Loop(), Counters()
        self.events, self.stops_since = Events(self.loop, log), self.loop.now
        self.fault: Exception | None = None
        self.status = 0
        writer = store.writer(answering.checksum)
        self.journal = Journal(store, self.loop, self.events, self.fail)
        self.commits = GroupCommit(self.loop, self.events, self.counters, writer, limits.slow, self.fail)
        self.programs = Programs(self.loop, self.events, self.counters, limits, answering, self.journal,
                                 Owned(None if store.is_shared else writer.epoch), self.commits,
                                 at_halt=lambda *it: self.halts.halt(*it), at_loss=lambda *it: self.owning.lost(*it),
                                 at_unfit=lambda: self.owning.unfit(), at_end=self.end_if_done)
        self.owning: Owning
        if store.is_shared:
            named = Named(sharing.name, sharing.address, answering.checksum)
            self.owning = Fleet(self.journal, self.programs, named, sharing, self.stop, self.fail)
        else:
            self.owning = Sole(store, self.journal.tables, writer.epoch, self.fail)
        self.halts = Halts(self.journal, self.owning, self.end_if_done)
        self.arrivals = Arrivals(self.loop, self.events, self.counters, limits, self.programs, self.owning, self.halts,
                                 sharing.is_to_send_on, self.status_text)
        self.loop.looks += [self.look, Jumps(self.events, self.counters).look, self.arrivals.tokens.tell_of_refused]
        self.clock = Clock(self.loop, self.events, self.journal.tables, self.commits, self.arrivals, every)
        self.teller = StatusWriter(self.owning, self.programs, writer.epoch, limits.clients)

    # Once a second

    def look(self) -> None:
        """Who is to be cut off, which program is silent or isn't needed, and what is to be told?"""
        self.commits.look()
        for client in [*self.arrivals.clients]:
            client.look()
        self.programs.look()
        self.look_at_rights()
        if self.loop.is_ending:
            self.end_if_done()
            if self.loop.now - self.stops_since > self.limits.slow:
                self.loop.is_over = True

    def look_at_rights(self) -> None:
        """Ends a program whose network has other rights now, while no line waits for a reply: else the next commit
        shows that, and what was written is answered before."""
        for session in self.programs.sessions.values():
            if session.is_idle() and self.owning.has_changed(session.network):
                self.owning.lost(session)

    # What is told

    def count_of_clients(self) -> int:
        """How many are there, but for the clock's own."""
        return len(self.arrivals.clients) + len(self.arrivals.passed) - len(self.clock.asked)

    def status_text(self) -> bytes:
        """What is answered to a line `status`."""
        told = self.teller.status(self.count_of_clients(), self.commits.count_of_rows(), self.loop.is_ending)
        return told.text().encode()

    # How all ends

    def stop(self) -> None:
        """Takes no more lines, and ends once those that were taken are answered. Where other servers are, they take
        the networks first."""
        if not self.loop.is_ending and self.owning.hands_over():
            return
        if not self.loop.is_ending:
            self.loop.is_ending, self.stops_since = True, self.loop.now
            self.events.tell("stopping")
            for client in [*self.arrivals.clients]:
                client.leave("stopping")
        self.end_if_done()

    def fail(self, fault: Exception) -> None:
        """Nothing more can be written, or nobody knows what was: all ends, and the next server sees what is there."""
        if self.fault:
            return
        self.fault, self.status = fault, fault.status if isinstance(fault, Stop) else JOURNAL_FAULT
        if isinstance(fault, Stop):
            self.events.tell("lost", why=None if isinstance(fault, Fenced) else str(fault))
        else:
            self.events.tell("journal-fault", why=f"{self.journal.store.place}: {fault}")
        self.loop.is_ending, self.stops_since, self.commits.is_over = True, self.loop.now, True
        for session in self.programs.sessions.values():
            session.kill()
        for client in [*self.arrivals.clients]:
            client.finish("journal")
        self.end_if_done()

    def end_if_done(self) -> None:
        """Ends the programs that nobody asks any more, and then the loop."""
        if self.loop.is_ending and self.programs.have_ended() and not (self.arrivals.clients or self.halts.networks):
            self.loop.is_over = True

    def close(self) -> None:
        """Ends what is left, and tells what was counted."""
        self.events.close()
        for session in self.programs.sessions.values():
            session.kill()
        if not isinstance(self.fault, Gone):  # the last to close them takes away whatever log has the journal's name
            self.commits.end()
        for it in [*self.arrivals.passed]:
            it.close()
        self.owning.close()
        self.journal.close()
        self.commits.close()
