"""What the server answers to a line `status`: what was counted, and what is now."""
from __future__ import annotations

import time
from typing import Sequence

from nrm import __version__
from nrm.journal.stores import Opened
from nrm.server.event_log import time_text
from nrm.server.programs import Programs
from nrm.server.sessions import RESTS, Session
from nrm.server.sole_owner import Owning
from nrm.server.status_text import (STATES, UNFIT, ClientStatus, CommitStatus, NetworkStatus, ProgramStatus,
                                    ServerStatus, Status)

SECOND = 1.0
NOBODY = "none"  # the owner of a network that no server has


class StatusWriter:
    """Makes the answers. The journal is asked for its networks, and for its size, at most once a second."""

    def __init__(self, owning: Owning, programs: Programs, epoch: int, most: int) -> None:
        self.owning, self.programs, self.epoch, self.most = owning, programs, epoch, most
        self.started = time_text(time.time_ns() // 1_000_000)
        self.looked: float | None = None
        self.networks: Sequence[Opened] = ()
        self.size = 0

    def status(self, clients: int, waiting: int, is_stopping: bool) -> Status:
        """The status at this moment, with the clients that are there, and the rows that wait to be written."""
        self.look()
        programs, counted = self.programs, self.programs.counters
        fleet, shares = self.owning.fleet()
        owned = {it.network for it in shares if it.owner != NOBODY}
        return Status(
            ServerStatus(__version__.lstrip("v"), programs.answering.checksum, self.started, self.epoch, self.size,
                         counted.jumps, is_stopping),
            ClientStatus(clients, self.most, counted.came, counted.turned_away, counted.unread, counted.bytes_in,
                         counted.bytes_out),
            {why.replace(" ", "-"): count for why, count in counted.closed.items()},
            CommitStatus(counted.commits, counted.seconds, counted.longest, counted.rows, waiting, counted.failed),
            counted.within(), ProgramStatus(counted.running(), counted.begun, counted.ended),
            tuple(status_of(it, programs.sessions.get(it.name), programs.fits(it) or it.name in owned)
                  for it in self.networks), fleet, shares)

    def look(self) -> None:
        """Asks the journal, unless that was done within the last second."""
        now = self.programs.loop.now
        if self.looked is None or now - self.looked >= SECOND:
            self.looked, self.networks = now, self.owning.networks()
            self.size = self.owning.size()


def status_of(network: Opened, session: Session | None, fits: bool = True) -> NetworkStatus:
    """What is told of a network, which a server may answer for or not, and of its session if somebody came to it."""
    rests = STATES[RESTS] if fits or network.is_ended else UNFIT
    if not session:
        return NetworkStatus(network.name, network.mode, rests, 0, network.lines, network.halted is not None, 0)
    lines = session.lines if session.process else network.lines
    is_halted = (session.network.halted or network.halted) is not None
    state = rests if session.state == RESTS else STATES[session.state]
    return NetworkStatus(network.name, network.mode, state, len(session.places) + len(session.coming),
                         lines, is_halted, session.memory)
