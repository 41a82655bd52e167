"""Who comes: the clients, and where each goes, to its network here, to another server, or away."""
from __future__ import annotations

import socket
import ssl
from typing import Callable

from nrm.journal.stores import Opened
from nrm.server.access import Access
from nrm.server.clients import Client, ClientLimits, Reception
from nrm.server.counters import Counters
from nrm.server.event_log import Events
from nrm.server.halts import Halts
from nrm.server.loop import Loop
from nrm.server.passing_on import Passed
from nrm.server.programs import Programs
from nrm.server.sessions import RESTS, Session
from nrm.server.sole_owner import Owning
from nrm.server.tokens import Tokens


class Arrivals:
    """The clients that are there, and those that are passed on to other servers."""

    def __init__(self, loop: Loop, events: Events, counters: Counters, limits: ClientLimits, programs: Programs,
                 owning: Owning, halts: Halts, is_to_send_on: bool, status: Callable[[], bytes]) -> None:
        self.loop, self.counters, self.is_to_send_on = loop, counters, is_to_send_on
        self.programs, self.owning, self.halts = programs, owning, halts
        self.tokens = Tokens(events.tell)
        self.reception = Reception(loop, events, counters, limits, self.tokens, self.enter, self.leave, status)
        self.clients: set[Client] = set()
        self.passed: set[Passed] = set()

    def let_in(self, connection: socket.socket, address: str, context: ssl.SSLContext | None) -> None:
        """Takes a client that has come; an OSError if it has left."""
        self.clients.add(Client(self.reception, connection, address, context))
        self.counters.came += 1

    def enter(self, client: Client, network: str | None, data: bytes) -> None:
        """Takes a client to the network that it named, or to the only one."""
        session = self.session_of(network)
        if session or not self.owning.when_looked(lambda: self.enter_now(client, self.session_of(network), data)):
            self.enter_now(client, session, data)

    def enter_now(self, client: Client, session: Session | None, data: bytes) -> None:
        """Takes a client to a network, if it is here; else to where it is, or away."""
        if client.is_done or not client.is_open:
            return
        client.network = session.network.name if session else None
        unknown = "network" if self.owning.may_read() else "wait"
        why = "stopping" if self.loop.is_ending else self.refusal(session) if session else unknown
        if why or not session:
            client.finish(why)
        elif elsewhere := self.owning.elsewhere(session.network):
            self.send_on(client, elsewhere)
        else:
            self.programs.enter(session, client, data)

    def send_on(self, client: Client, elsewhere: str) -> None:
        """Passes a client on to the server that has its network, or tells it to go there or to come again."""
        word, _, address = elsewhere.partition(" ")
        if not address or client.is_passed or not self.owning.may_read():
            client.finish("wait")  # who was stopped for long doesn't pass on a greeting that may be an old one
        elif self.is_to_send_on or not client.may_be_passed():
            client.finish(elsewhere)
        else:
            self.counters.passed += 1
            connection, asked = client.hand_on()
            passed = Passed(self.loop, connection, address, asked, self.passed.discard)
            if passed.is_open:
                self.passed.add(passed)

    def session_of(self, name: str | None) -> Session | None:
        """The session of a network's name, or the only one."""
        if name is None:
            names = [it.name for it in self.owning.networks()]
            name = names[0] if len(names) == 1 else ""
        if name not in self.programs.sessions:
            network = self.owning.network(name)
            return self.programs.session_for(network) if network else None
        return self.programs.sessions[name]

    def refusal(self, session: Session) -> str | None:
        """Why nobody is taken to a network, if it isn't answered: the journal is asked as long as no program runs. One
        that isn't there any more is forgotten."""
        if session.network.number in self.halts.networks:
            return "halted"
        if session.state == RESTS:
            network = self.owning.network(session.network.name)
            if not network:
                self.programs.forget(session)
                return "network"
            session.network = network
        if session.network.halted:
            return "halted"
        is_answered = self.owning.elsewhere(session.network) or self.programs.fits(session.network)
        return None if is_answered else "version"

    def is_answered(self, network: Opened) -> bool:
        """Whether this server answers for a network."""
        return self.programs.fits(network) and self.programs.owned.epoch_of(network.number) is not None

    def admit(self, access: Access) -> None:
        """Has some desks come from now on, and no others; those that mayn't any more, or mayn't do the same, are cut
        off."""
        self.tokens.access = access
        for client in [*self.clients]:
            if client.right and not access.has(client.right):
                client.leave("token")

    def leave(self, client: Client) -> None:
        """Forgets a client."""
        if client in self.clients and not client.is_told:
            self.reception.tell_of_closed(client.network, "gone")
        self.clients.discard(client)
