"""A server of a journal from beginning to end: the doors by which clients come, signals, and the status."""
from __future__ import annotations

import contextlib
import os
import signal
import socket
import ssl
from dataclasses import dataclass, field, replace
from typing import Sequence

from nrm import Stop
from nrm.journal.stores import Opened, Store
from nrm.server.access import Access
from nrm.server.clients import ClientLimits
from nrm.server.event_log import LogForm
from nrm.server.fleet import Sharing
from nrm.server.loop import READ
from nrm.server.notify import Manager
from nrm.server.programs import Answering
from nrm.server.relay import Relay
from nrm.server.sockets import Places, SocketPath, allow_files, tcp_socket
from nrm.server.tokens import HERE
from nrm.server.watched_files import Guard, Watched

SPARE_FILES = 64  # beside those of clients and programs
FILES_OF_A_PROGRAM = 2
BACKLOG = 1024  # clients that may wait to be taken
IN_A_ROUND = 32  # of those, so many are taken before others are answered
CLOSED = b"closed clients\n"  # not sent over TLS, since the handshake would come first
ENDS = (signal.SIGTERM, signal.SIGINT, signal.SIGHUP)


@dataclass(frozen=True)
class Server:
    """The journal, the program that answers, where clients come, the limits, the files that say who may come, after how
    many seconds plans are made anew, if they are, how the log is written, and how the journal is shared, if it
    can be."""
    store: Store
    answering: Answering
    places: Places
    limits: ClientLimits = field(default_factory=ClientLimits)
    guard: Guard = field(default_factory=Guard)
    every: int = 0
    log: LogForm = field(default_factory=LogForm)
    sharing: Sharing = field(default_factory=Sharing)

    def run(self) -> int:
        """Serves until this process is told to end, or the journal can't be read or written, and gives the status. A
        Stop if that shows before it serves."""
        tables = self.store.opened()
        tables.close()  # it is one
        with self.store.locked():
            try:
                return self.run_alone()
            except tables.faults as fault:
                raise Stop(f"{self.store.place}: {fault}") from None

    def run_alone(self) -> int:
        """Serves, as the only server of the journal."""
        places = self.places
        access, context = self.guard.access(), self.guard.context()
        listeners = [tcp_socket(places.listen, places.is_beyond_allowed)] if places.listen else []
        path = SocketPath(places.socket) if places.socket else None
        try:
            sharing = self.sharing
            if listeners and not sharing.address:
                sharing = replace(sharing, address=address_of(listeners[0]))
            if not sharing.name:
                sharing = replace(sharing, name=sharing.address or places.socket or "")
            relay = Relay(self.store, self.answering, self.limits, self.every, self.log, sharing)
            networks = relay.owning.networks()
            allow_files(self.limits.clients + FILES_OF_A_PROGRAM * len(networks) + SPARE_FILES)
            for it in listeners:
                it.listen(BACKLOG)  # before the path is there, by which others see that they may come
            listeners += [path.listener(places.rights)] if path else []
            self.tell_of_the_beginning(relay, networks)
            look_at_files(relay, access, context)
            return self.serve(relay, listeners, path, context)
        finally:
            if path:
                path.leave()

    def serve(self, relay: Relay, listeners: Sequence[socket.socket], path: SocketPath | None,
              context: Watched[ssl.SSLContext] | None) -> int:
        """Takes clients until it is to end. A manager of services is told when they may come, once a second that the
        loop turns, and of the end."""
        manager = Manager()
        wake_by_signals(relay, manager)
        most = self.limits.clients_of_ports() if path else self.limits.clients
        doors = [Listener(relay, it, context, most) for it in listeners]
        relay.loop.looks += [*(it.open for it in doors), lambda: manager.works(status_of(relay))]
        manager.ready(status_of(relay))
        try:
            run_until_it_is_over(relay)
        finally:
            manager.stops()
            if path:
                path.unlink()
            relay.close()
        relay.events.tell("stopped", status=relay.status)
        return relay.status

    def tell_of_the_beginning(self, relay: Relay, networks: Sequence[Opened]) -> None:
        """Tells that it has begun, and which networks aren't answered. What may keep it from that was done before, so
        that whoever can't begin tells nothing but why."""
        answers = self.answering.checksum
        relay.events.tell("started", journal=self.store.place, epoch=relay.commits.writer.epoch, networks=len(networks),
                         program=answers)
        for it in networks:
            if it.halted:
                relay.events.tell("halted", network=it.name, why=it.halted)
            elif not relay.programs.fits(it):
                relay.events.tell("version", network=it.name, began=it.program, answers=answers)


def run_until_it_is_over(relay: Relay) -> None:
    """Has the loop go on until it is over. What is wrong with the journal ends all: clients are told, and what is wrong
    once more isn't waited for."""
    while not relay.loop.is_over:
        try:
            relay.loop.run()
        except relay.journal.tables.faults as fault:
            relay.loop.is_over = relay.fault is not None
            relay.fail(fault)


def address_of(listener: socket.socket) -> str:
    """Where a socket listens, as others can reach it."""
    host, port = listener.getsockname()[:2]
    return f"[{host}]:{port}" if ":" in host else f"{host}:{port}"


def look_at_files(relay: Relay, access: Watched[Access] | None, context: Watched[ssl.SSLContext] | None) -> None:
    """Has the desks of a file come, and once a second has it seen whether that or the certificate has changed."""
    def look() -> None:
        if access and access.has_changed(relay.events.tell):
            relay.arrivals.admit(access.said)
        if context:
            context.has_changed(relay.events.tell)

    if access:
        relay.arrivals.admit(access.said)
    relay.loop.looks.append(look)


def status_of(relay: Relay) -> str:
    """What a manager of services shows of the server."""
    counters = relay.counters
    return f"{relay.count_of_clients()} clients, {counters.running()} programs, {counters.rows} lines written"


def wake_by_signals(relay: Relay, manager: Manager) -> None:
    """Has the loop end at a signal, and a manager of services know it."""
    told, tells = os.pipe2(os.O_CLOEXEC | os.O_NONBLOCK)
    signal.set_wakeup_fd(tells)
    for name in ENDS:
        signal.signal(name, lambda *_: None)

    def stop(_: int) -> None:
        os.read(told, 1)
        manager.stops()
        relay.stop()

    relay.loop.want(told, READ, stop)


class Listener:
    """A socket that listens. It takes a few clients at a time, so that a crowd of them doesn't keep others waiting."""

    def __init__(self, relay: Relay, listener: socket.socket, context: Watched[ssl.SSLContext] | None,
                 most_of_ports: int) -> None:
        self.relay, self.listener = relay, listener
        is_port = listener.family != socket.AF_UNIX
        self.context = context if is_port else None
        self.most = most_of_ports if is_port else relay.limits.clients  # that are there when it lets in no further one
        listener.setblocking(False)
        listener.listen(BACKLOG)
        name = listener.getsockname()
        relay.events.tell("listening", on=name if isinstance(name, str) else "{}:{}".format(*name))
        self.open()

    def open(self) -> None:
        """Takes clients from now on, unless the server is to end."""
        self.relay.loop.want(self.listener.fileno(), 0 if self.relay.loop.is_ending else READ, self.take)

    def take(self, _: int) -> None:
        """Takes the next clients that come, or turns them away."""
        relay = self.relay
        if relay.loop.is_ending:
            self.open()
            return
        for _ in range(IN_A_ROUND):
            try:
                connection, address = self.listener.accept()
            except (BlockingIOError, ConnectionAbortedError):
                return
            except OSError as fault:  # as of too many open files, or no memory
                relay.events.tell("waiting", why=fault.strerror)
                relay.loop.forget(self.listener.fileno())  # until the next second
                return
            if relay.count_of_clients() >= self.most:
                relay.counters.turned_away += 1
                relay.events.tell("turned-away", most=self.most)
                turn_away(connection, CLOSED if not self.context else b"")
            else:
                self.let_in(connection, address[0] if address else HERE)

    def let_in(self, connection: socket.socket, address: str) -> None:
        """Has a client at a connection, unless it is no more."""
        with contextlib.suppress(OSError):
            context = self.context.said if self.context else None
            self.relay.arrivals.let_in(connection, address, context)


def turn_away(connection: socket.socket, why: bytes) -> None:
    """Says why, if it can be said, and ends a connection."""
    with contextlib.suppress(OSError), connection:
        connection.setblocking(False)
        connection.send(why)
