"""A desk that has come to a server which hasn't its network: its connection is passed on to the one that has, byte for
byte, and what is answered there comes back.
"""
from __future__ import annotations

import contextlib
import socket
from typing import Callable

from nrm.desks_frames import MOST
from nrm.server.loop import READ, WRITE, Loop

PASSED = b"passed\n"  # the line that a server sends before what it passes on: that isn't passed on once more
PIECE = 65_536
TO_CONNECT = 3.0  # the seconds for reaching the other server
CLOSED = b"closed wait\n"
USER_TIMEOUT = 18  # the number of Linux for how long what was sent may go unheard, in milliseconds
# of the connection to the owner: what is small is sent at once, and a machine that is gone is missed within seconds
OPTIONS = ((socket.TCP_NODELAY, 1), (socket.TCP_KEEPIDLE, 3), (socket.TCP_KEEPINTVL, 1), (socket.TCP_KEEPCNT, 3),
           (USER_TIMEOUT, 5000))


class End:
    """One of the two connections, and what waits to be written to it."""

    def __init__(self, connection: socket.socket) -> None:
        self.socket, self.file = connection, connection.fileno()
        self.out = bytearray()
        self.has_ended = False  # nothing more comes from it
        self.is_shut = False  # nothing more is written to it

    def send(self) -> None:
        """Writes what it takes."""
        with contextlib.suppress(BlockingIOError):
            while self.out:
                del self.out[:self.socket.send(self.out)]


class Passed:
    """A desk's connection, and the one to the owner of its network. What one side doesn't take isn't read from the
    other, so that the owner sees who doesn't take replies."""

    def __init__(self, loop: Loop, desk: socket.socket, address: str, data: bytes,
                 at_end: Callable[[Passed], None]) -> None:
        self.loop, self.at_end, self.is_open = loop, at_end, True
        self.is_reached = False
        self.desk = End(desk)
        host, _, port = address.rpartition(":")
        family = socket.AF_INET6 if host.startswith("[") else socket.AF_INET
        owner = socket.socket(family)
        owner.setblocking(False)
        owner.setsockopt(socket.SOL_SOCKET, socket.SO_KEEPALIVE, 1)
        for option, value in OPTIONS:
            owner.setsockopt(socket.IPPROTO_TCP, option, value)
        self.owner = End(owner)
        self.owner.out += PASSED + data
        loop.call_at(loop.now + TO_CONNECT, self.see_that_it_is_reached)
        try:
            owner.connect_ex((host.strip("[]"), int(port)))
        except OSError:  # the name of the host isn't known
            self.fail()
            return
        self.watch()

    def see_that_it_is_reached(self) -> None:
        """Gives up a server that doesn't answer at all."""
        if self.is_open and not self.is_reached:
            self.fail()

    def fail(self) -> None:
        """The owner can't be reached: the desk is told to come again."""
        with contextlib.suppress(OSError):
            self.desk.socket.send(CLOSED)
        self.close()

    def watch(self) -> None:
        """Has the loop call when something can be read or written."""
        for one, other in (self.desk, self.owner), (self.owner, self.desk):
            is_to_read = self.is_reached and not one.has_ended and len(other.out) < MOST
            is_to_write = bool(one.out) or one is self.owner and not self.is_reached
            self.loop.want(one.file, (READ if is_to_read else 0) | (WRITE if is_to_write else 0), self.move)

    def move(self, _: int) -> None:
        """Moves what has come, in both directions."""
        if not self.is_open:
            return
        if not self.is_reached:
            if self.owner.socket.getsockopt(socket.SOL_SOCKET, socket.SO_ERROR):
                self.fail()
                return
            self.is_reached = True
        try:
            self.pull(self.desk, self.owner)
            self.pull(self.owner, self.desk)
        except OSError:
            self.close()
            return
        if self.owner.has_ended and not self.desk.out:
            self.close()
        else:
            self.watch()

    def pull(self, one: End, other: End) -> None:
        """Moves what has come on a connection to the other."""
        if not one.has_ended and len(other.out) < MOST:
            with contextlib.suppress(BlockingIOError):
                piece = one.socket.recv(PIECE)
                one.has_ended = not piece
                other.out += piece
        other.send()
        if one.has_ended and not other.out and not other.is_shut:
            other.is_shut = True
            other.socket.shutdown(socket.SHUT_WR)

    def close(self) -> None:
        """Ends both."""
        if not self.is_open:
            return
        self.is_open = False
        for it in self.desk, self.owner:
            self.loop.forget(it.file)
            it.socket.close()
        self.at_end(self)
