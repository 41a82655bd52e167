"""What is between servers and their database, as a pooler is, and drops what a session asks for as it begins."""
from __future__ import annotations

import contextlib
import socket
from databases import LOOPBACK  # of the folder tests at the top
from harness import meanwhile

STARTS, NO_CIPHER = 196_608, (80_877_103, 80_877_104)  # of a first message: a session, or a question for a cipher
OPTIONS = b"options"


class Pooler:
    """Passes connections on to the first of some places that takes one, without the settings that they begin with."""

    def __init__(self, *ports: int) -> None:
        self.ports = ports
        self.listener = socket.create_server((LOOPBACK, 0))
        self.port = int(self.listener.getsockname()[1])
        self.open: list[socket.socket] = []
        self.dropped = 0  # sessions whose settings were dropped
        meanwhile(self.take)

    def uri(self, uri: str) -> str:
        """Where a database is reached by this."""
        front, _, name = uri.rpartition("/")
        return f"{front.partition('@')[0]}@{LOOPBACK}:{self.port}/{name}"

    def take(self) -> None:
        """Takes connections until the listener is closed."""
        with contextlib.suppress(OSError):
            while True:
                meanwhile(self.serve, self.listener.accept()[0])

    def serve(self, client: socket.socket) -> None:
        """Passes one connection on."""
        self.open.append(client)
        with contextlib.suppress(OSError), client:
            first = self.without_settings(client)
            with reached(self.ports) as server:
                server.sendall(first)
                back = meanwhile(passed_on, server, client)
                passed_on(client, server)
                back.join()

    def without_settings(self, client: socket.socket) -> bytes:
        """The first message of a session, without its settings."""
        while True:
            size = exactly(client, 4)
            body = exactly(client, int.from_bytes(size, "big") - 4)
            code = int.from_bytes(body[:4], "big")
            if code not in NO_CIPHER:
                break
            client.sendall(b"N")
        if code != STARTS:
            return size + body
        words = body[4:].split(b"\0")
        pairs = [(name, value) for name, value in zip(words[::2], words[1::2]) if name]
        kept = b"".join(b"%b\0%b\0" % it for it in pairs if it[0] != OPTIONS) + b"\0"
        self.dropped += len(dict(pairs).keys() & {OPTIONS})
        return (8 + len(kept)).to_bytes(4, "big") + body[:4] + kept

    def cut(self) -> None:
        """Ends the connections that are there."""
        while self.open:
            with contextlib.suppress(OSError):
                self.open.pop().shutdown(socket.SHUT_RDWR)

    def close(self) -> None:
        """Takes no more, and ends those that are there."""
        with contextlib.suppress(OSError):
            self.listener.shutdown(socket.SHUT_RDWR)  # which wakes who waits for the next one
        self.listener.close()
        self.cut()


def reached(ports: tuple[int, ...]) -> socket.socket:
    """A connection to the first of some ports that takes one."""
    for it in ports:
        with contextlib.suppress(OSError):
            return socket.create_connection((LOOPBACK, it))
    raise OSError("nobody is there")


def exactly(connection: socket.socket, count: int) -> bytes:
    """So many bytes."""
    data = b""
    while len(data) < count:
        piece = connection.recv(count - len(data))
        if not piece:
            raise OSError("the connection has ended")
        data += piece
    return data


def passed_on(one: socket.socket, other: socket.socket) -> None:
    """Passes on what comes from one connection to the other, and its end."""
    with contextlib.suppress(OSError):
        while piece := one.recv(65_536):
            other.sendall(piece)
    for it in one, other:
        with contextlib.suppress(OSError):
            it.shutdown(socket.SHUT_RDWR)
