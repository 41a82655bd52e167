"""A connection that speaks TLS, and what a server needs to speak it.

`Secure` has the calls that a client makes of a socket. Each goes on with the handshake first, and none waits: where
another would wait it is a BlockingIOError. Two things differ from a socket. A call that reads may have to write before
it can go on, as within the handshake: `watched` says what to watch for. And who reads less than a whole record leaves
the rest of it where no epoll sees it: so there must be room for RECORD bytes at each read.
"""
from __future__ import annotations

import contextlib
import socket
import ssl

from nrm.server.loop import READ, WRITE
from nrm.server.tls_certificates import server_context

RECORD = 16_384  # the most bytes in a record of TLS


class Secure:
    """The server's side of TLS on a connection that doesn't wait."""

    def __init__(self, connection: socket.socket, context: ssl.SSLContext) -> None:
        self.socket = context.wrap_socket(connection, server_side=True, do_handshake_on_connect=False)
        self.is_shaken = False  # whether the handshake is over
        self.is_to_write = False  # whether it must write before it can read

    def shake(self) -> None:
        """Goes on with the handshake."""
        if not self.is_shaken:
            self.socket.do_handshake()
            self.is_shaken = True

    def recv(self, size: int) -> bytes:
        """What comes, of one record; nothing at the end."""
        self.is_to_write = False
        try:
            self.shake()
            return self.socket.recv(size)
        except (ssl.SSLWantReadError, ssl.SSLWantWriteError) as wants:
            self.is_to_write = isinstance(wants, ssl.SSLWantWriteError)
            raise BlockingIOError

    def send(self, data: bytes | bytearray) -> int:
        """Sends what the connection takes of something, and gives how much that was. The rest must come again, with
        more behind it if there is more."""
        sent = 0
        try:
            self.shake()
            while sent < len(data):
                sent += self.socket.send(data[sent:sent + RECORD])
        except (ssl.SSLWantReadError, ssl.SSLWantWriteError):
            if not sent:
                raise BlockingIOError
        return sent

    def watched(self, what: int) -> int:
        """What to watch for, if it is to be read or written."""
        return what & ~READ | WRITE if self.is_to_write and what & READ else what

    def shutdown(self, how: int) -> None:
        """Says that nothing more is sent. What is read behind that isn't looked into."""
        with contextlib.suppress(OSError):
            self.socket.unwrap()
        self.socket.shutdown(how)

    def fileno(self) -> int:
        return self.socket.fileno()

    def close(self) -> None:
        self.socket.close()


def context_of(certificate: str, key: str) -> ssl.SSLContext:
    """What a server speaks TLS with on connections that don't wait."""
    context = server_context(certificate, key)
    # an end that isn't said by TLS is one too: whole lines are taken, as they are without TLS
    context.options |= ssl.OP_NO_RENEGOTIATION | getattr(ssl, "OP_IGNORE_UNEXPECTED_EOF", 0)
    return context
