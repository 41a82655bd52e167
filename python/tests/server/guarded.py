"""What the tests of who may come stand on: files of desks, certificates, and servers that speak TLS."""
from __future__ import annotations

import contextlib
import re
import shutil
import socket
import ssl
import unittest
from pathlib import Path
from typing import Iterator

from harness import SECONDS
from nrm.server.access import add_desk
from server.serves import Serve, ServeTest, all_told

ADDRESS = "127.0.0.1"


def port_of(serve: Serve) -> int:
    """The port that a server says it listens on."""
    found = re.search(rf"{re.escape(ADDRESS)}:(\d+)", serve.told())
    assert found, serve.told()
    return int(found[1])


class GuardedTest(ServeTest):
    """A test of a server with a file of desks, and perhaps with a certificate."""

    @property
    def desks(self) -> Path:
        return self.folder / "desks"

    def token(self, name: str, *rights: str, is_again: bool = False) -> bytes:
        """A token of a desk, which has some rights."""
        return add_desk(str(self.desks), name, rights, is_again).encode()

    def certified(self, *names: str, at: str = "made") -> tuple[str, str]:
        """The files of a certificate for some names and of its key."""
        if not shutil.which("openssl"):
            raise unittest.SkipTest("there is no openssl (Debian has openssl)")
        certificate, key = str(self.folder / f"{at}.cert"), str(self.folder / f"{at}.key")
        subject = ",".join([f"IP:{ADDRESS}", *(f"DNS:{it}" for it in names)])
        done = self.finished("openssl", "req", "-x509", "-newkey", "ec", "-pkeyopt", "ec_paramgen_curve:prime256v1",
                             "-nodes", "-days", "2", "-subj", f"/CN={at}", "-addext", f"subjectAltName={subject}",
                             "-keyout", key, "-out", certificate)
        self.assertEqual(done.status, 0, done.err)
        return certificate, key

    @contextlib.contextmanager
    def guarded(self, journal: Path, *options: str) -> Iterator[Serve]:
        """A server that lets the desks of the file come."""
        self.desks.touch(0o600)
        with self.served(journal, "--desks", str(self.desks), *options) as serve:
            yield serve

    @contextlib.contextmanager
    def secured(self, journal: Path, *options: str) -> Iterator[Serve]:
        """A server that lets them come by TLS too."""
        certificate, key = self.certified()
        with self.guarded(journal, "--listen", f"{ADDRESS}:0", "--certificate", certificate, "--key", key,
                          *options) as serve:
            yield serve

    def trusting(self, at: str = "made") -> ssl.SSLContext:
        """What checks a server's certificate."""
        return ssl.create_default_context(cafile=str(self.folder / f"{at}.cert"))

    def plain(self, serve: Serve) -> socket.socket:
        """A connection to a server's port."""
        return socket.create_connection((ADDRESS, port_of(serve)), SECONDS)

    def by_tls(self, serve: Serve, context: ssl.SSLContext | None = None) -> ssl.SSLSocket:
        """A connection to a server's port, by TLS; an end that isn't said is a fault."""
        return (context or self.trusting()).wrap_socket(self.plain(serve), server_hostname=ADDRESS,
                                                        suppress_ragged_eofs=False)

    def told_by_tls(self, serve: Serve, lines: bytes) -> bytes:
        """What a client is told by TLS until the server ends it."""
        with self.by_tls(serve) as made:
            made.sendall(lines)
            return all_told(made)
