"""What a server speaks TLS with: its certificate, the key of it, and how; and files that others mustn't write or read.

TLS is 1.2 or 1.3. Of 1.2 those ways alone are taken that have a new key for each connection, so that a key that is
lost later opens none of before, and that cipher and seal in one (AES-GCM, ChaCha20-Poly1305): no CBC and no SHA-1.
"""
from __future__ import annotations

import os
import shlex
import ssl
import stat

from nrm import Stop
from nrm.server.access import bytes_of_plain_file

CIPHERS = "ECDHE+AESGCM:ECDHE+CHACHA20"  # of TLS 1.2; all of 1.3 are so
WRITTEN_BY_OTHERS = stat.S_IWGRP | stat.S_IWOTH
OPEN_TO_OTHERS = WRITTEN_BY_OTHERS | stat.S_IROTH


def see_that_it_is_closed(path: str, rights: int, why: str, mend: str) -> None:
    """A Stop for a file that has one of some rights: why it mustn't have it, and what takes it away."""
    try:
        found = stat.S_IMODE(os.stat(path).st_mode)
    except OSError as fault:
        raise Stop(f"{path}: {fault.strerror}")
    if found & rights:
        raise Stop(f"{path} has the rights {found:04o}, and {why}: `chmod {mend} {shlex.quote(path)}`")


def server_context(certificate: str, key: str) -> ssl.SSLContext:
    """What a server speaks TLS with: the file of its certificate, with those above it, and the file of its key."""
    for path in (certificate, key):
        bytes_of_plain_file(path)
    see_that_it_is_closed(key, OPEN_TO_OTHERS, "those who read or write it can be taken for the server", "g-w,o-rw")
    context = ssl.SSLContext(ssl.PROTOCOL_TLS_SERVER)
    context.minimum_version = ssl.TLSVersion.TLSv1_2
    context.set_ciphers(CIPHERS)
    try:
        context.load_cert_chain(certificate, key, "")  # one that is locked is refused, and no terminal asked for a word
    except OSError:
        raise Stop(f"{certificate} and {key} are no certificate and its key, or the key is locked by a word") from None
    return context
