"""Prints what a server of many desks says of itself: clients, commits, programs, and each network.

    nrm-tools status PLACE [--token FILE] [--ca FILE] [--seconds SECONDS]

PLACE is the socket of `nrm-tools serve`, or its HOST:PORT; write `./` before a path that looks like this. If desks have
tokens, a port needs the token of a desk with the right `look`, in the file of --token, and TLS: --ca has the
certificates with which the server's is checked. The server itself answers, without asking a program. The answer is
printed as it came: each line has a kind, and after it pairs of a name and a value.

    server         version, program (its SHA-256), started (in UTC), epoch, journal-bytes,
                   time-jumps, stopping
    clients        now, most that may be, ever, turned-away, unread (dropped, since they didn't take their replies),
                   bytes-in, bytes-out
    closed         why clients were closed, and how many; a line for each reason
    commits        count, seconds of all, longest, rows written, waiting (rows not written yet), failed
    commit-times   seconds, and how many commits took at most so long
    programs       now, begun, ended
    network        its name, mode, state (rests, waits, begins, answers, ends, follows; or version, where nobody is taken to it
                   since it began with another program), clients, lines, halted, memory (replies)

Counts are since the server started. If no status comes within SECONDS, 10 by default, or if the answer isn't a status,
the command says so and its status is 1.
"""
from __future__ import annotations

import re
import ssl
from typing import Sequence

from nrm import Stop
from nrm.commands.running import parser
from nrm.commands.serve_words import seconds, token_in
from nrm.server.status_text import NoStatus, Place, StrangeStatus, asked_text, status_of

SECONDS = 10.0


def place_of(text: str) -> Place:
    """The pair of HOST:PORT, or a path."""
    found = re.fullmatch(r"([^/]+):([0-9]{1,5})", text)
    return (found[1].strip("[]"), int(found[2])) if found else text


def tls_of(path: str) -> ssl.SSLContext:
    """What checks a server by the certificates of a file."""
    try:
        return ssl.create_default_context(cafile=path)
    except OSError as fault:
        raise Stop(f"{path} has no certificates: {fault.strerror}")


def run(given: Sequence[str]) -> int:
    """Prints the status."""
    words = parser("status", __doc__)
    words.add_argument("place", metavar="PLACE")
    words.add_argument("--token", metavar="FILE", help="the file with the token of a desk")
    words.add_argument("--ca", metavar="FILE",
                       help="use TLS, and check the server's certificate with those of this file")
    words.add_argument("--seconds", type=seconds, default=SECONDS, metavar="SECONDS",
                       help="how long to wait for an answer; default %(default)s")
    asked = words.parse_args(given)
    place = place_of(asked.place)
    if asked.ca and isinstance(place, str):
        words.error("--ca can be used with HOST:PORT only")
    token, tls = token_in(asked.token) if asked.token else None, tls_of(asked.ca) if asked.ca else None
    try:
        text = asked_text(place, asked.seconds, token, tls)
        status_of(text)
    except StrangeStatus as why:
        raise Stop(f"the answer of {asked.place} isn't a status: {why}")
    except NoStatus as why:
        raise Stop(str(why))
    print(text, end="")
    return 0
