"""Serves a page, metrics, health and a door over HTTP, beside a server of many desks.

    nrm-tools web JOURNAL --socket PATH --listen HOST:PORT [--host NAME...] [--page] [--door] [OPTION...]

JOURNAL is the journal of a running `nrm-tools serve`, which is read and never written, and PATH the server's Unix
socket. HOST:PORT must be in this machine's loopback range unless --beyond-this-machine is given. A request is answered
only if its `Host` is `localhost`, an address of that range, the address that it came to, or a NAME of --host. This is a
process of its own: it can't hold up the server, and may do there what a client of the socket may do.

Everything but health and metrics is off by default. `/healthz` answers `ok`, or status 503 and what is wrong, and
`/metrics` is for Prometheus, with Debian's python3-prometheus-client. --page enables a page of all networks and of
each, up to date within a second, with Debian's python3-jinja2. With --why too, the page of a line can show what
`nrm-tools why` prints of it: that runs when somebody asks, one at a time and for at most 30 seconds, with the programs
that it finds. --door enables the door: a desk can send lines by HTTP, each with a number of its own, so that it is
carried out once. `/openapi.json` describes all paths for programs.

--token names a file with the token by which this process reads; without it the process reads under a desk's name of its
own. A token that comes with a line goes to the server. --certificate and --key make it HTTPS. A request has at most
4,096 bytes, and 16,384 before these, and takes at most --slow seconds; there are at most 200 connections at a time.
With --tokens, and with --beyond-this-machine, each line through the door needs a token.

SIGTERM, SIGINT and SIGHUP stop it. The status is 0, 1 if it couldn't start, and 2 for a usage error.
"""
from __future__ import annotations

import argparse
import re
from typing import Sequence

from nrm.commands.running import parser, refused_word
from nrm.commands.serve_words import seconds, token_in
from nrm.web.http_listening import SECONDS, Listening
from nrm.web.routes import WebSettings
from nrm.web.web_run import serve


def host(text: str) -> str:
    """The name of a host, or its address, without a port."""
    if not re.fullmatch(r"[0-9A-Za-z_.-]{1,253}|\[?[0-9A-Fa-f:.]{2,45}\]?", text):
        raise refused_word(text, "the name or address of a host, without a port")
    return text.strip("[]")


def words_of(given: Sequence[str]) -> tuple[argparse.ArgumentParser, argparse.Namespace]:
    """What is asked."""
    words = parser("web", __doc__)
    words.add_argument("journal", metavar="JOURNAL")
    words.add_argument("--socket", metavar="PATH", required=True, help="the server's Unix socket")
    words.add_argument("--listen", metavar="HOST:PORT", required=True,
                       help="the address to listen on; port 0 is a free one")
    words.add_argument("--beyond-this-machine", action="store_true", help="let --listen be beyond the loopback range")
    words.add_argument("--host", type=host, action="append", default=[], metavar="NAME",
                       help="a name under which clients reach it; may be given several times")
    words.add_argument("--page", action="store_true", help="enable the page")
    words.add_argument("--why", action="store_true", help="let the page explain a line, if somebody asks")
    words.add_argument("--door", action="store_true", help="enable the door, through which desks send lines")
    words.add_argument("--tokens", action="store_true",
                       help="require a token with each line, as --beyond-this-machine does")
    words.add_argument("--token", metavar="FILE", help="the file with the token by which this process reads")
    words.add_argument("--certificate", metavar="FILE", help="the certificate for HTTPS")
    words.add_argument("--key", metavar="FILE", help="the key of the certificate")
    words.add_argument("--answer", type=seconds, default=WebSettings.seconds, metavar="SECONDS",
                       help="how long to wait for the server; default %(default)s")
    words.add_argument("--slow", type=seconds, default=SECONDS, metavar="SECONDS",
                       help="how long a request, or taking its answer, may take; default %(default)s")
    return words, words.parse_args(given)


def run(given: Sequence[str]) -> int:
    """Serves until it is told to end, and gives the status."""
    words, asked = words_of(given)
    if "" in (asked.journal, asked.socket):
        words.error("JOURNAL and --socket can't be empty")
    if asked.why and not asked.page:
        words.error("--why can be used with --page only")
    if (asked.certificate is None) != (asked.key is None):
        words.error("--certificate and --key must be given together")
    token = token_in(asked.token) if asked.token else None
    settings = WebSettings(asked.journal, asked.socket, token, asked.page, asked.door,
                           asked.tokens or asked.beyond_this_machine, asked.answer, asked.why)
    listening = Listening(asked.listen, asked.beyond_this_machine, asked.certificate, asked.key, seconds=asked.slow,
                          hosts=tuple(asked.host))
    return serve(settings, listening)
