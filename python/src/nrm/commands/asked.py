"""Makes the demand rows of a network file from the streams of past departures: what was asked for, sold or not.

    nrm-tools asked NETWORK STREAM... [--add] [--last N] > NEW

Each STREAM has the lines that the session of one departure was given, and becomes one history, in the order in which
the streams are named. For a network of a journal, `nrm-tools journal look JOURNAL NETWORK | cut -f5` writes the stream.
A line `book PRODUCT SEATS` is a request. It counts in the period of the last `reoptimise K` before it, or in period 1
if there is none. Refused requests count like sold ones, so nothing has to be estimated. The output is NETWORK with this
demand instead of its own. With --add the histories of NETWORK stay, before the new ones. With --last N only the N
latest of all histories are written; a file takes 32. So one command after each departure makes the network of the next.

WHAT IS READ. Standard error says of each stream how many requests it has, and what was ignored: products that NETWORK
doesn't have, lines that no session takes, and a `reoptimise` that goes back or beyond the last period.

WHAT A STREAM DOESN'T SHOW. A customer who was refused and asks again, for another product or for fewer seats, counts
each time. A customer who sees that a product is closed, and doesn't ask, doesn't count. If your desks show what is
open, treat what they send as bookings with closures, and use `nrm-tools demand`. Cancelled bookings count as requests.
"""
from __future__ import annotations

from typing import Sequence

from nrm import Stop, said
from nrm.commands import running
from nrm.commands.running import parser, whole_number
from nrm.limits import MOST_HISTORIES
from nrm.network import Network, text_of
from nrm.records.stream_requests import asked_in, histories_in, histories_of, rows_with


def run(given: Sequence[str]) -> int:
    """Writes the network with what was asked for in streams, and tells what was read."""
    words = parser("asked", __doc__)
    words.add_argument("network")
    words.add_argument("streams", nargs="+", metavar="STREAM")
    words.add_argument("--add", action="store_true")
    words.add_argument("--last", metavar="N", type=whole_number)
    asked = words.parse_args(given)
    if asked.last is not None and not 1 <= asked.last <= MOST_HISTORIES:
        raise Stop(f"--last {asked.last}: a network file takes 1 to {MOST_HISTORIES} histories")
    network = Network.read(asked.network)
    streams = [asked_in(path, network) for path in asked.streams]
    for path, it in zip(asked.streams, streams):
        for line in it.told(path):
            running.tell("asked", line)
        if not it.requests:
            raise Stop(f"{said(path)} asks for no product of {said(asked.network)}. Is it a stream?")
    histories = [*(histories_in(network) if asked.add else []), *histories_of(network, streams)]
    print(text_of(rows_with(network, histories[-(asked.last or len(histories)):])), end="")
    return 0
