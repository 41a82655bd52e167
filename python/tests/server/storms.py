"""Many more clients than may come, who come anew as soon as they are cut off, and how long one there waits.

    python3 -m server.storms PATH COUNT SECONDS

is so many clients at a socket for some seconds; the status is 1 if none was cut off.
"""
from __future__ import annotations

import contextlib
import re
import resource
import select
import socket
import sys
import time
from collections import Counter

from server.servers import answers
from server.serves import Serve


def allow_connections(count: int) -> int:
    """Lets this process have so many connections open, or as many as it may; gives how many."""
    soft, hard = resource.getrlimit(resource.RLIMIT_NOFILE)
    most = count + 100 if hard == resource.RLIM_INFINITY else min(count + 100, hard)
    if soft != resource.RLIM_INFINITY and soft < most:
        resource.setrlimit(resource.RLIMIT_NOFILE, (most, hard))
    return most - 100


def waits_of(connection: socket.socket, seconds: float) -> list[float]:
    """How long a client that is there waits for each reply, while it asks now and then for some seconds. What three
    processes, which take part in a reply, wait for the machine itself is taken off: it is three times what a pause
    takes longer than it should."""
    waits, deadline = [], time.monotonic() + seconds
    while time.monotonic() < deadline:
        begun = time.monotonic()
        assert answers(connection, b"ask NONE\n", 1) == [b"ask NONE unknown\n"], "its reply"
        answered = time.monotonic()
        time.sleep(0.02)
        waits.append(answered - begun - 3 * (time.monotonic() - answered - 0.02))
    return sorted(waits)


def answered_soon(waits: list[float]) -> None:
    """Sees that replies came within a tenth of a second; of a hundred five may be late, on a busy machine."""
    if len(waits) < 20 or waits[len(waits) * 95 // 100] > 0.1:
        raise AssertionError(f"each reply within a tenth of a second, and not {len(waits)} replies, the last within "
                             f"{waits[-5:]}")


def told_now_and_then(serve: Serve, since: float) -> None:
    """Sees that what is told on standard error is no more than a line a second of each kind, and no traceback."""
    told, seconds = serve.told(), time.monotonic() - since
    [(kind, count)] = Counter(re.sub(r"^\S+ | times=\d+", "", it) for it in told.splitlines()).most_common(1)
    if "Traceback" in told or count > seconds + 2:
        raise AssertionError(f"a line a second in {seconds:.1f} seconds, and not {count} of {kind!r}: {told[:600]!r}")


def storm(path: str, count: int, seconds: float) -> bool:
    """So many clients, each of which connects anew as soon as it is cut off, for some seconds. Gives 1 if none was."""
    poll, there, tries, deadline = select.poll(), {}, 0, time.monotonic() + seconds
    while time.monotonic() < deadline:
        for _ in range(min(20, count - len(there))):
            made = socket.socket(socket.AF_UNIX)
            made.setblocking(False)
            try:
                made.connect(path)
            except OSError:
                made.close()
                break
            there[made.fileno()] = made
            poll.register(made, select.POLLIN)
        for number, _ in poll.poll(2):
            with contextlib.suppress(ConnectionError):
                there[number].recv(100)
            poll.unregister(number)
            there.pop(number).close()
            tries += 1
    return not tries


if __name__ == "__main__":
    sys.exit(storm(sys.argv[1], int(sys.argv[2]), float(sys.argv[3])))
