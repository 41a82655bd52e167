"""The clients: how much of each the program has and hasn't used, what waits to be sent to it, and when it is cut off.
"""
from __future__ import annotations

import re
import socket
import ssl
import weakref
from dataclasses import dataclass
from typing import Callable

from nrm.desks_frames import MOST, WINDOW
from nrm.server.access import Right
from nrm.server.counters import Counters
from nrm.server.event_log import Events
from nrm.server.loop import LEFT, READ, WRITE, Loop
from nrm.server.passing_on import PASSED
from nrm.server.tls import RECORD, Secure
from nrm.server.tokens import FRONT, HERE, Tokens

PIECE = 16_384  # bytes that are read at a time
LONGEST = 1000  # of a first line that names a network
NAMES_A_NETWORK = re.compile(rb"desk [a-z]")  # as no greeting of a desk alone does
ASKS_STATUS = re.compile(rb"status\r?\n")
FRONTS = (b"desk a", b"status\n", b"status\r\n")  # as long as what came is one of these, more must come
LOOK = "look"  # the right that one needs who gave a token and asks for the status


@dataclass(frozen=True)
class ClientLimits:
    """What ends waiting, and what bounds memory.

    clients  the most at a time
    unsent   the bytes of replies that a client hasn't taken
    slow     the seconds for a line once it has begun, for saying who it is, for taking replies, and for the end
    idle     those for a next line
    answer   those for a program's next frame before it is ended
    linger   those for which a program without clients stays
    """
    clients: int = 1000
    unsent: int = 1_048_576
    slow: float = 30
    idle: float = 3600
    answer: float = 3600
    linger: float = 600

    def clients_of_ports(self) -> int:
        """The most at a time where a further one comes by a port: the last tenth is for those of the Unix socket."""
        return max(1, self.clients - max(1, self.clients // 10))


@dataclass(frozen=True)
class Reception:
    """What all clients of a server have in common, and what each calls.

    enter   once it has named its network, or none for the only one, with what came so far
    leave   once it is no more
    status  for what is answered to a line `status`
    """
    loop: Loop
    events: Events
    counters: Counters
    limits: ClientLimits
    tokens: Tokens
    enter: Callable[[Client, str | None, bytes], None]
    leave: Callable[[Client], None]
    status: Callable[[], bytes]

    def tell_of_closed(self, network: str | None, why: str) -> None:
        """Counts and tells why a client is closed."""
        self.counters.closed[why] += 1
        self.events.tell("closed", reason=why, network=network)


class Client:
    """A connection. The bytes that the program has of it and hasn't used are counted, and those behind the last line
    feed; nothing else is looked at once its desk and its network are known."""
    is_passed = False  # by another server, so that it isn't passed on once more
    asked = first = b""  # what came until its network was known, as it came; and what of it is still to be looked at
    right: Right | None = None  # by its token
    secure: Secure | None = None
    may_give_token = True
    is_refused = False  # the answer to its wrong token waits
    network: str | None = None  # its name, once it is known
    asks_status = is_told = False  # whether that it is closed was told
    place, unused, tail = -1, 0, 0  # no place yet
    is_waiting = False  # for its network's program
    is_let_in = is_full = False  # at a place there, and whether that program has so much that no more is read
    give: Callable[[Client, bytes], None]  # what came to the program
    part: Callable[[Client], None]  # from the program, which hears that the client is gone
    is_open = is_heard = True
    has_ended = is_parting = is_done = False
    why: str | None = None  # it is cut off, once its lines are answered
    full_since: float | None = None

    def __init__(self, reception: Reception, connection: socket.socket, address: str = HERE,
                 context: ssl.SSLContext | None = None) -> None:
        connection.setblocking(False)
        if connection.family != socket.AF_UNIX:
            connection.setsockopt(socket.IPPROTO_TCP, socket.TCP_NODELAY, 1)
        self.reception, self.loop, self.counters = reception, reception.loop, reception.counters
        self.address, self.out = address, bytearray()
        self.secure = Secure(connection, context) if context else None
        self.socket = self.secure or connection
        self.file = self.socket.fileno()
        self.least = RECORD if context else 1  # the bytes for which there must be room when it is read
        self.is_to_give_token = reception.tokens.access is not None and address != HERE
        # since when its time runs: from the connection until it is somebody, then from where a line begins or ends
        self.since = self.loop.now
        self.watch()

    # What comes

    def watch(self) -> None:
        """Has the loop call when there is something to do: no more is read while too much waits somewhere."""
        if not self.is_open:
            return
        self.is_heard = not (self.has_ended or self.why or self.is_done or self.is_waiting or len(self.out) > MOST
                             or self.unused > WINDOW - self.least or self.is_let_in and self.is_full
                             or self.asks_status and self.out)
        what = (READ if self.is_heard else 0) | (WRITE if self.out else 0)
        what = self.secure.watched(what) if self.secure else what
        if self.is_refused and not self.is_done:  # one that leaves while its answer waits keeps no place
            self.loop.want(self.file, LEFT, lambda _: self.vanish())
        else:
            self.loop.want(self.file, what, self.read if what == READ else self.ready)

    def ready(self, what: int) -> None:
        """Reads and sends what can be."""
        if self.out and what != READ:
            self.send()
            if self.asks_status and self.first:
                self.tell_status()
        is_to_read = what != WRITE or self.secure and self.secure.is_to_write
        if self.is_open and is_to_read and not (self.has_ended or self.is_done):
            self.read(what)

    def read(self, what: int) -> None:
        """Reads a piece, as long as the program may have more of this client."""
        room = WINDOW - self.unused
        if room < self.least:
            return
        try:
            piece = self.socket.recv(room if room < PIECE else PIECE)
        except BlockingIOError:
            self.watch()
            return
        except OSError:
            self.vanish()
            return
        self.counters.bytes_in += len(piece)
        if self.secure:
            self.watch()
        if piece and self.is_let_in:
            self.pass_on(piece)
        elif piece:
            self.choose(piece)
        else:
            self.end()

    def choose(self, piece: bytes) -> None:
        """Finds the desk by the first line, if that has a token, and the network by the next one, if that names one, or
        by its first bytes."""
        if not self.first and not self.is_to_give_token:
            self.since = self.loop.now
        self.first += piece
        if not self.is_passed and PASSED[:len(self.first)] == self.first[:len(PASSED)]:
            self.is_passed = len(self.first) >= len(PASSED)
            self.first = self.first[len(PASSED):] if self.is_passed else self.first
            if not self.is_passed or not self.first:
                return
        if self.may_give_token and not self.is_without_token():
            return
        if self.asks_status or ASKS_STATUS.match(self.first):
            self.ask_status()
            return
        if not NAMES_A_NETWORK.match(self.first):
            if not any(it.startswith(self.first) for it in FRONTS):
                self.enter(None, self.first)
            return
        line, feed, rest = self.first.partition(b"\n")
        if feed:
            _, network, *words = line.split(b" ")
            self.enter(network.decode("latin-1"), b" ".join([b"desk", *words]) + b"\n" + rest)
        elif len(line) >= LONGEST:
            self.finish("long")

    def ask_status(self) -> None:
        """Is told the status from now on, and nothing else, if it may look."""
        self.asks_status = True
        if self.right and LOOK not in self.right.rights:
            self.finish("token")
        else:
            self.tell_status()

    def tell_status(self) -> None:
        """Answers each line `status`, as soon as what was told before it is taken. Another line ends the connection."""
        while self.first and not (self.out or self.is_done) and self.is_open:
            if ASKS_STATUS.match(self.first):
                self.first = self.first.partition(b"\n")[2]
                self.put(self.reception.status())
            elif any(it.startswith(self.first) for it in FRONTS[1:]):
                return
            else:
                self.finish("status")

    def is_without_token(self) -> bool:
        """Whether the first line is another than one with a token, and may be; that one is taken once it is whole."""
        if FRONT[:len(self.first)] == self.first[:len(FRONT)]:
            line, feed, rest = self.first.partition(b"\n")
            if len(line) >= LONGEST:
                self.finish("long")
            elif feed:
                self.first = rest
                self.give_token(line[len(FRONT):])
            return False
        if self.is_to_give_token:
            self.finish("token")
            return False
        self.may_give_token = False
        return True

    def give_token(self, token: bytes) -> None:
        """Has a token looked up. A wrong one may be answered later: nothing is read until then, and nothing of a client
        that has left is kept for it."""
        self.is_waiting, self.may_give_token = True, False
        self.right, wait = self.reception.tokens.asked(self.address, token)
        if wait:
            self.is_refused = True
            answer = weakref.WeakMethod(self.answer_token)
            self.loop.call_at(self.loop.now + wait, lambda: call() if (call := answer()) else None)
            self.watch()
        else:
            self.answer_token()

    def answer_token(self) -> None:
        """Says which desk it is, and goes on with what came behind; or ends it."""
        if not self.is_open or self.is_done:
            return
        self.is_waiting = self.is_to_give_token = self.is_refused = False
        self.since = self.loop.now
        if not self.right:
            self.finish("token")
            return
        self.put(f"token {self.right.name}\n".encode())
        rest, self.first = self.first, b""
        if rest and self.is_open:
            self.choose(rest)
        self.watch()

    def enter(self, network: str | None, data: bytes) -> None:
        """Comes to a network, whose program may still have to begin, or which another server has."""
        self.asked, self.first = self.first, b""
        self.is_waiting = True
        self.reception.enter(self, network, data)
        self.watch()

    def may_be_passed(self) -> bool:
        """Whether another server can take it as it is: it is no desk by a token, and speaks no TLS."""
        return self.secure is None and self.right is None

    def hand_on(self) -> tuple[socket.socket, bytes]:
        """Its connection and what came on it, which aren't this client's any more."""
        assert isinstance(self.socket, socket.socket)
        self.loop.forget(self.file)
        self.is_open, self.is_waiting, self.is_done, self.is_told = False, False, True, True
        self.reception.leave(self)
        return self.socket, self.asked

    def let_in(self, place: int, give: Callable[[Client, bytes], None], part: Callable[[Client], None],
               data: bytes) -> None:
        """Is at a place of its network's program, which gets what came so far."""
        self.place, self.give, self.part, self.is_let_in, self.is_waiting = place, give, part, True, False
        for at in range(0, len(data), MOST):
            self.pass_on(data[at:at + MOST])
        if self.has_ended:
            self.end()
        self.watch()

    def pass_on(self, piece: bytes) -> None:
        """Gives the program a piece. Bytes within a line don't give it more time."""
        size, last = len(piece), piece.rfind(b"\n")
        if last >= 0 or not self.tail:
            self.since = self.loop.now
        self.unused += size
        self.tail = size - 1 - last if last >= 0 else self.tail + size
        self.give(self, piece)
        if self.unused > WINDOW - self.least:
            self.watch()

    def end(self) -> None:
        """Nothing more comes: half a line at the end isn't taken."""
        self.has_ended = True
        if not self.is_let_in and not self.is_waiting:
            self.finish(None)
        else:
            self.part_if_used()
            self.watch()

    # What is sent

    def used(self, count: int, data: bytes) -> None:
        """The program has used bytes of this client, and answers."""
        self.unused -= count
        if data and self.is_open and not self.is_done:
            self.put(data)
        if self.has_ended or self.why:
            self.part_if_used()
        elif not self.is_heard:
            self.watch()

    def put(self, data: bytes) -> None:
        """Sends something, at once if nothing waits before it."""
        if not self.out:
            try:
                sent = self.socket.send(data)
            except BlockingIOError:
                sent = 0
            except OSError:
                self.vanish()
                return
            self.counters.bytes_out += sent
            if sent == len(data):
                return
            data = data[sent:]
        self.out += data
        self.send()

    def send(self) -> None:
        """Sends what the connection takes."""
        if self.out:
            try:
                sent = self.socket.send(self.out)
                del self.out[:sent]
                self.counters.bytes_out += sent
            except BlockingIOError:
                pass
            except OSError:
                self.vanish()
                return
        if len(self.out) > self.reception.limits.unsent:
            self.cut_off()
        elif self.is_done and not self.out:
            self.shut()
        else:
            self.full_since = (self.full_since or self.loop.now) if len(self.out) > MOST else None
            self.watch()

    # How it ends

    def leave(self, why: str) -> None:
        """It is cut off, once the lines that the program has are answered."""
        if self.why or self.is_done:
            return
        self.why = why
        if self.is_let_in:
            self.part_if_used()
            self.watch()
        else:
            self.finish(why)

    def part_if_used(self) -> None:
        """Tells the program that it is gone, once all its whole lines are used."""
        if self.is_let_in and not self.is_parting and self.unused <= self.tail:
            self.is_parting = True
            self.part(self)

    def closed(self, why: str) -> None:
        """The program has closed it; if since it is gone, the reason is this server's."""
        self.is_let_in = False
        if self.is_open and not self.is_done:
            self.finish(self.why if why == "gone" else why)
        elif not self.is_open:
            self.reception.leave(self)

    def finish(self, why: str | None) -> None:
        """Says why, and ends the connection once all is sent. The program knows it no more."""
        if why and self.is_open and not self.is_done:
            self.is_told = True
            self.reception.tell_of_closed(self.network, why)
        self.is_let_in, self.is_waiting, self.is_done, self.since = False, False, True, self.loop.now
        if self.secure and not self.secure.is_shaken:
            self.vanish()  # nothing can be said to it
            return
        if why:
            self.out += f"closed {why}\n".encode()
        self.send()

    def shut(self) -> None:
        """Ends the connection, and takes from it what has come, so that what was sent isn't lost with it."""
        try:
            self.socket.shutdown(socket.SHUT_WR)
            while not self.has_ended and self.socket.recv(MOST):
                pass
        except OSError:
            pass
        self.vanish()

    def cut_off(self) -> None:
        """It doesn't take its replies, so what is unsent is dropped."""
        self.is_told = True
        self.counters.unread += 1
        self.reception.events.tell("unread")
        self.vanish()

    def vanish(self) -> None:
        """The connection is no more. Its place is free once the program says so."""
        if self.is_open:
            self.is_open = self.is_waiting = False
            self.loop.forget(self.file)
            self.socket.close()
            self.out.clear()
        if not self.is_let_in:
            self.reception.leave(self)
        elif not self.is_parting:
            self.is_parting = True
            self.part(self)

    def look(self) -> None:
        """Cuts it off if for too long it has been silent, in a line, nobody yet, or not taking its replies."""
        limits, now = self.reception.limits, self.loop.now
        if not self.is_open:
            return
        if now - (self.full_since or (self.since if self.is_done else now)) > limits.slow:
            self.cut_off()
        elif not (self.is_waiting or self.is_done or self.why or self.has_ended or self.unused > self.tail):
            has_half = self.tail or self.first
            is_to_begin = self.is_to_give_token or self.secure and not self.secure.is_shaken
            if now - self.since > (limits.slow if has_half or is_to_begin else limits.idle):
                self.leave("half" if has_half else "token" if is_to_begin else "idle")
