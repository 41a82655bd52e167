"""Lines that come by HTTP, each in the name of a desk and under a number, so that it is carried out once."""
from __future__ import annotations

import re
from typing import Callable

from nrm.desk import LAST_SEQUENCE
from nrm.network import NAME
from nrm.web.callers import Callers
from nrm.web.connections import Connections, Who
from nrm.web.followed_journal import Followed, Following
from nrm.web.messages import PASSES, TEXT, HttpRefusal, HttpRequest, HttpResponse, json_of, text_of
from nrm.web.network_counts import CountedBooking
from nrm.web.reply_json import told_of

MOST_LINE = 999  # bytes: one of more would end the desk's connection
SEQUENCE = re.compile("[1-9][0-9]{0,14}")
KEY = "idempotency-key"
CATCHES_UP = 3.0  # seconds for which the lines of the last second are waited for


class Door:
    """What can be asked by HTTP of a server, through its socket and out of its journal."""

    def __init__(self, kept: Connections, following: Following, own: Callable[[str], Who], needs_token: bool) -> None:
        self.kept, self.following, self.own, self.needs_token = kept, following, own, needs_token
        self.callers = Callers()

    # Lines of desks

    def line(self, asked: HttpRequest, network: str, desk: str, sequence: str) -> HttpResponse:
        """Carries out a line under a number of the desk's own, or gives the reply that it had."""
        if not SEQUENCE.fullmatch(sequence):
            raise HttpRefusal(400, "number", f"the number of a line is a whole number from 1 to {LAST_SEQUENCE}")
        token = asked.token()
        if token is None and self.needs_token:
            raise HttpRefusal(401, "token", "each line through this door needs a token",
                              (("WWW-Authenticate", "Bearer"),))
        who = Who(network, name_of(desk, "desk"), token)
        return told(asked, self.reply(asked, who, line_of(asked.body), int(sequence)))

    def reply(self, asked: HttpRequest, who: Who, line: str, sequence: int) -> bytes:
        """The reply to a line. Who gives wrong tokens waits for being told so, and nobody else does."""
        try:
            reply = self.kept.reply(who, line, sequence)
        except HttpRefusal as refusal:
            if who.token is not None and refusal.word == "token":
                self.callers.refused(asked.address)
            raise
        if who.token is not None:
            self.callers.admitted(asked.address)
        return reply

    def line_by_key(self, asked: HttpRequest, network: str, desk: str) -> HttpResponse:
        """The same, with the number in the head."""
        key = asked.head.get(KEY)
        if key is None:
            raise HttpRefusal(400, "number", "the number of the line is neither in the path nor in an "
                                             "`Idempotency-Key`")
        if not SEQUENCE.fullmatch(key):
            raise HttpRefusal(400, "number", f"`Idempotency-Key` is a whole number from 1 to {LAST_SEQUENCE}, "
                                         "with nothing around it: the desk's own number of the line")
        return self.line(asked, network, desk, key)

    # Looks

    def ask(self, asked: HttpRequest, network: str, product: str) -> HttpResponse:
        """The largest party of which a request would be sold now."""
        return self.look(asked, network, f"ask {name_of(product, 'product')}")

    def leg(self, asked: HttpRequest, network: str, leg: str) -> HttpResponse:
        """The seats of a leg."""
        return self.look(asked, network, f"leg {name_of(leg, 'leg')}")

    def plan(self, asked: HttpRequest, network: str) -> HttpResponse:
        """The plan in force."""
        return self.look(asked, network, "plan")

    def hindsight(self, asked: HttpRequest, network: str) -> HttpResponse:
        """What the requests so far could have earned."""
        return self.look(asked, network, "hindsight")

    def look(self, asked: HttpRequest, network: str, line: str) -> HttpResponse:
        """What the server tells this process."""
        reply = self.kept.reply(self.own(network), line)
        if reply == b"unknown\n" or reply.endswith(b" unknown\n"):
            raise HttpRefusal(404, "unknown", "the network has nothing of this name")
        return told(asked, reply)

    def booking(self, asked: HttpRequest, network: str, number: str) -> HttpResponse:
        """A booking, as the journal has it."""
        followed = self.following.caught_up(network, CATCHES_UP)
        if followed is None:
            raise no_network()
        found = self.following.booking(followed, int(number)) if re.fullmatch("[1-9][0-9]{0,11}", number) else None
        if found is None:
            raise not_sold(followed)
        if asked.wants_json():
            return json_of(fields_of_booking(found))
        return text_of(text_of_booking(found))


def no_network() -> HttpRefusal:
    """An HttpRefusal for a name that no network has."""
    return HttpRefusal(404, "network", "the journal has no network of this name")


def not_sold(followed: Followed) -> HttpRefusal:
    """An HttpRefusal for a number that no booking has, as far as the journal is read."""
    if followed.fault:
        return HttpRefusal(503, "fault", followed.fault)
    if followed.seen.lines < followed.lines:
        return HttpRefusal(503, "reading", "the journal isn't read to its end yet", PASSES)
    return HttpRefusal(404, "booking", "no line of this network sold a booking of this number")


def name_of(text: str, what: str) -> str:
    """The name of a desk, a product or a leg."""
    if not NAME.fullmatch(text):
        raise HttpRefusal(400, "name", f"the name of a {what} is 1 to 12 of `A` to `Z`, `0` to `9` and `-`")
    return text


def line_of(body: bytes) -> str:
    """The line that a body is."""
    if not body:
        raise HttpRefusal(400, "line", "the body is the line, and it is empty")
    if b"\n" in body:
        raise HttpRefusal(400, "line", "the body is one line, without the line feed at its end")
    if len(body) > MOST_LINE:
        raise HttpRefusal(400, "line", f"a line has at most {MOST_LINE} bytes")
    return body.decode("latin-1")


def told(asked: HttpRequest, reply: bytes) -> HttpResponse:
    """What a reply is in HTTP."""
    if reply == b"bad\n":
        raise HttpRefusal(400, "bad", "the server doesn't know this line")
    if reply == b"denied\n":
        raise HttpRefusal(403, "denied", "the desk has no right to this, and nothing has changed")
    if reply == b"memory\n":
        raise HttpRefusal(503, "memory", "there was too little memory, and nothing has changed", PASSES)
    return json_of(told_of(reply)) if asked.wants_json() else HttpResponse(reply, TEXT)


def fields_of_booking(it: CountedBooking) -> dict[str, object]:
    """A booking in JSON, where money is a text of digits."""
    return {"kind": "Booking", "number": it.number, "product": it.product, "party": it.party, "fare": str(it.fare),
            "sold_by": it.sold_by, "stands": it.amount is None, "cancelled_by": it.cancelled_by,
            "amount": None if it.amount is None else str(it.amount)}


def text_of_booking(it: CountedBooking) -> str:
    """A booking in a line of words in pairs."""
    ended = "" if it.amount is None else f" cancelled-by {it.cancelled_by} amount {it.amount}"
    return f"booking {it.number} product {it.product} party {it.party} fare {it.fare} sold-by {it.sold_by}{ended}"
