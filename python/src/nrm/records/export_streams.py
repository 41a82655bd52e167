"""The stream of one departure: the requests and cancellations of an export in their order, and where to plan again."""
from __future__ import annotations

import datetime
import math
from dataclasses import dataclass
from typing import Iterator, Mapping, Sequence

from nrm import Stop
from nrm.limits import MOST_PARTY
from nrm.records.export_bookings import Booking, Cancellation
from nrm.records.log_demand import period_of


@dataclass(frozen=True, order=True)
class Event:
    """A request or a cancellation: the days before departure, below 0, its place within the day, whether it is a
    cancellation, the party that it is of, and what is asked for."""
    day: int
    place: float
    is_cancellation: bool
    party: int
    asked: str


class DepartureStream:
    """The events of a day of departure: with what was cancelled, or what stands alone. A booking that was cancelled in
    part is two parties."""

    def __init__(self, bookings: Sequence[Booking], departs: datetime.date, names: Mapping[str, str],
                 is_net: bool = False) -> None:
        self.departs, self.undated, self.after, self.parties, self.is_net = departs, 0, 0, 0, is_net
        self.sign = -1 if is_newest_first(bookings) else 1
        events: list[Event] = []
        for it in bookings:
            if it.request.departs == departs:
                events += self.events_of(it, names)
        if not events:
            raise Stop(f"no booking of the export departs on {departs}")
        self.events = sorted(events)

    def events_of(self, booking: Booking, names: Mapping[str, str]) -> Iterator[Event]:
        """The requests that a booking is made of, and their cancellations."""
        day, place = -booking.request.days, self.sign * booking.line
        if booking.seats_standing:
            yield self.request(booking, day, place, booking.seats_standing, names)
        for it in booking.cancelled:
            if it.seats and not self.is_net:
                request = self.request(booking, day, place, it.seats, names)
                yield request
                yield from self.cancellation(it, request)

    def cancellation(self, it: Cancellation, request: Event) -> Iterator[Event]:
        """The cancellation of a request, unless it is behind the departure."""
        if it.days is None:
            self.undated += 1
            yield Event(0, math.inf, True, request.party, "")
        elif it.days < 0:
            self.after += 1
        else:
            day, place = max((-it.days, self.sign * it.line), (request.day, request.place))
            yield Event(day, place, True, request.party, "")

    def request(self, booking: Booking, day: int, place: int, seats: int, names: Mapping[str, str]) -> Event:
        """The request of a party."""
        if seats > MOST_PARTY:
            raise Stop(f"line {booking.line} has {seats} seats, and a request can have at most {MOST_PARTY}")
        self.parties += 1
        return Event(day, place, False, self.parties, f"book {names[booking.request.product]} {seats}")

    def lines(self, cuts: Sequence[int]) -> Iterator[str]:
        """The lines of the stream, with `reoptimise` where a period begins. A booking has the number that it has where
        each request is sold."""
        period, numbers = 1, dict[int, int]()
        for it in self.events:
            while period < period_of(-it.day, cuts):
                period += 1
                yield f"reoptimise {period}"
            if it.is_cancellation:
                yield f"cancel {numbers[it.party]}"
            else:
                numbers[it.party] = len(numbers) + 1
                yield it.asked
        yield from (f"reoptimise {it}" for it in range(period + 1, len(cuts) + 2))

    def told(self) -> Iterator[str]:
        """What the stream has, in sentences."""
        cancellations = sum(it.is_cancellation for it in self.events)
        yield f"stream of {self.departs}: requests {self.parties}, cancellations {cancellations}"
        if self.undated:
            yield f"cancellations whose day the export doesn't have: {self.undated}; they come at the end"
        if self.after:
            yield f"cancellations after the departure: {self.after}; they aren't in the stream"
        if cancellations:
            yield ("a line `cancel N` has the number that the booking has if each request is sold: under a control "
                   "that refuses one, it is the number of a later booking")


def is_newest_first(bookings: Sequence[Booking]) -> bool:
    """Whether an export begins with its latest day of booking."""
    first, last = (it.request.departs - datetime.timedelta(it.request.days) for it in (bookings[0], bookings[-1]))
    return first > last
