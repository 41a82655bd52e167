"""What a mode makes of a season, by a run of the program, and the seasons that are played again or in batches."""
from __future__ import annotations

import dataclasses
import functools
import itertools
import operator
import os
import random
import time
from dataclasses import dataclass
from fractions import Fraction
from typing import Iterable, Iterator

from nrm import Stop
from nrm.limits import LAST_BOOKING
from nrm.network import Network, text_of
from nrm.program import Dialogue, Program
from nrm.replies import Answer, Hindsight, NoAnswer, Overflow, Sold, answer_of
from nrm.seasons.averaged_playing import replies_by_prices
from nrm.seasons.averaged_prices import AVERAGED, Averaged
from nrm.seasons.coupled import season_of
from nrm.seasons.drawing import DrawnSeason, Requests, Settings, by_product, history_again, network_in, request_of

SECOND_LETTER = operator.itemgetter(1)  # it tells the replies `ok`, `no` and `memory` from each other and the rest
OF_OK, OF_NO, OF_MEMORY = b"koe"
ARE_OK = bytes(code == OF_OK for code in range(256))


@dataclass(frozen=True)
class Outcome:
    """What a mode made of a season.

    revenue   of the bookings that stand at the end, in currency units
    withheld  of those that were cancelled, in currency units
    bound     of hindsight; None if its program is too large
    booked    the seats of bookings that stand, by leg
    shown     of these the seats that were taken at departure, by leg; None if departures aren't played
    refused   the requests that were refused, by product
    """
    revenue: int
    withheld: int
    bound: Fraction | None
    booked: dict[str, int]
    shown: dict[str, int] | None
    refused: dict[str, int]

    def denied(self, network: Network) -> int:
        """The denied boardings: on each leg, seats taken beyond its physical seats."""
        return sum(max(0, seats - network.legs[leg].seats) for leg, seats in (self.shown or {}).items())

    def empty(self, network: Network) -> int:
        """The physical seats that flew empty."""
        return sum(max(0, network.legs[leg].seats - seats) for leg, seats in (self.shown or {}).items())


class ProgramTime:
    """Counts the time that is spent in the program, in seconds."""

    def __init__(self) -> None:
        self.spent, self.begun = 0.0, time.perf_counter()
        self.from_here = self.begun

    def __enter__(self) -> None:
        self.from_here = time.perf_counter()

    def __exit__(self, *_: object) -> None:
        self.spent += time.perf_counter() - self.from_here

    def passed(self) -> float:
        """The time since the clock was made, in seconds."""
        return time.perf_counter() - self.begun


class Cancelling:
    """A season with cancellations as it is played: a booking is cancelled by the number that its reply tells."""

    def __init__(self, season: DrawnSeason, dialogue: Dialogue) -> None:
        self.season, self.dialogue = season, dialogue
        self.replies: list[bytes] = []
        self.cancelled: set[int] = set()
        self.waiting: list[tuple[bool, str]] = []  # lines, and whether they are of the season

    def play(self) -> None:
        """Asks all lines, and ends the program."""
        for at, line in enumerate(self.season.lines):
            self.waiting.append((True, line))
            for booked_at in self.season.cancellations.get(at, ()):
                self.cancel(booked_at)
        self.ask()
        self.dialogue.end()

    def cancel(self, booked_at: int) -> None:
        """Has a booking cancelled, if its line was sold."""
        if booked_at >= len(self.replies):
            self.ask()
        if self.replies[booked_at].startswith(b"ok "):
            self.waiting.append((False, f"cancel {booking_of(self.dialogue.mode, self.replies[booked_at])}"))
            self.cancelled.add(booked_at)

    def ask(self) -> None:
        """Asks the lines that wait, and keeps the replies to those of the season."""
        told = self.dialogue.ask([line for _, line in self.waiting])
        self.replies.extend(reply for (is_of_season, _), reply in zip(self.waiting, told) if is_of_season)
        self.waiting.clear()


def answer_or_none(reply: bytes) -> Answer | None:
    """The answer that a reply means; None if it is none."""
    try:
        return answer_of(reply)
    except NoAnswer:
        return None


def booking_of(mode: str, reply: bytes) -> int:
    """The number of the booking that a reply says."""
    answer = answer_or_none(reply)
    if not isinstance(answer, Sold) or answer.number > LAST_BOOKING:
        raise Stop(f"what `run {mode}` answers to a request isn't the number of a booking: is it another program?")
    return answer.number


def replies_with_cancellations(program: Program, mode: str, path: str, season: DrawnSeason,
                               clock: ProgramTime) -> tuple[list[bytes], set[int]]:
    """The replies to a season's lines, without those to its cancellations, and which lines' bookings were cancelled."""
    with clock:
        playing = Cancelling(season, Dialogue(program, mode, path))
    try:
        with clock:
            playing.play()
    except BrokenPipeError:
        raise playing.dialogue.broke()
    finally:
        playing.dialogue.kill()
    return playing.replies, playing.cancelled


def hindsight_of(mode: str, reply: bytes) -> Hindsight | None:
    """What the last reply says; None if the bound's program is too large."""
    answer = answer_or_none(reply)
    if isinstance(answer, Overflow):
        return None
    if not isinstance(answer, Hindsight):
        raise Stop(f"`run {mode}` has no bound: {reply.decode('latin-1')}")
    return answer


def letters_of(mode: str, season: DrawnSeason, replies: list[bytes]) -> bytearray:
    """The second letter of each reply, if these are replies to the lines of a season."""
    try:
        letters = bytearray(map(SECOND_LETTER, replies))
    except IndexError:
        letters = bytearray()
    if len(letters) != len(season.lines) or OF_MEMORY in letters:
        raise Stop(f"what `run {mode}` answers to {len(season.lines)} lines isn't an outcome: "
                   "is memory short, or is it another program?")
    return letters


def played(network: Network, season: DrawnSeason, program: Program, mode: str, path: str,
           clock: ProgramTime) -> Outcome:
    """The outcome of a season in a mode, by a run of the program on the network file at a path."""
    cancelled: set[int] = set()
    if season.cancellations:
        replies, cancelled = replies_with_cancellations(program, mode, path, season, clock)
    else:
        replies = program.replies_of_a_line(mode, path, season.stream, clock)
    return outcome_of(network, season, mode, replies, cancelled)


def outcome_of(network: Network, season: DrawnSeason, mode: str, replies: list[bytes], cancelled: set[int]) -> Outcome:
    """The outcome of a season of which a mode's run gives these replies, where some lines' bookings were cancelled."""
    last = hindsight_of(mode, replies[-1] if replies else b"")
    letters = letters_of(mode, season, replies)
    sold = letters.translate(ARE_OK)
    if sum(season.asked.values()) != sum(sold) + letters.count(OF_NO):
        raise Stop(f"`run {mode}` answers requests with other replies than `ok` and `no`: is it another program?")
    sales, stand = season.tally(sold), bytearray(sold)
    for at in cancelled:
        stand[at] = 0
    booked = season.tally(stand) if cancelled else sales
    revenue = sum([network.products[it.product].fare * it.party * it.count for it in booked])
    if last and last.revenue != revenue:
        raise Stop(f"`run {mode}` has a revenue of {last.revenue}, and its replies one of {revenue}: "
                   "is it another program?")
    return Outcome(revenue, last.withheld if last else 0, last.bound if last else None,
                   by_leg(network, ((it.product, it.party * it.count) for it in booked)),
                   shown_of(network, season, stand), refused_of(season, sales))


def refused_of(season: DrawnSeason, sales: Iterable[Requests]) -> dict[str, int]:
    """How many requests for each product weren't sold."""
    sold = by_product(sales)
    return {product: count - sold.get(product, 0) for product, count in season.asked.items()}


def shown_of(network: Network, season: DrawnSeason, stand: bytearray) -> dict[str, int] | None:
    """The seats that chosen lines' bookings take at departure, by leg; None if departures aren't played."""
    if not season.shows:
        return None
    lines = itertools.compress(zip(season.lines, season.shows), stand)
    return by_leg(network, ((request[0], seats) for line, seats in lines if (request := request_of(line))))


def by_leg(network: Network, seats_of_products: Iterable[tuple[str, int]]) -> dict[str, int]:
    """Adds up seats of products by leg."""
    legs = dict.fromkeys(network.legs, 0)
    for product, seats in seats_of_products:
        for leg in network.products[product].legs:
            legs[leg] += seats
    return legs


class Player:
    """Plays seasons of a network: keeps its file, and those without one history, in a folder."""

    def __init__(self, source: bytes, settings: Settings, program: Program, folder: str,
                 clock: ProgramTime | None = None) -> None:
        self.source, self.settings, self.program, self.folder = source, settings, program, folder
        self.network, self.identity = network_in(source)
        self.clock = clock or ProgramTime()
        self.averaged = Averaged(self.network, program, folder, self.clock)

    def path_without(self, history: int | None) -> str:
        """The path of the network's file, or of that without a history."""
        path = os.path.join(self.folder, f"without-{history}.csv" if history else "network.csv")
        if not os.path.exists(path):
            with open(path, "wb") as file:
                file.write(text_of(self.network.without(history).rows()).encode() if history else self.source)
        return path

    def season(self, number: int) -> DrawnSeason:
        """The season of a number."""
        return season_of(self.network, self.settings, self.identity, number)

    def outcomes(self, season: DrawnSeason) -> dict[str, Outcome]:
        """The outcome of a season in each mode, and last by averaged prices if they are among the modes."""
        without = season.history if self.settings.leave_out else None
        path = self.path_without(without)
        modes = [it for it in self.settings.modes if it != AVERAGED]
        outcomes = {it: played(self.network, season, self.program, it, path, self.clock) for it in modes}
        if AVERAGED in self.settings.modes:
            outcomes[AVERAGED] = dataclasses.replace(self.by_averaged_prices(season, without),
                                                     bound=outcomes[modes[0]].bound)
        return outcomes

    def by_averaged_prices(self, season: DrawnSeason, without: int | None) -> Outcome:
        """The outcome of a season by averaged prices, whose bound is one of what was asked for alone."""
        replies = replies_by_prices(self.network, season, self.program, self.path_without(None),
                                    functools.partial(self.averaged.of, without=without), self.clock)
        return outcome_of(self.network, season, "first", replies, set())


def replayed(player: Player) -> Iterator[tuple[int, Fraction, list[int]]]:
    """Each history of a network in its turn, played as the season that is to come and left out of the plans: its
    number, its bound, and the revenue of each mode."""
    modes = player.settings.modes
    for history in range(1, player.network.histories + 1):
        outcomes = player.outcomes(history_again(player.network, history, random.Random(player.settings.seed)))
        bound = outcomes[modes[0]].bound
        if bound is None:
            raise Stop(f"history {history} has no bound: its program is too large")
        yield history, bound, [outcomes[mode].revenue for mode in modes]
