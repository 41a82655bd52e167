"""A season sold by prices that come from outside, at a session of the program that sells first come, first served.

A request whose fare is below the prices of its legs isn't asked for; the others are, and the session sells them while
there are seats. So the program still answers for what is sold, and for the revenue.
"""
from __future__ import annotations

from typing import Callable, ContextManager

from nrm import Stop
from nrm.network import Network
from nrm.program import Dialogue, Program
from nrm.replies import NoLeg, Sold, answer_of
from nrm.seasons.averaged_prices import Left, Prices
from nrm.seasons.drawing import DrawnSeason, request_of

PricesAt = Callable[[int, Left], Prices]  # at the start of a period, with so many seats left
NEW_PLAN = "reoptimise "
NOT_ASKED, NEW_PRICES = b"no fare", b"optimised"  # as a session under `bid` answers such lines


def periods_of(season: DrawnSeason) -> list[list[str]]:
    """The requests of each period."""
    periods: list[list[str]] = [[]]
    for line in season.lines:
        if line.startswith(NEW_PLAN):
            periods.append([])
        elif request_of(line):
            periods[-1].append(line)
    return periods


class PriceDesk:
    """What is left of the seats as a session sells what it is asked for."""

    def __init__(self, network: Network, dialogue: Dialogue, clock: ContextManager[object]) -> None:
        self.network, self.dialogue, self.clock = network, dialogue, clock
        self.left = {name: it.authorised for name, it in network.legs.items()}

    def sell(self, lines: list[str], prices: Prices) -> list[bytes]:
        """Asks for what fits the prices, and takes note of what is sold: a reply to each line."""
        wanted = [it is not None and self.fits(it[0], prices) for it in map(request_of, lines)]
        with self.clock:
            told = iter(self.dialogue.ask([line for line, is_wanted in zip(lines, wanted) if is_wanted]))
        replies = [next(told) if it else NOT_ASKED for it in wanted]
        for line, reply in zip(lines, replies):
            self.note(line, reply)
        return replies

    def note(self, line: str, reply: bytes) -> None:
        """Takes the seats of a request that was sold from those that are left."""
        answer, request = answer_of(reply), request_of(line)
        if isinstance(answer, Sold) and request:
            for leg in self.network.products[request[0]].legs:
                self.left[leg] -= request[1]
        elif reply != NOT_ASKED and not isinstance(answer, NoLeg):
            raise Stop(f"`run first` answers a request with {reply.decode('latin-1')}: is it another program?")

    def fits(self, name: str, prices: Prices) -> bool:
        """Whether a product's fare is at least the prices of its legs."""
        product = self.network.products[name]
        return product.fare >= sum(prices[leg] for leg in product.legs)


def replies_by_prices(network: Network, season: DrawnSeason, program: Program, path: str, prices_at: PricesAt,
                      clock: ContextManager[object]) -> list[bytes]:
    """A reply to each line of a season without cancellations in which prices are made at the start of each period. The
    bound in the last is one of what was asked for alone. The clock counts the time in the session."""
    dialogue = Dialogue(program, "first", path)
    try:
        desk, replies = PriceDesk(network, dialogue, clock), list[bytes]()
        for period, lines in enumerate(periods_of(season), 1):
            replies += [NEW_PRICES] * (period > 1) + desk.sell(lines, prices_at(period, desk.left))
        with clock:
            replies += dialogue.ask(["hindsight"])
        dialogue.end()
    except BrokenPipeError:
        raise dialogue.broke()
    finally:
        dialogue.kill()
    return replies
