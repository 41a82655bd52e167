"""What was sold, beside the seats of a network whose legs were joined: more may have stood than it lets anybody sell.

Where a stop is left out, a journey from or to it takes a seat on all of the joined leg. So passengers who sat on one
seat one after the other take two, and what is earned on the network is of another train than the one that ran.
"""
from __future__ import annotations

import datetime
import math
from collections import Counter, defaultdict
from dataclasses import dataclass
from typing import Iterator, Mapping, Sequence

from nrm.legs.joined_legs import Full, fullest
from nrm.records.export_bookings import Booking
from nrm.records.export_offer import Offer
from nrm.records.log_demand import Demand


@dataclass(frozen=True)
class Stood:
    """The bookings of an export, the legs and products that were made of it, the seats of the legs, the fares of the
    products, and the demand of the seasons."""
    bookings: Sequence[Booking]
    offer: Offer
    seats: Mapping[str, int]
    fares: Mapping[str, int]
    demand: Demand

    def standing(self) -> Iterator[Booking]:
        """The bookings of the seasons."""
        seasons = {*self.demand.departures}
        return (it for it in self.bookings if it.request.departs in seasons)

    def taken(self) -> list[Counter[str]]:
        """What stood in each season, in seats by leg."""
        by_day: dict[datetime.date, Counter[str]] = {it: Counter() for it in self.demand.departures}
        for it in self.standing():
            for leg in self.offer.products[it.request.product].legs:
                by_day[it.request.departs][leg.text] += it.seats_standing
        return list(by_day.values())

    def earned(self) -> int:
        """What stood in all seasons, at the fares of the products."""
        return sum(it.seats_standing * self.fares[it.request.product] for it in self.standing())

    def bound(self) -> int:
        """What no control can earn more than in all seasons: the worth of all demand, less of each train and season the
        cheapest seats beyond those of the leg on which these are worth most."""
        sold: dict[tuple[str, int], Counter[str]] = defaultdict(Counter)
        for (product, history, _), count in self.demand.seats.items():
            sold[self.offer.products[product].parts.train, history][product] += count
        return sum(sum(self.fares[it] * count for it, count in wanted.items())
                   - max(self.too_much(it, wanted) for it, leg in self.offer.legs.items() if leg.train == train)
                   for (train, _), wanted in sold.items())

    def too_much(self, leg: str, wanted: Mapping[str, int]) -> int:
        """What the cheapest seats beyond those of a leg are worth."""
        using = sorted((self.fares[it], count) for it, count in wanted.items()
                       if leg in (one.text for one in self.offer.products[it].legs))
        beyond, worth = sum(count for _, count in using) - self.seats[leg], 0
        for fare, count in using:
            worth += fare * max(0, min(beyond, count))
            beyond -= count
        return worth

    def told(self) -> Iterator[str]:
        """Where more stood than there are seats, on legs that were joined and on others."""
        full, seasons = fullest(self.taken(), self.seats), len(self.demand.departures)
        joined = [it for it in full if self.offer.legs[it.leg].joined]
        others = [it for it in full if not self.offer.legs[it.leg].joined]
        if joined:
            earned, bound = self.earned(), self.bound()
            less = (f", and no control can earn more than {math.ceil(bound / seasons):,} on this network"
                    if bound < earned else "")
            yield (f"as joined, the bookings that stood take up to {spoken(joined, seasons)}; they earned "
                   f"{earned / seasons:,.0f} a season at these fares{less}: a journey from or to a stop that is "
                   f"joined takes a seat on all of "
                   "the leg, so this is another train than the one that ran")
        if others:
            yield (f"the bookings that stood take up to {spoken(others, seasons)}: so more than these may be sold, or "
                   "the leg has other seats than the file says")


def spoken(full: Sequence[Full], seasons: int) -> str:
    """The fullest leg, and how many more there are."""
    it, more = full[0], f", and more than there are on {len(full) - 1} of the other legs" if len(full) > 1 else ""
    return f"{it.most:,} of {it.seats:,} seats of {it.leg}, in {it.seasons} of {seasons} seasons{more}"
