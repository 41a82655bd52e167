"""Results of seasons that weren't played: what each mode earns in each, said by the test."""
from __future__ import annotations

import csv
from typing import Mapping, Sequence

from nrm.network import Network, rows_of
from nrm.seasons.results import Results

ONE_LEG = "periods,1,1,2\nleg,AB,{seats},{authorised}{thresholds}\nproduct,P,{fare},AB\ndemand,P,1,2\n"


def results_of(earned: Mapping[str, Sequence[int]]) -> Results:
    """The results of seasons on the network of one leg."""
    rows = ["season,mode,history,requests,bound,revenue,withheld,denied,empty,earned,booked AB,shown AB,asked P,"
            "refused P"]
    rows += [f"{season},{mode},1,2,1000.0000,{value},0,0,1,{value},1,1,2,1"
             for mode, values in earned.items() for season, value in enumerate(values)]
    return Results.of(csv.reader(rows))


def network_of(seats: int = 3, authorised: int = 3, thresholds: str = "", fare: int = 50) -> Network:
    """A network of one leg and one product."""
    text = ONE_LEG.format(seats=seats, authorised=authorised, thresholds=thresholds, fare=fare)
    return Network.of(rows_of(text.encode()))
