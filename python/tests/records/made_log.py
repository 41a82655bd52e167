"""Logs of requests that are made of a seed, and the words with which they are read."""
from __future__ import annotations

import csv
import datetime
import io
import random
from collections import Counter

COLUMNS = ["--departs", "Departure", "--booked", "Booked on", "--product", "Fare product", "--seats", "Seats"]
CUT_ONCE = [*COLUMNS, "--cuts", "7"]
HEADS = "Booked on,Departure,Fare product,Seats\n"


class MadeLog:
    """Requests that are made of a seed: the day of departure and of booking, the product and the seats of each."""

    PRODUCTS = ["lh454_27Nov", "LH454 Économie Flex", "LH454 Économie Saver", "ZV-Q", "a;b,c"]

    def __init__(self, seed: int, seasons: int = 5) -> None:
        draw = random.Random(seed)
        first = datetime.date(2024, 12, draw.randint(1, 28))
        self.departures = [first + datetime.timedelta(7 * it) for it in range(seasons)]
        days = draw.choices(self.departures, k=400) + self.departures
        self.requests = [(it, it - datetime.timedelta(draw.randint(0, 90)), draw.choice(self.PRODUCTS),
                          draw.randint(1, 4)) for it in days]

    def text(self, form: str, separator: str = ",", end: str = "\n", above: str = "") -> str:
        """The log, with dates in a form of `strftime`."""
        out = io.StringIO()
        out.write(above)
        writer = csv.writer(out, delimiter=separator, lineterminator=end)
        writer.writerow(["No", " booked ON ", "Departure", "Fare product", "Seats", "Remarks"])
        for number, (departs, booked, product, seats) in enumerate(self.requests):
            writer.writerow([number, booked.strftime(form), f" {departs.strftime(form)}", product, seats, 'say "so"'])
            if number % 50 == 7:
                writer.writerow([""] * 6)
        return out.getvalue()

    def demand(self, cuts: list[int]) -> Counter[tuple[str, int, int]]:
        """The seats by product, season and period, counted in another way than the tool's."""
        seats, edges = Counter[tuple[str, int, int]](), [10**6, *cuts, -1]
        for departs, booked, product, party in self.requests:
            days = departs.toordinal() - booked.toordinal()
            [period] = [it for it in range(1, len(edges)) if edges[it] < days <= edges[it - 1]]
            seats[product, 1 + self.departures.index(departs), period] += party
        return seats


def log_with_remarks(count: int, remarks: dict[int, str]) -> str:
    """A log whose last column isn't asked for; of some rows, by their line, it has a remark as it stands."""
    days = [datetime.date(2025, 3, 3) + datetime.timedelta(it % 9) for it in range(count)]
    rows = [f'2025-02-01;{day};"ZV_Q";{1 + at % 3};{remarks.get(at + 2, "")}\n' for at, day in enumerate(days)]
    return "Booked on;Departure;Fare product;Seats;Remark\n" + "".join(rows)
