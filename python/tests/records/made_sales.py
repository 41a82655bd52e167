"""Small sales whose estimates are worked out by hand, and a place in which `nrm-tools demand` is run on them."""
from __future__ import annotations

from typing import NamedTuple

from harness import WithinTest

BOOKINGS = "Booked on,Departure,Product,Seats\n"
CLOSURES = "Departure,Product,Closed from,Closed to\n"
READINGS = "Departure,Product,Read on,Available\n"
COLUMNS = ["--departs", "departure", "--booked", "booked on", "--product", "product", "--seats", "seats", "--cuts", "5"]
TWO = BOOKINGS + ("2025-03-04,2025-03-07,A,6\n2025-03-10,2025-03-14,A,2\n"
                  "2025-02-26,2025-03-07,A,1\n2025-03-05,2025-03-14,A,1\n")
HALF = CLOSURES + "2025-03-14,A,2025-03-11,\n"  # the second departure is closed from noon of day 3
HALF_ROWS = "periods,2,2\ndemand,A,1,1,6\ndemand,A,2,1,5\n"


class Found(NamedTuple):
    """What the command wrote, what it told, and the report."""
    out: str
    err: str
    report: str


class SalePlace(WithinTest):
    def words(self, bookings: str, closures: str | None = None, readings: str | None = None) -> list[str]:
        """The words for files with these rows."""
        words = [self.file("log.csv", bookings), *COLUMNS]
        if closures is not None:
            words += ["--closures", self.file("closures.csv", closures)]
        if readings is not None:
            words += ["--readings", self.file("readings.csv", readings)]
        return words

    def demand(self, words: list[str], bookings: str, closures: str | None = CLOSURES,
               readings: str | None = None) -> Found:
        """What the command makes of these rows."""
        done = self.ran("demand", *self.words(bookings, closures, readings), "--report", "report.csv", *words)
        self.assertEqual(done.status, 0, done.err)
        return Found(done.out, done.err, (self.folder / "report.csv").read_text())

    def refused(self, words: list[str], bookings: str, closures: str | None = CLOSURES,
                readings: str | None = None) -> str:
        """What it tells of rows that it must refuse."""
        return self.stopped("demand", *self.words(bookings, closures, readings), *words)
