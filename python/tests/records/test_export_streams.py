"""The stream of one departure, line by line by hand, and that the program takes it with the network."""
from __future__ import annotations

from records.made_export import BOOKINGS, COLUMNS, STOPS, ExportTest
from records.test_export_bookings import CANCELLED, OF_IDS

STREAM = ["--stream", "2025-03-07"]
LINES = ["book AAC-BON-FLEX 1", "book AAC-CAS-FLEX 2", "reoptimise 2", "book BON-CAS-SAVE 2", "book BON-CAS-SAVE 1",
         "book AAC-BON-FLEX 1", "cancel 2"]


class Streams(ExportTest):
    def test_writes_the_lines_of_a_departure(self) -> None:
        """Booking 3 was cancelled in part, so it is two requests; that was after the departure, and isn't there."""
        path = self.export(BOOKINGS + CANCELLED)
        out, err, status = self.ran("log", path, *COLUMNS, *STOPS, *OF_IDS, *STREAM)
        self.assertEqual((out.splitlines(), status), (LINES, 0), err)
        self.want_in(err, "nrm-tools log: stream of 2025-03-07: requests 5, cancellations 1\n")
        self.want_in(err, "nrm-tools log: cancellations after the departure: 1; they aren't in the stream\n")
        self.want_in(err, "a line `cancel N` has the number that the booking has if each request is sold")

    def test_what_stands_alone_if_asked_for(self) -> None:
        path = self.export(BOOKINGS + CANCELLED)
        out, err, _ = self.ran("log", path, *COLUMNS, *STOPS, *OF_IDS, *STREAM, "--net")
        self.assertEqual(out.splitlines(), [LINES[0], *LINES[2:4], LINES[5]])
        self.want_in(err, "requests 3, cancellations 0\n")

    def test_an_export_may_begin_with_its_newest_row(self) -> None:
        """Then the rows of a day are turned round."""
        rows = "".join((BOOKINGS + CANCELLED).splitlines(keepends=True)[::-1])
        self.assertEqual(self.told("log", self.export(rows), *COLUMNS, *STOPS, *OF_IDS, *STREAM).splitlines(), LINES)

    def test_a_cancellation_is_where_its_day_says(self) -> None:
        """By a status of no day at the end; by its own day in that day, and never before its booking."""
        path = self.export(BOOKINGS.replace("1;sold", "1;void"))
        out, err, _ = self.ran("log", path, *COLUMNS, *STOPS, "--cancels", "Status", "void", *STREAM)
        self.assertEqual(out.splitlines()[-2:], ["book AAC-BON-FLEX 1", "cancel 1"])
        self.want_in(err, "cancellations whose day the export doesn't have: 1; they come at the end\n")
        for day, at in (("2025-03-05", 3), ("2025-03-01", 1), ("2025-02-01", 1)):
            path = self.export(BOOKINGS.replace("1;sold", f"1;{day}", 1).replace("sold", ""))
            lines = self.told("log", path, *COLUMNS, *STOPS, "--cancels", "Status", *STREAM).splitlines()
            self.assertEqual(lines[at], "cancel 1", lines)

    def test_periods_that_nobody_asks_in_are_begun_too(self) -> None:
        words = [it if it != "3" else "7,4,3,0" for it in COLUMNS]
        lines = self.told("log", self.export(), *words, *STOPS, *STREAM).splitlines()
        found = {at: it for at, it in enumerate(lines) if it.startswith("reoptimise")}
        self.assertEqual(found, {0: "reoptimise 2", 3: "reoptimise 3", 4: "reoptimise 4", 7: "reoptimise 5"})

    def test_without_stops_its_names_are_those_of_the_products(self) -> None:
        out = self.told("log", self.export(), *COLUMNS, *STREAM)
        self.assertEqual(out.splitlines()[0], "book FLEX 1")

    def test_refuses_a_day_without_a_departure_and_a_large_party(self) -> None:
        words = [*COLUMNS, *STOPS, "--stream"]
        self.stopped("log", self.export(), *words, "8.3.2025", says="no booking of the export departs on 2025-03-08")
        path = self.export(BOOKINGS.replace("Flex;2;", "Flex;1000;"))
        self.stopped("log", path, *words, "2025-03-07", says="line 3 has 1000 seats, and a request can have at most 999")

    def test_goes_on_to_a_session_and_a_season(self) -> None:
        """On the network of the seasons up to another day, by the same list of names, with what these stand for."""
        path, names = self.export(BOOKINGS + CANCELLED), ["--names", "names.csv"]
        network = self.told("log", path, *self.words(*OF_IDS, *names, "--until", "2025-03-07", *STREAM, "stream.txt"))
        self.assertEqual(network.splitlines()[0], "periods,1,2")
        self.file("network.csv", network)
        stream = (self.folder / "stream.txt").read_text()
        self.assertEqual(self.told("log", path, *COLUMNS, *STOPS, *OF_IDS, *names, *STREAM), stream)
        self.assertEqual((self.folder / "names.csv").read_text().splitlines()[1:3],
                         ["AAC-BON,Aachen - Bonn", "AAC-BON-FLEX,Aachen - Bonn Flex"])
        self.assertEqual(self.nrm("run", "first", "network.csv", given=stream.encode()).splitlines(),
                         ["ok 1", "ok 2", "optimised none", "ok 3", "ok 4", "ok 5", "cancelled 2 186"])
        told = self.told("season", "network.csv", "stream.txt", "--names", "names.csv", *self.with_program)
        self.want_in(told, "All numbers are 0 in: Bid prices under bid, in currency units; Bid prices under davn, "
                           "in currency units.\n")
        self.want_in(told, "AAC-BON-FLEX: Aachen - Bonn Flex  ")
        self.want_in(told, "AAC-CAS-FLEX: Aachen - Cassel Flex  ")
        self.want_in(told, "Seats of BON-CAS: Bonn - Cassel under first: sold, left\n")
