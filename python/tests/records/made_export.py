"""An export by hand: a line of three stops and two classes, with its seats, and the words with which it is read."""
from __future__ import annotations

from harness import Done, WithinTest

HEADS = "No;Status;Booked;Departs;Train;From;To;Class;Seats;Price\n"
BOOKINGS = """1;sold;2025-03-01 10:00;2025-03-07;;Aachen;Bonn;Flex;1;40,00 €
2;sold;2025-03-01 11:00;2025-03-07;;Aachen;Cassel;Flex;2;90,00 €
3;sold;2025-03-05;2025-03-07;;Bonn;Cassel;Saver;3;20,50 €
4;sold;2025-03-06;2025-03-07;;Aachen;Bonn;Flex;1;50,01 €
5;sold;2025-03-02;2025-03-14;;Aachen;Cassel;Flex;1;93,00 €
6;sold;2025-03-13;2025-03-14;;Bonn;Cassel;Saver;1;21,50 €
"""
COLUMNS = ["--departs", "Departs", "--booked", "Booked", "--product", "Class", "--seats", "Seats", "--cuts", "3"]
STOPS = ["--from", "From", "--to", "To"]
FARES = ["--fare", "Price"]
SEATS = "leg;seats\nAachen-Bonn;8\nBonn-Cassel;5\n"
NETWORK = """periods,2,2
leg,AAC-BON,8
leg,BON-CAS,5
product,AAC-BON-FLEX,45,AAC-BON
product,AAC-CAS-FLEX,91,AAC-BON,BON-CAS
product,BON-CAS-SAVE,21,BON-CAS
demand,AAC-BON-FLEX,1,1,1
demand,AAC-CAS-FLEX,1,2,0
demand,AAC-CAS-FLEX,2,1,0
demand,BON-CAS-SAVE,1,0,3
demand,BON-CAS-SAVE,2,0,1
"""


class ExportTest(WithinTest):
    """A test that reads exports."""

    def read(self, *words: str, rows: str = BOOKINGS, heads: str = HEADS) -> Done:
        """What is made of the whole of an export."""
        done = self.ran("log", self.export(rows, heads), *self.words(*words))
        self.assertEqual(done.status, 0, done.err)
        return done

    def refused(self, says: str, *words: str, rows: str = BOOKINGS) -> str:
        """What is told of an export that is refused."""
        return self.stopped("log", self.export(rows), *self.words(*words), says=says)

    def export(self, rows: str = BOOKINGS, heads: str = HEADS) -> str:
        """The path of an export of rows."""
        return self.file("export.csv", heads + rows)

    def words(self, *more: str) -> list[str]:
        """The words with which the whole of an export is read."""
        return [*COLUMNS, *STOPS, *FARES, "--seats-of", self.file("seats.csv", SEATS), *more]
