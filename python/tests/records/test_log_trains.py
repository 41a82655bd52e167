"""A train that departs on some of the days alone is told, and one that was renamed can be made one again."""
from __future__ import annotations

from harness import WithinTest
from records.made_export import COLUMNS, FARES, HEADS, STOPS, ExportTest

FRIDAYS = ["2025-04-04", "2025-04-11", "2025-04-25", "2025-05-02"]
RENAMED = ("ICE 571 departs on 3 of 4 days, to 2025-04-25; ICE 1571 on 1, from 2025-05-02, with the same {}: each has "
           "no demand in the seasons of the other; if it is one train, --same 'ICE 571' 'ICE 1571' makes them one, ICE "
           "1571\n")
SAME = ["--same", "ICE 571", "ICE 1571"]


def rows_of(trains: dict[str, list[str]], journeys: str = "A;B A;C") -> str:
    """A booking of a seat on each journey of each train's days."""
    return "".join(f"7;sold;2025-03-01;{day};{train};{journey};Flex;1;40,00 €\n"
                   for train, days in trains.items() for day in days for journey in journeys.split())


class Exports(ExportTest):
    def read_of(self, trains: dict[str, list[str]], *more: str, journeys: str = "A;B A;C") -> tuple[str, str]:
        """What is made and told of trains with a stop between and 9 seats."""
        self.file("seats.csv", "".join(f"{it},9\n" for it in trains))
        log = self.file("export.csv", HEADS + rows_of(trains, journeys))
        out, err, status = self.ran("log", log, *COLUMNS, *STOPS, *FARES, "--line", "A", "B", "C", "--seats-of",
                                    "seats.csv", "--train", "Train", *more)
        self.assertEqual(status, 0, err)
        return out, err

    def test_a_train_that_was_renamed_is_told(self) -> None:
        """Beside one that departs each day; and made one it has its demand in each season: two seats."""
        trains = {"ICE 571": FRIDAYS[:3], "ICE 1571": FRIDAYS[3:], "ICE 9": FRIDAYS}
        self.want_in(self.read_of(trains)[1], RENAMED.format("stops"))
        out, err = self.read_of(trains, *SAME)
        self.assertNotIn("--same", err)
        seats = {history: sum(int(it.split(",")[3]) for it in out.splitlines()
                              if it.startswith(f"demand,1571-") and it.split(",")[2] == str(history))
                 for history in range(1, 5)}
        self.assertEqual(seats, {1: 2, 2: 2, 3: 2, 4: 2}, out)
        self.assertNotIn(",571-", out)

    def test_it_may_have_had_three_names(self) -> None:
        trains = {"571": FRIDAYS[:1], "1571": FRIDAYS[1:3], "1 571": FRIDAYS[3:]}
        self.want_in(self.read_of(trains)[1], "571 departs on 1 of 4 days, to 2025-04-04; 1571 on 2, from 2025-04-11, "
                     "to 2025-04-25; 1 571 on 1, from 2025-05-02, with the same stops: each has no demand in the "
                     "seasons of the other; if it is one train, --same 571 1571 '1 571' makes them one, 1 571\n")

    def test_a_train_of_some_days_is_told(self) -> None:
        """One that has ended and no other that begins; one that departs now and then; none where all do each day."""
        trains = {"1": FRIDAYS[:2], "2": [FRIDAYS[0], FRIDAYS[3]], "3": FRIDAYS}
        self.want_in(self.read_of(trains)[1], "trains that depart on only some of the 4 days, and have no demand in "
                     "the other seasons: 2, 1 on 2, to 2025-04-11, 2 on 2\n")
        self.assertNotIn("depart on only some", self.read_of({"1": FRIDAYS, "2": FRIDAYS})[1])

    def test_days_that_are_no_season_dont_count(self) -> None:
        trains = {"571": FRIDAYS[:2], "9": FRIDAYS}
        self.assertNotIn("571 on", self.read_of(trains, "--until", FRIDAYS[1])[1])

    def test_refuses_two_trains_of_a_day_and_names_that_are_none(self) -> None:
        log = self.file("export.csv", HEADS + rows_of({"1": FRIDAYS[:2], "2": FRIDAYS[1:]}))
        words = [log, *COLUMNS, *STOPS, *FARES, "--line", "A", "B", "C", "--seats-of", self.file("s.csv", "1,9\n2,9\n")]
        self.stopped("log", *words, "--train", "Train", "--same", "1", "2",
                     says="--same 1 2: 1 and 2 depart on 2025-04-11, in lines 4 and 6; so they are two trains\n")
        self.stopped("log", *words, "--train", "Train", "--same", "1", "4",
                     says="--same 4: no row is of that train; there are 1, 2\n")
        self.stopped("log", *words, "--train", "Train", "--same", "1", says="--same needs at least two names of a train")
        self.stopped("log", *words, "--same", "1", "2", says="--same needs the column of the train")


class Logs(WithinTest):
    """Where the train is the first of several columns of the product, and there are no stops."""
    WORDS = ["--departs", "Departs", "--booked", "Booked", "--product", "Train", "Class", "--cuts", "3"]

    def log(self) -> str:
        """The path of a log of a train that was renamed."""
        return self.file("log.csv", HEADS + rows_of({"ICE 571": FRIDAYS[:3], "ICE 1571": FRIDAYS[3:]}, "A;B"))

    def test_log(self) -> None:
        self.want_in(self.ran("log", self.log(), *self.WORDS).err, RENAMED.format("products"))
        made = self.ran("log", self.log(), *self.WORDS, *SAME)
        self.assertEqual([it.split(",")[2:] for it in made.out.splitlines() if it.startswith("demand")],
                         [[str(it), "1", "0"] for it in range(1, 5)], made.err)
        self.want_in(made.err, "products 1; seats 4\n")

    def test_demand(self) -> None:
        """Its closures have the old names too: the product was closed from the first day on of two seasons."""
        closures = self.file("closures.csv", "Departs,Train,Class,closed from,closed to\n"
                             f"{FRIDAYS[0]},ICE 571,Flex,2025-03-20,\n{FRIDAYS[3]},ICE 1571,Flex,2025-03-20,\n")
        words = [self.log(), *self.WORDS, "--closures", closures, "--mean"]
        self.want_in(self.ran("demand", *words).err, RENAMED.format("products"))
        made = self.ran("demand", *words, *SAME)
        self.assertEqual(made.status, 0, made.err)
        self.want_in(made.err, "departures 4, products 1; ")
        self.assertNotIn("closures left out", made.err)
