"""From an export to the legs, products and fares of a network: each number by hand, and each refusal with its line."""
from __future__ import annotations

from records.made_export import BOOKINGS, COLUMNS, FARES, NETWORK, STOPS, ExportTest

GROUPS = [  # more words or other ones, and a part of the sentence
    (["--from", "From"], "--from and --to must be given together"),
    ([*STOPS, "--stops", "From"], "--stops can't be used with --from and --to"),
    ([*STOPS, "--seats-of", "s"], "a log with stops needs --fare or --amount"),
    ([*STOPS, *FARES], "a log with stops needs --seats-of FILE"),
    ([*STOPS, *FARES, "--amount", "Price"], "--fare can't be used with --amount"),
    ([*STOPS, *FARES, "--seats-of", "s", "--network", "n"], "--network can't be used with stops"),
    (["--seats-of", "s"], "--seats-of needs --from and --to, or --stops"),
    (["--line", "A", "B"], "--line needs --from and --to, or --stops"),
    (["--join", "A"], "--join needs --from and --to"),
    (["--stops", "From", "--join", "A", *FARES, "--seats-of", "s"], "--line and --join are for trains"),
    (["--cents"], "--cents needs --fare or --amount"), (["--net"], "--net needs --cancels"),
    (["--only", "Train"], "--only needs a column and at least one text"),
    (["--leave-out", "-1"], "--leave-out -1: the number of rows can't be below 0"), (["--until", "soon"], "soon isn't a date"),
    (["--stream", "07.03.25"], "07.03.25 isn't a date"),
    (["--stream", "1", "2", "3"], "--stream takes a date and at most one file")]
AMOUNTS = [  # the price of the first booking, and a part of the sentence
    ("", "line 2: it has no amount"), ("free", "line 2: 'free' isn't an amount"),
    ("-40,00 €", "line 2: '-40,00 €' is below 0"),
    ("40.00 €", "the column Price has two decimal marks: line 2 has '40.00 €' and line 3 '90,00 €'"),
    ("40,00 CHF", "the column Price has two currencies: line 2 has '40,00 CHF' and line 3 '90,00 €'"),
    ("1,040 €", "line 2: in '1,040 €' , is a mark for thousands, and elsewhere for decimals")]
SEAT_FILES = [  # the file of seats, and a part of the sentence
    ("Aachen-Bonn,8\n", "has no seats for Bonn - Cassel"), ("", "has no seats for Aachen - Bonn, Bonn - Cassel"),
    ("Aachen-Bonn,8\nBonn-Cassel,1000\n", "line 2 must have a train or a leg of its own and its seats, 0 to 999"),
    ("Aachen-Bonn,8\nAachen-Bonn,9\n", "line 2 must have"), ("leg,seats\nAachen-Bonn,8,9\n", "line 2 must have"),
    ("leg,seats\nAachen-Bonn,many\n", "line 2 must have")]


class Offers(ExportTest):
    def test_makes_the_whole_network(self) -> None:
        """AAC-BON-FLEX costs (40.00 + 50.01) / 2; AAC-CAS-FLEX (2 times 90 and 93) / 3; BON-CAS-SAVE (3 times 20.50 and
        21.50) / 4."""
        self.assertEqual(self.read().out, NETWORK)
        self.assertEqual(self.read("--cents").out.splitlines()[3:6], [
            "product,AAC-BON-FLEX,4501,AAC-BON", "product,AAC-CAS-FLEX,9100,AAC-BON,BON-CAS",
            "product,BON-CAS-SAVE,2075,BON-CAS"])
        self.assertEqual(self.nrm("print", self.file("made.csv", NETWORK)).splitlines()[0], "periods,2,2,2")

    def test_an_amount_is_of_all_seats_of_its_row(self) -> None:
        """(40 + 50.01) / 2 seats; (90 + 93) / 3; (20.50 + 21.50) / 4 = 10.5, which goes up."""
        made = self.told("log", self.export(), *[it if it != "--fare" else "--amount" for it in self.words()])
        self.assertEqual([it.split(",")[2] for it in made.splitlines() if it.startswith("product")], ["45", "61", "11"])

    def test_stops_in_one_column_are_as_they_stand(self) -> None:
        """Without a train each two neighbours are a leg, and so flights over a hub are; with one they are a line."""
        heads = "Booked,Departs,Train,Route,Class,Price\n"
        rows = [f"2025-03-01,2025-03-07,T,{stops},Y,{fare}" for stops, fare in (
            ("GRZ-VIE-LHR", 300), ("GRZ-VIE", 100), ("VIE-LHR", 250), ("GRZ-LHR", 350))]
        log = self.file("log.csv", heads + "\n".join(rows) + "\n")
        seats = self.file("seats.csv", "GRZ-VIE,9\nVIE-LHR,8\nGRZ-LHR,7\n")
        words = [log, "--departs", "departs", "--booked", "booked", "--product", "class", "--cuts", "3",
                 "--fare", "price", "--stops", "route", "--seats-of", seats]
        made = self.told("log", *words).splitlines()
        self.assertEqual(made[1:4], ["leg,GRZ-LHR,7", "leg,GRZ-VIE,9", "leg,VIE-LHR,8"])
        self.assertEqual(made[4:8], ["product,GRZ-LHR-Y,300,GRZ-VIE,VIE-LHR", "product,GRZ-LHR-Y-2,350,GRZ-LHR",
                                     "product,GRZ-VIE-Y,100,GRZ-VIE", "product,VIE-LHR-Y,250,VIE-LHR"])
        out, err, status = self.ran("log", *words, "--train", "train")
        self.assertEqual((out.splitlines()[1:3], status), (["leg,GRZ-VIE,9", "leg,VIE-LHR,8"], 0), err)
        self.want_in(out, "product,GRZ-LHR-Y,325,GRZ-VIE,VIE-LHR\n")
        self.want_in(err, "the export has no leg 'GRZ-LHR' in line 3 of ")

    def test_each_train_is_by_itself(self) -> None:
        """And goes its own way; its seats are those of the train, of a leg with its train, or of a name."""
        rows = BOOKINGS.replace(";;Aachen", ";RE 12;Aachen").replace(";;Bonn", ";RE 12;Bonn") + (
            "7;sold;2025-03-13;2025-03-14;RE 7;Cassel;Bonn;Saver;1;21,50 €\n")
        words = self.words("--train", "Train")
        self.file("seats.csv", "RE 12,8\nRE 12 Bonn - Cassel,5\n7-CASBON,4\n")
        made = self.told("log", self.export(rows), *words).splitlines()
        self.assertEqual(made[1:4], ["leg,12-AACBON,8", "leg,12-BONCAS,5", "leg,7-CASBON,4"])

    def test_refuses_what_a_network_file_doesnt_take(self) -> None:
        """With the numbers: 65 legs of trains of their own, 257 products of as many classes, journeys of five legs."""
        def row(at: int, train: object, first: object, last: object, fare_class: object) -> str:
            return f"{at};sold;2025-03-01;2025-03-07;{train};{first};{last};{fare_class};1;40,00 €\n"
        legs, products = ([row(it, it, "A", "B", "Y") for it in range(65)],
                          [row(it, 1, "A", "B", f"class {it}") for it in range(257)])
        stops = [row(it, 1, f"S{it}", f"S{it + 1}", "Y") for it in range(6)]
        stops += [row(7, 1, "S0", "S5", "Y"), row(8, 1, "S0", "S6", "Y")]
        for rows, says in ((legs, "a network file takes: 65 legs, and it takes 64. "),
                           (products, "257 products, and it takes 256"),
                           (stops, "2 products of more than 4 legs, such as '1 S0 - S6 Y' of 6")):
            err = self.refused(says, "--train", "Train", rows="".join(rows))
            alone = "Take each train alone, --only COLUMN TEXT..: where no product joins two trains, a file for each "
            self.assertEqual(alone in err, rows is legs, err)
        self.file("seats.csv", "".join(f"{it},9\n" for it in range(64)))
        words = [*COLUMNS, *STOPS, *FARES, "--seats-of", "seats.csv", "--train", "Train"]
        for rows in (legs[:64], products[:256]):
            self.told("log", self.export("".join(rows)), *words)

    def test_refuses_words_that_dont_go_together(self) -> None:
        for more, says in GROUPS:
            self.stopped("log", self.export(), *COLUMNS, *more, says=says)

    def test_refuses_amounts_with_their_line(self) -> None:
        for price, says in AMOUNTS:
            self.refused(says, rows=BOOKINGS.replace("40,00 €", price, 1))

    def test_reads_amounts_in_every_form(self) -> None:
        for price, fare in (("1.234,50", 1235), ("1 234,49 €", 1234), ("CHF 1'234.60", 1235), ("$1,234.60", 1235),
                            ("1234", 1234), ("35,-", 35), ("1.234.567", 1234567), ("EUR\u00a035.4", 35)):
            rows = f"1;sold;2025-03-01;2025-03-07;;Aachen;Bonn;Flex;1;{price}\n"
            self.want_in(self.read(rows=rows).out, f"product,AAC-BON-FLEX,{fare},AAC-BON\n")

    def test_refuses_a_fare_that_is_none(self) -> None:
        for price, says in (("0,40 €", "the mean fare of 'Aachen - Bonn Flex' is 0.40, and a network file takes 1 to "
                             "99999999; with --cents fares are in cents"), ("123.456.789,00 €", "is 123456789.00, and")):
            self.refused(says, rows=f"1;sold;2025-03-01;2025-03-07;;Aachen;Bonn;Flex;1;{price}\n")

    def test_refuses_seats_with_their_line(self) -> None:
        words = [*COLUMNS, *STOPS, *FARES, "--seats-of"]
        for seats, says in SEAT_FILES:
            self.stopped("log", self.export(), *words, self.file("seats.csv", seats), says=says)
        self.stopped("log", self.export(), *words, "none.csv", says="No such file")

    def test_fares_go_into_a_network_that_is_there(self) -> None:
        """And into the rows that are still to be completed."""
        rows = self.file("rows.csv", "periods,1,1\nleg,X,9\nproduct,FLEX,1,X\nproduct,SAVER,2,X\nproduct,OTHER,3,X\n")
        out, err, _ = self.ran("log", self.export(), *COLUMNS, *FARES, "--network", rows)
        self.want_in(out, "product,FLEX,73,X\nproduct,SAVER,21,X\nproduct,OTHER,3,X\n")  # 363.01 of 5 seats, 83 of 4
        self.want_in(self.ran("log", self.export(), *COLUMNS, *FARES).err, "\nproduct,FLEX,73,\nproduct,SAVER,21,\n")


class Lines(ExportTest):
    def test_refuses_stops_without_an_order(self) -> None:
        """None of two before the other, unless a line says so; or each before the other."""
        rows = BOOKINGS.replace("Aachen;Bonn", "Aachen;Cassel")
        rows = rows.replace("Bonn;Cassel", "Bonn;Dorsten")
        self.refused("no journey shows which of Aachen and Bonn comes first: give the stops in their order with --line STOP "
                     "STOP..", rows=rows)
        self.file("seats.csv", "Aachen-Bonn,9\nBonn-Cassel,8\nCassel-Dorsten,7\n")
        line = ["--line", "Aachen", "Bonn", "Cassel", "Ems", "Dorsten"]
        out = self.told("log", self.export(rows), *COLUMNS, *STOPS, *FARES, "--seats-of", "seats.csv", *line)
        self.want_in(out, "-CAS,8\nleg,CAS-DOR,7\n")
        back = "7;sold;2025-03-13;2025-03-14;;Cassel;Aachen;Flex;1;40,00 €\n"
        self.refused("the journeys go in a circle: line 3 from Aachen to Cassel, line 8 from Cassel to Aachen; so they are "
                     "of several trains", rows=BOOKINGS + back)
        self.refused("--line from Cassel to Bonn", "--line", "Cassel", "Bonn")

    def test_joins_legs_at_a_stop(self) -> None:
        """A journey from or to it takes all of the leg; at the ends of a line nothing is joined."""
        self.file("seats.csv", "Aachen-Cassel,5\n")
        words = [self.export(), *COLUMNS, *STOPS, *FARES, "--seats-of", "seats.csv", "--join"]
        self.want_in(self.told("log", *words, "Bonn", "Aachen"), """leg,AAC-CAS,5
product,AAC-BON-FLEX,45,AAC-CAS
product,AAC-CAS-FLEX,91,AAC-CAS
product,BON-CAS-SAVE,21,AAC-CAS
""")
        self.stopped("log", *words, "Delft",
                     says="--join Delft: no journey begins or ends there; the stops are Aachen, Bonn, Cassel")

    def test_refuses_a_journey_that_is_none(self) -> None:
        for first, says in ((";Bonn", "line 2: ' Bonn' isn't a journey from one stop to another"),
                            ("Bonn;Bonn", "line 2: it has the stop Bonn twice")):
            self.refused(says, rows=BOOKINGS.replace("Aachen;Bonn", first, 1))
        self.refused("line 2: it has nothing in Train", "--train", "Train")

    def test_takes_some_rows_alone(self) -> None:
        out, err, _ = self.read("--only", "to", "cassel", "--only", "class", "SAVER")
        self.want_in(out, "periods,2,2\nleg,BON-CAS,5\nproduct,")
        self.want_in(err, "rows left out 2, without cassel in to\n")
        self.want_in(err, "rows left out 2, without SAVER in class\n")
        self.refused("rows left out 6, without Delft in to; the column has Bonn, Cassel\n", "--only", "to", "Delft")
