"""What stood on a train, beside the seats of legs that were joined: each number by hand, or by trying all sales."""
from __future__ import annotations

import datetime
import itertools
import random
from decimal import Decimal

from nrm.network import Network
from nrm.records.export_bookings import Booking
from nrm.records.export_offer import Offer
from nrm.records.export_trains import TrainLines
from nrm.records.log_demand import Demand
from nrm.records.log_requests import Request
from nrm.records.sale_joined import Stood
from nrm.seasons.comparing_tables import Study
from nrm.seasons.drawing import Settings
from nrm.seasons.verdicts import verdict
from records.made_export import BOOKINGS, COLUMNS, FARES, STOPS, ExportTest
from seasons.made_results import results_of

TOO_MUCH = ("as joined, the bookings that stood take up to 7 of 5 seats of Aachen - Cassel, in 1 of 2 seasons; "
            "they earned 224 a season at these fares")
OTHER = "a journey from or to a stop that is joined takes a seat on all of the leg, so this is another train"
BUT = ("But the leg AAC-CAS was joined at Bonn: a journey from or to there takes a seat on all of it, and in {} up to "
       "7 seats are asked for of its 5. What ran may have sold them all, so these amounts and the bound are of another "
       "train.")


class Joined(ExportTest):
    """On 7 March two seats are taken from Aachen to Bonn, two to Cassel, three from Bonn on: 4 and 5 on the two legs,
    and 7 on both as one. They brought 2 times 45, 2 times 91 and 3 times 21; on 14 March 91 and 21: 447 in all."""

    def joined(self, seats: int, *more: str, rows: str = BOOKINGS) -> tuple[str, str]:
        """The network and what is told where both legs are one of some seats."""
        path = self.file("joined.csv", f"Aachen-Cassel,{seats}\n")
        out, err, status = self.ran("log", self.export(rows), *COLUMNS, *STOPS, *FARES, "--seats-of", path,
                                    "--join", "Bonn", *more)
        self.assertEqual(status, 0, err)
        return out, err

    def test_what_stood_and_what_can_be_earned_is_told(self) -> None:
        """With five seats two of the cheapest, at 21, are refused: 405 in all, 202.5 a season."""
        self.want_in(self.joined(5)[1], f"{TOO_MUCH}, and no control can earn more than 203 on this network: "
                     f"{OTHER} than the one that ran\n")
        self.assertNotIn("as joined", self.joined(7)[1], "all of it has room")

    def test_no_bound_is_told_where_it_is_no_less(self) -> None:
        """Where 60 more seats at 91 were asked for and cancelled, a control could sell these."""
        rows = BOOKINGS + "7;void;2025-03-01;2025-03-07;;Aachen;Cassel;Flex;60;90,00 €\n"
        told = self.joined(5, "--cancels", "Status", "void", rows=rows)[1]
        self.want_in(told, f"{TOO_MUCH}: {OTHER}")
        self.assertNotIn("no control", told)
        told = self.joined(5, "--cancels", "Status", "void", "--net", rows=rows)[1]
        self.want_in(told, "no control can earn more than 203 ")

    def test_a_leg_that_isnt_joined_is_told_otherwise(self) -> None:
        """Five seats from Bonn to Cassel were sold on 7 March."""
        self.file("seats.csv", "Aachen-Bonn,8\nBonn-Cassel,4\n")
        words = [self.export(), *COLUMNS, *STOPS, *FARES, "--seats-of", "seats.csv"]
        self.want_in(self.ran("log", *words).err, "the bookings that stood take up to 5 of 4 seats of Bonn - Cassel, in 1 of 2 "
                     "seasons: so more than these may be sold, or the leg has other seats than the file says\n")
        self.assertNotIn("bookings that stood", self.read().err)

    def test_an_end_of_the_line_joins_nothing(self) -> None:
        """Which is told, of those trains alone that end there if it is within another."""
        self.want_in(self.joined(5, "Aachen")[1], "--join Aachen joins nothing: it is an end of the line\n")
        self.assertNotIn("joins nothing", self.joined(5)[1])
        rows = BOOKINGS.replace(";;Aachen", ";RE 12;Aachen").replace(";;Bonn", ";RE 12;Bonn") + (
            "7;sold;2025-03-06;2025-03-07;RE 7;Bonn;Cassel;Saver;1;21,50 €\n")
        seats = self.file("both.csv", "RE 12,9\nRE 7,9\n")
        told = self.ran("log", self.export(rows), *COLUMNS, *STOPS, *FARES, "--train", "Train", "--seats-of", seats,
                        "--join", "Bonn").err
        self.want_in(told, "--join Bonn joins nothing of RE 7: it is an end of the line\n")

    def test_the_list_of_names_says_that_a_leg_is_joined(self) -> None:
        """And a leg keeps its name, from a list without these words too."""
        made = self.joined(5, "--names", "names.csv")[0]
        listed = (self.folder / "names.csv").read_text()
        self.want_in(listed, 'AAC-CAS,"Aachen - Cassel, joined at Bonn"\n')
        self.assertEqual(self.joined(5, "--names", "names.csv")[0], made)
        self.assertEqual((self.folder / "names.csv").read_text(), listed)
        self.file("names.csv", listed.replace('"Aachen - Cassel, joined at Bonn"', "Aachen - Cassel").replace(
            "AAC-CAS,", "MINE,"))
        self.want_in(self.joined(5, "--names", "names.csv")[0], "leg,MINE,5\n")
        self.want_in((self.folder / "names.csv").read_text(), 'MINE,"Aachen - Cassel, joined at Bonn"\n')

    def test_a_season_says_it(self) -> None:
        """By the list of names: of 7 March, and not of 14 March, on which there was room."""
        for day, stream in (("2025-03-07", "7.txt"), ("2025-03-14", "14.txt")):
            network = self.file("network.csv", self.joined(5, "--names", "names.csv", "--stream", day, stream)[0])
        words = ["--names", "names.csv", "--out", "pictures", *self.with_program]
        told = self.told("season", network, "7.txt", *words, env=self.blind()).splitlines()[0]
        self.assertTrue(told.endswith(BUT.format("this season")), told)
        self.assertNotIn("But", self.told("season", network, "14.txt", *words, env=self.blind()).splitlines()[0])
        self.assertNotIn("But", self.told("season", network, "7.txt", *words[2:], env=self.blind()).splitlines()[0])

    def test_a_run_of_seasons_says_it(self) -> None:
        """In one of two histories."""
        network = Network.read(self.file("network.csv", self.joined(5)[0]))
        results = {"net": results_of({"bid": [5, 6], "first": [4, 5]})}
        settings = Settings(modes=("bid", "first"))
        texts = {"AAC-CAS": "Aachen - Cassel, joined at Bonn"}
        told = verdict(Study({"net": network}, settings, results, texts))
        self.assertTrue(told.endswith(BUT.format("1 of 2 histories of net")), told)
        self.assertNotIn("But", verdict(Study({"net": network}, settings, results)))


class Bounds(ExportTest):
    def test_no_sales_earn_more(self) -> None:
        """All ways to sell what was asked for are tried, on a train of four stops of which one is joined."""
        draw, day = random.Random(7), datetime.date(2025, 3, 7)
        journeys = list(itertools.combinations("ABCD", 2))
        for _ in range(40):
            some = [(stops, draw.randint(1, 3)) for stops in draw.sample(journeys, 4)]
            some += [(stops, 1) for stops in zip("ABC", "BCD")]  # so that there are all stops
            bookings = [Booking(at, Request(day, 1, f"{' - '.join(stops)} {at}", seats), "", stops, str(at),
                                Decimal(1), "") for at, (stops, seats) in enumerate(some)]
            offer = Offer(bookings, TrainLines(bookings, [list("ABCD")], ["B"]))
            fares = {it: draw.randint(1, 9) for it in offer.products}
            seats = {it: draw.randint(0, 5) for it in offer.legs}
            stood = Stood(bookings, offer, seats, fares, Demand([it.request for it in bookings], [7]))
            best = 0
            for sold in itertools.product(*(range(it.request.seats + 1) for it in bookings)):
                taken = {leg: sum(count for it, count in zip(bookings, sold)
                                  if leg in [one.text for one in offer.products[it.request.product].legs])
                         for leg in seats}
                if all(taken[leg] <= seats[leg] for leg in seats):
                    best = max(best, sum(fares[it.request.product] * count for it, count in zip(bookings, sold)))
            self.assertGreaterEqual(stood.bound(), best)
            self.assertEqual(stood.earned(), sum(fares[it.request.product] * it.request.seats for it in bookings))
