"""Exports that a script makes, with faults in them: each is told with its line, and what is read is what was put in."""
from __future__ import annotations

import re

from nrm.network import Network
from records.made_export import ExportTest
from seasons.clusters import takes_long

WORDS = ["--departs", "reisetag", "--booked", "gebucht am", "--product", "tarif", "--seats", "personen",
         "--train", "zug", "--from", "von", "--to", "nach", "--amount", "preis", "--seats-of", "seats.csv",
         "--id", "buchungsnr.", "--cancels", "vorgang", "--cuts", "45,21,10,4,1", "--names", "names.csv",
         "--weekday", "fri"]
UNTIL, SEASON = ["--until", "2025-06-13"], ["--stream", "2025-06-20", "stream.txt"]


class Made(ExportTest):
    def made(self, *words: object) -> dict[str, str]:
        """Makes an export, and gives what its maker tells of it."""
        told, err, status = self.bench("export", "export.csv", "seats.csv", *words)
        self.assertEqual(status, 0, err)
        return dict(re.findall(r"(rows|twice|alone|quote in line|total in line|departure on) ([0-9-]+)", told))

    def seats_of_bookings(self) -> int:
        """The seats of the Fridays up to the last, counted apart from the tool: those of each booking once, by its
        number."""
        lines = (self.folder / "export.csv").read_bytes().decode("cp1252").splitlines()
        fields = [it.split(";") for it in lines if '"' not in it]
        return sum({it[0]: int(it[8]) for it in fields
                    if it[1:2] == ["Buchung"] and it[3].startswith("Fr, ") and it[3] != "Fr, 20. Juni 2025"}.values())

    def goes_to_a_season(self, *words: object) -> None:
        """In four commands; what is wrong with the export is told."""
        put_in = self.made(*words)
        out, err, status = self.ran("log", "export.csv", *WORDS, "--leave-out", 2, *UNTIL, *SEASON)
        self.assertEqual(status, 0, err)
        rows = int(put_in["rows"])
        for wanted in (f"rows read {rows} of {rows + 4} lines; down to the headings 3, empty 0, ",
                       f"rows that occur twice, which count once: {put_in['twice']}, line",
                       f"left out: line {put_in['quote in line']} can't be read: a quote is opened in it",
                       f"left out: line {put_in['total in line']}: it has no day of departure\n",
                       f"days between without one: {put_in['departure on']}"):
            self.want_in(err, wanted)
        alone = re.findall(r"which don't count: ([0-9]+), ", err)[0]
        self.assertGreaterEqual(int(alone), int(put_in["alone"]), "and that of the booking with the quote, if any")
        path = self.file("network.csv", out)
        network = Network.read(path)
        self.assertEqual(network.histories, 12)
        self.assertEqual(sum(it.demand_in_all() for it in network.products.values()), self.seats_of_bookings())
        self.nrm("plan", "davn", path)
        self.told("thresholds", path, 3, "--names", "names.csv", "--out", "cuts.csv", *self.with_program)
        told = self.told("season", "cuts.csv", "stream.txt", "--names", "names.csv", *self.with_program)
        self.want_in(told, "2301-BOKO-FL: IC 2301 Bonn Hbf - Koblenz Hbf Flexpreis  ")
        self.stream_is_as_it_was(network)

    def stream_is_as_it_was(self, network: Network) -> None:
        """With room for all, each request is sold and each cancellation is of one that stands; and what stands at the
        end is what the stream of that alone asks for."""
        roomy = re.sub("^(leg,[^,]*),.*", r"\1,999", (self.folder / "network.csv").read_text(), flags=re.M)
        stream = (self.folder / "stream.txt").read_bytes()
        self.assertIn(b"\ncancel ", stream)
        path = self.file("roomy.csv", roomy)
        *replies, last = self.nrm("run", "first", path, given=stream + b"hindsight\n").splitlines()
        self.assertLessEqual({it.split()[0] for it in replies}, {"ok", "cancelled", "optimised"})
        net = self.told("log", "export.csv", *WORDS, "--leave-out", 2, "--net", *SEASON[:2]).splitlines()
        asked = [it.split()[1:] for it in net if it.startswith("book ")]
        revenue = sum(network.products[product].fare * int(seats) for product, seats in asked)
        self.want_in(last, f" revenue {revenue} withheld 0")

    def test_goes_to_a_season(self) -> None:
        self.goes_to_a_season("--fridays", "--a-day", 110, "--trains", 2, "--of-a-train", 30)

    @takes_long
    def test_goes_to_a_season_from_60000_rows(self) -> None:
        self.goes_to_a_season()
