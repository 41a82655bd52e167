"""What is told of seasons is what their rows say."""
from __future__ import annotations

import csv
import json
import re
from pathlib import Path

from nrm import Stop
from nrm.network import Network
from nrm.replies import MODES
from nrm.seasons.drawing import Settings
from nrm.seasons.results import Results
from nrm.seasons.rows import Seasons, check_same
from seasons.clusters import LOG, SEASON, SECONDS, SimulateTest, needs_dask
from seasons.test_drawing import spread

SETTINGS = ["--show", "0.9", "--denied-cost", "700", "--cancel", "0.1", "--parties", "1:80,2:15,4:5"]


@needs_dask
class Told(SimulateTest):
    def test_sums_of_the_rows_are_the_summary(self) -> None:
        out = " ".join(self.simulated(SEASON, "--seasons", 12, "--workers", 2, "--out", "sums", *SETTINGS).split())
        rows = list(csv.DictReader(self.whole("sums").splitlines()))
        by_mode = {mode: [it for it in rows if it["mode"] == mode] for mode in MODES}
        for mode, own in by_mode.items():
            self.assertEqual([int(it["season"]) for it in own], list(range(12)), mode)
            means = [sum(int(it[name]) for it in own) / 12
                     for name in ("revenue", "withheld", "denied", "empty", "earned")]
            share = sum(int(it["revenue"]) for it in own) / sum(float(it["bound"]) for it in own)
            texts = [f"{means[0]:,.1f}", f"{means[1]:,.1f}", f"{means[2]:.2f}", f"{means[3]:.2f}", f"{means[4]:,.1f}",
                     f"{spread([int(it['earned']) for it in own]):,.1f}", f"{100 * share:.1f}", "%"]
            self.want_in(out, " ".join([mode, *texts]))
            for row in own:
                self.row_adds_up(row)
        differences = [int(a["earned"]) - int(b["earned"]) for a, b in zip(by_mode["davn"], by_mode["bid"])]
        mean, half = sum(differences) / 12, 1.96 * spread(differences)
        self.want_in(out, f"davn less bid {mean:,.1f} {spread(differences):,.1f} {mean - half:,.1f} {mean + half:,.1f}")
        asked, refused = (sum(int(it[f"{what} VIE-LHR-2Q"]) for it in by_mode["davn"]) for what in ("asked", "refused"))
        found = re.search(r"VIE-LHR-2Q (?:[0-9.]+ ){2}(?:[0-9.]+ % ){2}([0-9.]+) %", out)
        self.assertEqual(found and found[1], f"{100 * refused / asked:.1f}")

    def row_adds_up(self, row: dict[str, str]) -> None:
        """Sees that the numbers of a row fit each other and the network."""
        legs = Network.read(SEASON).legs
        loads = [(int(row[f"shown {leg.name}"]), leg.seats) for leg in legs.values()]
        self.assertEqual(int(row["denied"]), sum(max(0, taken - seats) for taken, seats in loads))
        self.assertEqual(int(row["empty"]), sum(max(0, seats - taken) for taken, seats in loads))
        self.assertEqual(int(row["earned"]), int(row["revenue"]) + int(row["withheld"]) - 700 * int(row["denied"]))
        for leg in legs.values():
            self.assertTrue(int(row[f"shown {leg.name}"]) <= int(row[f"booked {leg.name}"]) <= leg.authorised, leg)

    def test_seats_and_thresholds_change_no_request(self) -> None:
        """So networks are compared on the same seasons; and of those with other authorised seats the best is told."""
        text = Path(SEASON).read_text()
        paths = [self.file(f"with-{it}.csv", re.sub("leg,VIE-LHR-2,48,50,.*", f"leg,VIE-LHR-2,48,{it}", text))
                 for it in (30, 52)]
        out = self.simulated(*paths, "--seasons", 6, "--workers", 2, "--out", "two", "--show", "0.9",
                             "--denied-cost", "500", "--modes", "first")
        rows = [list(csv.DictReader((self.folder / "two" / f"with-{it}-seasons.csv").read_text().splitlines()))
                for it in (30, 52)]
        for a, b in zip(*rows):
            self.assertEqual([a[it] for it in a if it.startswith("asked ")],
                             [b[it] for it in b if it.startswith("asked ")])
        self.want_in(out, "What is earned under first, by the authorised seats of VIE-LHR-2")
        self.assertRegex(out, re.compile(r"^  52 .* most$", re.M))


    def test_networks_that_differ_in_fares_and_demand_are_compared_on_the_same_draws(self) -> None:
        text = Path(LOG).read_text()
        dearer = text.replace("product,ZV-Q,110", "product,ZV-Q,120")
        other = dearer.replace("demand,VB-Q,1,2,3,0", "demand,VB-Q,1,4,3,1")
        self.assertEqual(len({text, dearer, other}), 3, "both are replaced")
        paths = [self.file("as-it-is.csv", text), self.file("changed.csv", other)]
        out = self.simulated(*paths, "--seasons", 9, "--workers", 2, "--out", "two", "--modes", "first", "davn")
        a, b = (list(csv.DictReader((self.folder / "two" / f"{it}-seasons.csv").read_text().splitlines()))
                for it in ("as-it-is", "changed"))
        others = [it for it in a[0] if it.startswith("asked ") and it != "asked VB-Q"]
        self.assertEqual([[row[it] for it in others] for row in a], [[row[it] for it in others] for row in b])
        self.assertNotEqual([row["asked VB-Q"] for row in a], [row["asked VB-Q"] for row in b])
        self.want_in(out, "each product's requests are drawn by its name")
        for mode in ("first", "davn"):
            differences = [int(y["earned"]) - int(x["earned"]) for x, y in zip(a, b) if x["mode"] == mode]
            mean, half = sum(differences) / 9, 1.96 * spread(differences)
            pairs = out.partition(f"What one network earns more than another under {mode} on the same draws")[2]
            self.want_in(" ".join(pairs.split()), f"changed less as-it-is {mean:,.1f} {spread(differences):,.1f} "
                         f"{mean - half:,.1f} {mean + half:,.1f}")
        self.want_in(self.stopped("simulate", paths[0], "--seasons", 9, "--out", "two", "--modes", "first", "davn",
                                  *self.with_program, timeout=SECONDS), "differs in: by-product")


class Files(SimulateTest):
    def test_settings_that_an_older_run_didnt_note_are_as_they_were(self) -> None:
        folder = str(self.folder)
        study = Seasons("network", LOG, Settings(), 5, folder)
        check_same(folder, Settings(), [study])
        noted = json.loads((self.folder / "settings.json").read_text())
        self.assertIs(noted["settings"].pop("by_product"), False)
        self.file("settings.json", json.dumps(noted))
        check_same(folder, Settings(), [study])
        self.file("settings.json", json.dumps(noted))
        with self.assertRaisesRegex(Stop, "differs in: by-product$"):
            check_same(folder, Settings(by_product=True), [study])

    def test_what_isnt_a_file_of_rows_is_told(self) -> None:
        for text in ("", "season,mode\n", "season,mode,bound,earned,revenue\n0,first,1.0000," + "9" * 4301 + ",1\n",
                     "season,mode,bound,earned,revenue\n0,first,1.0000," + "9" * 30 + ",1\n", Path(LOG).read_text()):
            with self.assertRaisesRegex(Stop, "isn't a file of rows that simulate wrote"):
                Results.read(self.file("rows.csv", text))
