"""What a name stands for is shown beside it, in tables, pictures and pages, wherever a list of names is said."""
from __future__ import annotations

import os
import unittest

from harness import EXAMPLES, PlaceTest
from nrm.libraries import is_there
from nrm.network import Network
from nrm.pages.tables import Table, with_text
from nrm.seasons.comparing_tables import Study
from nrm.seasons.drawing import Settings
from nrm.seasons.results import Results
from seasons.clusters import LOG, by_one_process

NAMES = 'name,stands for\nVB-Q,"Wien - Budapest, <light>"\nVIE-BUD,Wien - Budapest\nZV-Q,ZV-Q\nOLD,gone\n'
TEXTS = {"VB-Q": "Wien - Budapest, <light>", "VIE-BUD": "Wien - Budapest"}


class Texts(PlaceTest):
    def setUp(self) -> None:
        super().setUp()
        self.names = ["--names", self.file("names.csv", NAMES)]

    def test_stand_beside_names(self) -> None:
        """If they are others, in the first column alone."""
        self.assertEqual([with_text(it, {"A": "x", "B": "B"}) for it in "ABC"], ["A: x", "B", "C"])
        table = Table("A", ["A", "B"], [["A", "A"], ["B", 1], [3, "A"]]).with_texts({"A": "x"})
        found = table.title, table.heads, table.cells()
        self.assertEqual(found, ("A", ["A", "B"], [["A: x", "A"], ["B", "1"], ["3", "A"]]))

    def test_of_a_season_and_thresholds(self) -> None:
        words = [LOG, EXAMPLES / "log" / "commands.txt", "--leg", "VIE-BUD", *self.with_program]
        plain = self.told("season", *words)
        told = self.told("season", *words, *self.names)
        for line in ("\n  VIE-BUD: Wien - Budapest  ", "\n  VB-Q: Wien - Budapest, <light>  ", "\n  ZV-Q  "):
            self.want_in(told, line)
        self.want_in(told, "\nSeats of VIE-BUD: Wien - Budapest under bid: sold, left\n")
        for text in TEXTS.values():
            told = told.replace(f": {text}", "")
        self.assertEqual(told.split(), plain.split(), "nothing else is told otherwise")
        cuts = self.told("thresholds", LOG, 2, *self.names, "--pictures", "pictures", *self.with_program)
        self.want_in(cuts, "\n  VIE-BUD: Wien - Budapest  ")
        self.want_in(cuts, "\nThe fares on VIE-BUD: Wien - Budapest\n")
        optimum = self.told("optimum", LOG, "VIE-BUD", *self.names, *self.with_program)
        self.want_in(optimum, f"\n  VB-Q: {TEXTS['VB-Q']}  ")

    @unittest.skipUnless(is_there("jinja2") and is_there("matplotlib"), "there is no jinja2 or no matplotlib")
    def test_a_text_is_no_formula_and_no_markup(self) -> None:
        """Neither what TeX takes for one, nor what a browser does."""
        names = self.file("odd.csv", 'name,stands for\nVIE-BUD,"$\\frac{x$ <script>1</script> & $5-$9"\n')
        words = [LOG, EXAMPLES / "log" / "commands.txt", "--out", "page", "--leg", "VIE-BUD", *self.with_program]
        self.told("season", *words, "--names", names, env=os.environ)
        text = (self.folder / "page" / "season.html").read_text()
        self.want_in(text, "$\\frac{x$ &lt;script&gt;1&lt;/script&gt; &amp; $5-$9")
        self.assertNotIn("<script", text)
        self.want_in((self.folder / "page" / "seats.svg").read_text(), "$\\frac{x$ &lt;script&gt;1&lt;/script&gt;")

    def test_of_simulated_seasons(self) -> None:
        rows = by_one_process(self.program, LOG, Settings(), 2)
        results = Results.read(self.file("rows.csv", rows))
        network = Network.read(str(LOG))
        for texts, wanted in ((TEXTS, {f"{name}: {text}" for name, text in TEXTS.items()}), ({}, {*TEXTS})):
            told = list(Study({"log": network}, Settings(), {"log": results}, texts).tables())
            named = {row[0] for table in told for row in table.cells() if row[0].startswith(tuple(TEXTS))}
            self.assertEqual(named, wanted)

    def test_of_rows_that_are_refused(self) -> None:
        path = self.file("network.csv", "periods,1,1\nleg,VIE-BUD,1000\nproduct,VB-Q,5,VIE-BUD\n")
        told = self.ran("explain", path, *self.names).out.splitlines()
        self.assertEqual(told[0], "refused row 2 why 7 range")
        self.assertEqual(told[3:], ["    VIE-BUD: Wien - Budapest", f"{path}: rows refused 1"])

    def test_a_list_that_isnt_there_is_refused(self) -> None:
        for name, *words in (("explain", LOG), ("season", LOG, "none"), ("thresholds", LOG, 2)):
            self.want_in(self.stopped(name, *words, "--names", "none.csv"), "none.csv: No such file")

    @unittest.skipUnless(is_there("jinja2") and is_there("matplotlib"), "there is no jinja2 or no matplotlib")
    def test_of_pictures_and_pages(self) -> None:
        """Each text is text there."""
        words = [LOG, EXAMPLES / "log" / "commands.txt", "--out", "page", "--leg", "VIE-BUD", *self.with_program]
        self.told("season", *words, *self.names, env=os.environ)
        page = (self.folder / "page" / "season.html").read_text()
        for wanted in ('<th scope="row" class="long">VB-Q: Wien - Budapest, &lt;light&gt;</th>',
                       '<th scope="row" class="long">VIE-BUD: Wien - Budapest</th>',
                       "The seats of VIE-BUD: Wien - Budapest"):
            self.want_in(page, wanted)
        pictures = {it: (self.folder / "page" / f"{it}.svg").read_text() for it in ("bid-prices", "seats", "refused")}
        for name, wanted in (("bid-prices", ">Wien - Budapest</text>"), ("seats", ">Wien - Budapest</text>"),
                             ("refused", ">VB-Q: Wien - Budapest, &lt;light&gt; (")):
            self.want_in(pictures[name], wanted)
