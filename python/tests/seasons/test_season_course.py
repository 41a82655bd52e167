"""The course of a season: what is told of it is what the documents show, and replies are dealt to their lines."""
from __future__ import annotations

import os
import sys

from harness import BLINDED, EXAMPLES, PlaceTest, needs
from made import FEW, OF_REFUNDS, SECOND, reference_replies
from nrm import __version__
from nrm.commands.running import OF_DEBIAN
from nrm.libraries import is_there
from nrm.pages.heads import today

DEBIAN_HAS_IT = all(os.path.isdir(f"{OF_DEBIAN}/{it}") for it in BLINDED)  # and the command goes on under its Python


class Courses(PlaceTest):
    def words(self, example: str, *more: object) -> list[object]:
        return [EXAMPLES / example / "network.csv", EXAMPLES / example / "commands.txt", "--out", "pictures", *more,
                *self.with_program]

    def test_tells_what_the_documents_show(self) -> None:
        out = self.told("season", *self.words("log"))
        self.assertEqual(out.splitlines()[0], "davn earns 2,840 in this season, 97.3 % of the bound; bid 2,110, "
                         "72.3 %; first 1,240, 42.5 %. One season says little of others: `nrm-tools simulate` plays "
                         "many.")
        for wanted in ("network: ", "stream: ", f"date: {today()}\n", f"versions: nrm-tools {__version__}, "):
            self.want_in(out, f"\n{wanted}")
        self.want_in(out, "  period 2  1,080    630    300  1,080\n  period 3  1,240  1,270    620  1,530\n  end       "
                          "1,240  2,110  2,840  2,920\n")
        self.want_in(out, "  ZRH-VIE      110       320       320  320\n")
        decimal = self.told("season", *self.words("log", "--decimal"))
        self.want_in(decimal, "  end        1240  2110  2840  2920.00\n")
        self.assertNotIn("/", decimal.partition("Revenue of")[2], "fractions in decimals")

    def test_tables_of_nothing_but_zeros_are_named(self) -> None:
        """For nothing was asked in the past, so that each bid price is 0."""
        stream = self.file("stream", "book P 1\n")
        out = self.told("season", self.file("few.csv", FEW), stream, "--out", "pictures", *self.with_program)
        self.assertEqual(out.splitlines()[0].partition(".")[0], "first earns 5 in this season, 100")
        self.want_in(out, "\nAll numbers are 0 in: Bid prices under bid, in currency units; Bid prices under davn, in "
                     "currency units.\n")
        self.assertNotIn("Bid prices", out.partition("Each point of the season")[2])
        self.assertNotIn("All numbers are 0", self.told("season", *self.words("log")))

    @needs("jinja2")
    def test_a_page_has_the_tables_and_the_pictures_that_there_are(self) -> None:
        path = self.folder / "pictures" / "season.html"
        out = self.told("season", *self.words("log"), env=os.environ)
        self.want_in(out, "pictures/season.html\n")
        page, drawn = path.read_text(), 4 if is_there("matplotlib") or DEBIAN_HAS_IT else 0
        self.assertEqual(sorted(it.name for it in path.parent.glob("*.svg")),
                         ["bid-prices.svg", "refused.svg", "revenue.svg", "seats.svg"][:drawn])
        self.assertEqual((page.count("<svg "), page.count("<desc "), "<script" in page), (drawn, drawn, False))
        self.told("season", *self.words("log", "--decimal"), env=self.blind("matplotlib"))
        page = path.read_text()
        self.want_in(page, '<tr><th scope="row">end</th><td>1240</td><td>2110</td><td>2840</td><td>2920.00</td></tr>')
        self.assertEqual(page.count("<svg "), 0)

    @needs("matplotlib")
    def test_pictures_are_the_same_bytes_again(self) -> None:
        found = []
        for _ in range(2):
            self.told("season", *self.words("log"), env=self.blind("jinja2"))
            paths = sorted((self.folder / "pictures").iterdir())
            found.append({it.name: it.read_bytes() for it in paths})
        self.assertEqual(len(found[0]), 8)
        self.assertTrue(found[0] == found[1])

    def test_tells_what_was_withheld(self) -> None:
        """And counts the seats left by the authorised ones. 33 in 100 of 800 are 264; AC gives back nothing."""
        network, stream = self.file("second.csv", SECOND), self.file("stream", "".join(f"{it}\n" for it in OF_REFUNDS))
        out = self.told("season", network, stream, "--out", "pictures", "--leg", "AB", *self.with_program)
        withheld = out.partition("Withheld of the bookings that were cancelled, in currency units\n\n")[2]
        withheld = withheld.partition("\n\n")[0]
        last = reference_replies("first", SECOND, [*OF_REFUNDS, "hindsight"])[-1].split()
        self.assertEqual([it.split() for it in withheld.splitlines()][1], ["opening", "0", "0", "0"])
        self.assertEqual([it.split()[:3] for it in withheld.splitlines()][2:],
                         [["period", "2", "536"], ["end", f"{int(last[5]):,}", withheld.split()[-2]]])
        self.want_in(out, "Seats of AB, 3 seats, 5 authorised, under first: sold, left\n")
        self.want_in(out, "\n  opening      0     5\n")
        plain, season = (self.told("season", *self.words(it)) for it in ("log", "season"))
        self.assertEqual(("Withheld" in plain, "authorised" in plain), (False, False))
        # of 1530 that were paid for seven bookings
        self.want_in(season, "  period 4    736    736    736\n  end       1,149  1,149  1,149\n")
        self.want_in(season, "Seats of VIE-LHR-2, 48 seats, 50 authorised, under davn: sold, left, and protected for "
                             "buckets\n")

    def test_deals_replies_to_their_lines(self) -> None:
        """A stream that asks for plans and legs itself, and has lines that are bad."""
        lines = (EXAMPLES / "log" / "commands.txt").read_text().splitlines()
        mixed = [it for line in lines for it in (line, "plan", "leg ZRH-VIE", "hindsight", "x", "leg NONE")]
        words = ["--out", "pictures", *self.with_program]
        streams = [self.file(f"stream-{len(it)}", "\n".join(it) + "\n") for it in (lines, mixed)]
        plain, more = (self.told("season", EXAMPLES / "log" / "network.csv", it, *words) for it in streams)
        self.assertEqual(plain.partition("Revenue")[2], more.partition("Revenue")[2])

    def test_says_what_isnt_made_and_which_python_may_have_it(self) -> None:
        for blinded in (["matplotlib"], ["matplotlib", "jinja2"]):
            err = self.ran("season", *self.words("log"), env=self.blind(*blinded)).err
            without = [it for it in BLINDED if it in blinded or not is_there(it)]
            made = "there are no pictures and no page" if len(without) > 1 else "there are no pictures"
            self.want_in(err, f"nrm-tools season: {made}, since {sys.executable}, the Python that runs this, has no "
                              f"{' and no '.join(without)}; ")
            for library in without:
                self.want_in(err, f"python3-{library}")
