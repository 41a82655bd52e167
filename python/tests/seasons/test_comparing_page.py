"""Pages stand alone, and show in a browser; pictures are the same bytes each time; what is missing is told."""
from __future__ import annotations

import re
import shutil
import tempfile
import unittest
import warnings
from pathlib import Path
from typing import Sequence

from elements import Elements
from harness import EXAMPLES, needs
from nrm import __version__
from nrm.network import Network
from nrm.pages.heads import today
from nrm.seasons.comparing_page import pictures
from nrm.seasons.comparing_tables import Study
from nrm.seasons.drawing import Settings
from nrm.writing_files import Output
from seasons.clusters import LOG, SECONDS, SimulateTest, by_one_process, needs_dask
from seasons.made_results import network_of, results_of

FRAME = """<iframe id="page" src="%s" width="%d" height="900" style="border:0"></iframe><p id="told"></p><script>
onload = () => {
  const inside = document.getElementById("page").contentDocument, shown = getComputedStyle(inside.body)
  const told = [inside.documentElement.scrollWidth, inside.documentElement.scrollHeight, shown.backgroundColor]
  document.getElementById("told").textContent = told.join(" ")
}
</script>"""
PICTURES = {"shares", "differences-bid-first", "differences-davn-first", "differences-davn-bid"}


@needs("matplotlib")
class Several(unittest.TestCase):
    """Networks that weren't played: what each earns in each season is said here."""

    def names(self, networks: dict[str, Network], earned: Sequence[int]) -> list[str]:
        """The names of the pictures, each of which can be drawn."""
        from nrm.pages.figures import written  # here, since it takes matplotlib
        results = {it: results_of({"bid": [at + more for more in earned], "davn": [at + 2 * more for more in earned]})
                   for at, it in enumerate(networks)}
        found = list(pictures(Study(networks, Settings(modes=("bid", "davn")), results)))
        with tempfile.TemporaryDirectory() as folder, warnings.catch_warnings(), Output() as output:
            warnings.simplefilter("error")
            list(written([(it.name, it.draw) for it in found], folder, output, kinds=["svg"]))
        self.assertEqual([it.about for it in found if not it.about.endswith(".")], [])
        return [it.name for it in found]

    def test_networks_are_shown_beside_the_best(self) -> None:
        """By their seats if these differ alone; from one season too, which tells no interval."""
        for earned in ([5, 9, 7], [5]):
            other = {"A": network_of(), "B": network_of(fare=51)}
            self.assertEqual(self.names(other, earned), ["networks", "shares", "differences-davn-bid-1",
                                                         "differences-davn-bid-2"])
            seats = {"A": network_of(authorised=3), "B": network_of(authorised=4)}
            self.assertEqual(self.names(seats, earned), ["authorised", "shares"])
            self.assertEqual(self.names({"A": network_of()}, earned), ["shares", "differences-davn-bid"])


@needs_dask
class Pages(SimulateTest):
    def told_of_eight(self, name: str, **more: object) -> str:
        """What is told of eight seasons that were played already, with the pictures and the page in a folder."""
        (self.folder / name).mkdir()
        self.file(f"{name}/network-seasons.csv", by_one_process(self.program, LOG, Settings(), 8))
        return self.simulated(LOG, "--seasons", 8, "--out", name, **more)

    @needs("matplotlib", "jinja2")
    def test_pages_stand_alone(self) -> None:
        self.told_of_eight("page", env=None)
        self.told("season", LOG, EXAMPLES / "log" / "commands.txt", "--out", "page", *self.with_program, env=None,
                  timeout=SECONDS)
        for name in ("simulate", "season"):
            path = self.folder / "page" / f"{name}.html"
            text = path.read_text()
            page = Elements(text)
            found = page.all("html"), len(page.all("h1")), page.all("script"), len(page.all("svg"))
            self.assertEqual(found, ([{"lang": "en"}], 1, [], 4), name)
            self.assertEqual(re.findall(r"""(?:src|href)=["'](?!#)[^"']*|@import|url\((?!#)""", text), [], name)
            ids = page.values("id")
            self.assertEqual(len(ids), len(set(ids)), f"{name}: names on the page")
            for it in page.all("svg"):
                self.assertEqual((it.get("role"), set(str(it["aria-labelledby"]).split()) <= set(ids)),
                                 ("img", True), name)
            self.assertEqual({it.get("scope") for it in page.all("th")}, {"col", "row"}, name)
            self.assertEqual(len(page.all("caption")), len(page.all("table")), name)
            self.want_in(text, 'name="viewport"')
            self.begins_with_a_verdict(text)
            self.open(path)

    def begins_with_a_verdict(self, text: str) -> None:
        """Sees that a page says first what is best, then what it was made of, then shows pictures, then tables."""
        places = [text.index(it) for it in ('<p class="verdict">davn ', "<dl>", "<h2>Pictures</h2>", "<svg ",
                                            "<h2>Tables</h2>", "<table>")]
        self.assertEqual(places, sorted(places))
        self.assertLess(text.rindex("<svg "), text.index("<table>"))
        for wanted in ("<dt>network</dt> <dd>", f"<dd>{today()}</dd>", f"<dd>nrm-tools {__version__}, "):
            self.want_in(text, wanted)

    def open(self, path: Path) -> None:
        """Opens a page in Chromium, wide and narrow, light and dark: it has its colours, and doesn't move sideways."""
        frame = self.folder / f"{path.stem}-frame.html"
        for width, words, background in ((1200, [], "rgb(255, 255, 255)"), (360, [], "rgb(255, 255, 255)"),
                                         (360, ["--force-dark-mode"], "rgb(22, 24, 27)")):
            with self.subTest(f"{path.name} at {width} {words}"):
                if not shutil.which("chromium"):
                    self.skipTest("no page was opened: there is no Chromium (Debian's package is chromium)")
                frame.write_text(FRAME % (path.as_uri(), width))
                told = self.finished("chromium", "--headless", "--no-sandbox", "--disable-gpu", "--hide-scrollbars",
                                     "--allow-file-access-from-files", f"--user-data-dir={self.folder}/chromium",
                                     *words, "--dump-dom", frame.as_uri(), timeout=SECONDS).out
                found = re.search(r'<p id="told">([0-9]+) ([0-9]+) (rgb[^<]*)</p>', told)
                self.assertTrue(found, told[-600:])
                self.assertEqual((found[1], found[3]), (str(width), background), "its width and colour")
                self.assertGreater(int(found[2]), 1000, "its height")

    @needs("matplotlib")
    def test_pictures_are_the_same_bytes_each_time(self) -> None:
        found = []
        for name in ("one", "two"):
            self.told_of_eight(name, env=None)
            found.append({it.stem: it.read_bytes() for it in (self.folder / name).glob("*.svg")})
        self.assertEqual((found[0] == found[1], found[0].keys()), (True, PICTURES))
        for text in found[0].values():
            self.assertNotIn(b"dc:date", text)

    def test_without_matplotlib_and_jinja2_the_tables_come_and_a_sentence(self) -> None:
        (self.folder / "tables").mkdir()
        self.file("tables/network-seasons.csv", by_one_process(self.program, LOG, Settings(), 8))
        done = self.ran("simulate", LOG, "--seasons", 8, "--out", "tables", *self.with_program, timeout=SECONDS)
        self.assertEqual(done.status, 0, done.err)
        self.want_in(done.err, "nrm-tools simulate: there are no pictures and no page, since ")
        self.want_in(done.out, "What one mode earns more than another on the same requests")
        self.assertEqual(sorted(it.name for it in (self.folder / "tables").iterdir()),
                         ["network-seasons.csv", "settings.json", "summary.txt"])
