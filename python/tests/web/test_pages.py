"""The page: what it shows, that it stays up to date, and that what is in the journal stays text."""
from __future__ import annotations

import json
import re
import socket
import time
from fractions import Fraction
from html.parser import HTMLParser
from typing import Iterator

from harness import SECONDS, needs, wait_for
from nrm.web.html_pages import STATIC
from nrm.web.page_words import amount, bars, curve, time_of, why
from server.serves import ONE, rows_in, talk
from web.webs import Running, WebTest, passed, until_read

MARKUP = "<img src=x onerror=alert(1)>"


class Text(HTMLParser):
    """The elements of a page, its text, and the rows of its tables."""

    def __init__(self, page: str) -> None:
        super().__init__()
        self.elements: list[tuple[str, dict[str, str | None]]] = []
        self.rows: list[list[str]] = []
        self.feed(page)

    def handle_starttag(self, tag: str, attrs: list[tuple[str, str | None]]) -> None:
        self.elements.append((tag, dict(attrs)))
        if tag == "tr":
            self.rows.append([])
        if tag in ("td", "th"):
            self.rows[-1].append("")

    def handle_data(self, data: str) -> None:
        if self.rows and self.rows[-1]:
            self.rows[-1][-1] += data.strip()

    def row(self, name: str) -> list[str]:
        """The row of a table whose first cell has a text."""
        [found] = [it for it in self.rows if it and it[0] == name]
        return found

    def of(self, tag: str) -> list[dict[str, str | None]]:
        return [attributes for name, attributes in self.elements if name == tag]


def events_of(connection: socket.socket) -> Iterator[dict[str, object]]:
    """The events of a stream."""
    with connection.makefile("rb") as lines:
        for line in lines:
            if line.startswith(b"data: "):
                yield json.loads(line[6:])


class PagesTest(WebTest):
    def stream(self, web: Running, path: str) -> socket.socket:
        made = socket.create_connection(("127.0.0.1", web.port), SECONDS)
        made.sendall(b"GET %s HTTP/1.1\r\nHost: localhost\r\n\r\n" % path.encode())
        return made

    @needs("jinja2")
    def test_the_page_of_all_networks(self) -> None:
        journal = self.journal("one", "two", file=ONE.encode())
        self.write(journal, [("book LOC 2", "ok 1"), ("book LOC 300", "no AB")], network=2)
        with self.web(journal) as web:
            until_read(web, "two", 2)
            page = Text(web.get("/").text)
            self.assertEqual(page.row("one"), ["one", "first", "0", "0", "0", "0", "300", "open"])
            self.assertEqual(page.row("two"), ["two", "first", "2", "2", "2", "2", "300", "open"])
            self.assertEqual([it["href"] for it in page.of("a")][-2:], ["/networks/one", "/networks/two"])
            with self.stream(web, "/events") as connection:
                events = events_of(connection)
                self.assertEqual([it[0] for it in next(events)["rows"]], ["one", "two"])  # type: ignore[attr-defined]
                self.write(journal, [("book LOC 5", "ok 1")])
                began = time.monotonic()
                told = next(events)["rows"]
                self.assertEqual(told, [["one", "first", 1, 1, 1, 5, 300, "open"]], "the one that has changed")
                self.assertLess(passed(began), 2, "about a second, where much else is at work")

    @needs("jinja2")
    def test_the_page_of_a_network(self) -> None:
        journal = self.journal("hub", mode="bid")
        with self.served(journal) as serve, self.web(journal, serve.path) as web:
            told = talk(serve, b"desk C-7 1\nbook HJ-Q 2\nbook HJ-Q 60\nbook NONE 1\ncancel 9\nbook HN-Y 1\ncancel 2\n")
            self.assertEqual(told.count(b"ok "), 2)
            web.get("/networks/hub")
            wait_for(lambda: "Bound of hindsight" in web.get("/networks/hub").text, "the bound")
            until_read(web, "hub", 6)
            told_now = web.get("/networks/hub").text
            page = Text(told_now)
            self.assertEqual(page.row("HAM-FRA")[:6], ["HAM-FRA", "60", "2", "58", "", "110"])
            self.assertEqual(page.row("HJ-Q"), ["HJ-Q", "270", "1", "2", "540", "HAM-FRA, FRA-JFK"])
            self.assertEqual(page.row("2")[2:], ["C-7", "book HJ-Q 60", "HAM-FRA lacks seats for a party of 60"])
            self.assertEqual(page.row("3")[4], "there is no such product")
            self.assertEqual(page.row("4")[4], "no booking of this number stands")
            self.want_in(told_now, "4 of 280 seats are sold")
            self.want_in(told_now, "<dd>540</dd>")
            self.assertIn("/networks/hub/lines/2", [it.get("href") for it in page.of("a")])
            line = web.get("/networks/hub/lines/2").text
            self.want_in(line, f"<pre tabindex=\"0\">nrm-tools why {journal} hub 2</pre>")
            for path in ("lines/7", "lines/0", "lines/x", "lines/1e3"):
                self.assertEqual(web.get(f"/networks/hub/{path}").status, 404, path)
            self.assertEqual(web.get("/networks/none").status, 404)
            desks = {row[1] for row in rows_in(journal)}
        self.assertEqual(desks, {"C-7"}, "nothing of the page leaves a row")

    @needs("jinja2")
    def test_prices_follow_each_plan(self) -> None:
        """And what changes is sent on: the parts that have, and no others."""
        journal = self.journal("hub", mode="bid")
        with self.served(journal) as serve, self.web(journal, serve.path) as web:
            with self.stream(web, "/networks/hub/events") as connection:
                events = events_of(connection)
                self.assertEqual(set(next(events)["parts"]),  # type: ignore[call-overload]
                                 {"summary", "legs", "money", "products", "refusals"})
                looks = web.web.looks
                wait_for(lambda: "hub" in looks.entries and looks.entries["hub"].look.priced, "the first plan")
                self.assertEqual(looks.entries["hub"].look.prices["HAM-FRA"], 110)
                talk(serve, b"desk C-7\nbook HJ-Q 50\nreoptimise 4\n")
                wait_for(lambda: len(looks.entries["hub"].look.priced) == 2, "the second plan")
                self.assertEqual([it.plans for it in looks.entries["hub"].look.priced], [0, 1])
                first, second = (it.prices for it in looks.entries["hub"].look.priced)
                leg = next(it for it in first if first[it] != second[it])
                seen: dict[str, str] = {}
                for _ in range(4):
                    seen.update(next(events)["parts"])  # type: ignore[call-overload]
                    if "legs" in seen and Text(seen["legs"]).row(leg)[5] == amount(second[leg]):
                        break
                self.assertEqual(Text(seen["legs"]).row(leg)[5], amount(second[leg]))
                points = [it["points"] for it in Text(seen["legs"]).of("polyline")]
                self.assertIn(curve([first[leg], second[leg]]), points)
                self.assertNotIn("refusals", seen, "nothing was refused")

    @needs("jinja2")
    def test_a_network_that_nobody_looks_at_isnt_asked(self) -> None:
        heard: list[str] = []
        journal = self.journal("one", "two", file=ONE.encode(), mode="bid")
        with self.stub(lambda it: heard.append(it) or ("at 1\n" if it.startswith("desk") else "hindsight 1/2 revenue 0 "
                                                       "withheld 0\n")) as place, self.web(journal, place) as web:
            web.get("/")
            self.write(journal, [("reoptimise 1", "optimised 1/1")], network=2)
            until_read(web, "two", 1)
            time.sleep(0.3)
            self.assertEqual({*heard} - {"status"}, set(), "the list of networks asks for the status alone")
            web.get("/networks/two")
            wait_for(lambda: "hindsight" in heard, "the bound")
            self.assertEqual({it.split(" ")[1] for it in heard if it.startswith("desk")}, {"two"})
            self.write(journal, [("book LOC 1", "ok 1")], network=2)
            until_read(web, "two", 2)
            wait_for(lambda: not web.web.looks.entries["two"].is_asked, "the end of what is asked")
            for _ in range(5):
                web.get("/networks/two")
            time.sleep(0.2)
            self.assertEqual(heard.count("hindsight"), 1, "at most every 30 seconds")
            web.web.looks.clock = lambda: time.monotonic() + 31
            web.get("/networks/two")
            wait_for(lambda: heard.count("hindsight") == 2, "the next bound")

    @needs("jinja2")
    def test_what_is_in_the_journal_stays_text(self) -> None:
        """A desk, a line and why a network is halted, as somebody may have written them."""
        from nrm.journal.sqlite_tables import using
        journal = self.journal("one", file=ONE.encode())
        self.write(journal, [(f"book {MARKUP} 1", "unknown")], desk=MARKUP)
        with using(str(journal), is_to_write=True) as connection:
            connection.execute("UPDATE network SET halted = ?", [MARKUP])
        with self.web(journal) as web:
            until_read(web, "one", 1)
            with self.stream(web, "/networks/one/events") as connection:
                parts = " ".join(next(events_of(connection))["parts"].values())  # type: ignore[attr-defined]
            for page in (*(web.get(it).text for it in ("/", "/networks/one", "/networks/one/lines/1")), parts):
                self.assertEqual(Text(page).of("img"), [])
                self.want_in(page, "&lt;img src=x onerror=alert(1)&gt;")

    @needs("jinja2")
    def test_pages_are_for_each_reader(self) -> None:
        """Landmarks, a language, heads of tables, names of regions, pictures with words; nothing from elsewhere, and
        nothing within that the policy forbids."""
        journal = self.journal("one", file=ONE.encode())
        self.write(journal, [("book LOC 2", "ok 1"), ("book LOC 300", "no AB")])
        with self.web(journal) as web:
            until_read(web, "one", 2)
            for path in ("/", "/networks/one", "/networks/one/lines/2"):
                told = web.get(path)
                page = Text(told.text)
                self.want_in(told.head["content-security-policy"], "default-src 'none'; script-src 'self'")
                self.assertEqual(page.of("html"), [{"lang": "en"}])
                self.assertEqual([len(page.of(it)) for it in ("main", "header", "nav", "h1")], [1, 1, 1, 1], path)
                self.assertEqual(len(page.of("caption")), len(page.of("table")))
                self.assertTrue(all(it.get("scope") in ("col", "row") for it in page.of("th")))
                ids = [it["id"] for _, it in page.elements if "id" in it]
                self.assertEqual(len(ids), len(set(ids)))
                for _, it in page.elements:
                    self.assertNotIn("style", it)
                    self.assertFalse([name for name in it if name.startswith("on")])
                    for name in ("href", "src"):
                        self.assertTrue((it.get(name) or "/").startswith(("/", "#")), it)
                    if it.get("role") in ("region", "img"):
                        self.assertTrue(it.get("aria-label") or it.get("aria-labelledby") in ids, it)
                self.assertEqual([it for it in page.of("script") if "src" not in it] + page.of("style"), [])
                self.assertIn("polite", [it.get("aria-live") for it in page.of("p")])
            for path, kind in (("/page.css", "text/css"), ("/page.js", "text/javascript")):
                told = web.get(path)
                self.assertTrue(told.head["content-type"].startswith(kind))
                self.assertNotIn("//" + "fonts", told.text)
                self.assertEqual(re.findall(r"https?:", told.text), [])

    def test_contrast(self) -> None:
        """Each colour of text on each ground, in light and dark: at least 4.5 to 1."""
        text = (STATIC / "page.css").read_text()
        for block in re.findall(r":root \{([^}]*)\}", text):
            colours = dict(re.findall(r"--(\w+): #(\w+)", block))
            for ink, ground in (("ink", "paper"), ("quiet", "paper"), ("mark", "paper"), ("wrong", "paper"),
                                ("ink", "soft")):
                low, high = sorted(map(lightness, (colours[ink], colours[ground])))
                self.assertGreaterEqual((high + 0.05) / (low + 0.05), 4.5, (ink, ground, block))


def lightness(colour: str) -> float:
    """The relative luminance of a colour, as WCAG defines it."""
    whole = "".join(it * 2 for it in colour) if len(colour) == 3 else colour
    parts = [int(whole[at:at + 2], 16) / 255 for at in (0, 2, 4)]
    red, green, blue = (it / 12.92 if it <= 0.04045 else ((it + 0.055) / 1.055) ** 2.4 for it in parts)
    return 0.2126 * red + 0.7152 * green + 0.0722 * blue


class WordsTest(WebTest):
    def test_amounts_are_exact(self) -> None:
        for value, wanted in ((0, "0"), (1234567, "1,234,567"), (Fraction(1, 3), "0.33"), (Fraction(2, 3), "0.67"),
                              (Fraction(1, 200), "0.01"), (Fraction(1999, 1000), "2.00"), (Fraction(4, 2), "2"),
                              (10 ** 20 + Fraction(1, 2), "100,000,000,000,000,000,000.50")):
            self.assertEqual(amount(value), wanted)

    def test_why(self) -> None:
        for line, reply, wanted in (
                ("book P 3", "no AB", "AB lacks seats for a party of 3"), ("reoptimise 9", "unknown", "no such period"),
                ("book P 3", "no fare", "below the bid prices"), ("cancel 1", "unknown", "no booking"),
                ("reoptimise 2", "overflow", "too large"), ("x", "what", "what")):
            self.want_in(why(line, reply), wanted)

    def test_pictures(self) -> None:
        self.assertEqual(bars([0, 1, 24]), [(0, 24, 0), (1, 23, 1), (2, 0, 24)])
        self.assertEqual(bars([0, 0]), [(0, 24, 0), (1, 24, 0)])
        self.assertEqual(curve([Fraction(2), Fraction(1)]), "0,1 100,1 100,12")
        self.assertEqual(curve([]), "")
        self.assertEqual((time_of(0), time_of(10 ** 18)), ("1970-01-01 00:00:00", str(10 ** 18)))
