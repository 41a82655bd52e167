"""A page stands alone, and a name of a file stays text in it."""
from __future__ import annotations

import unittest

from elements import Elements
from harness import needs
from nrm.libraries import missing
from nrm.pages.page import Page
from nrm.pages.tables import Table

MARKUP = '<script>alert("x")</script> & co'
SVG = ('<?xml version="1.0"?>\n<svg width="9" height="8" viewBox="0 0 9 8"><title>old</title>'
       '<g id="a"><use href="#a"/></g></svg>\n')


@needs("jinja2")
class Pages(unittest.TestCase):
    def test_a_name_cant_become_markup(self) -> None:
        page = Page(MARKUP)
        page.heading(MARKUP)
        page.text(MARKUP)
        page.table(Table(MARKUP, ["", MARKUP], [[MARKUP, MARKUP]]))
        page.picture(SVG, MARKUP, MARKUP)
        read = Elements(page.html())
        self.assertEqual((read.open, read.all("script")), ([], []))
        self.assertEqual(read.text.count(MARKUP), 12)
        self.assertEqual(read.values("aria-label"), [MARKUP])

    def test_pictures_have_titles_and_names_of_their_own(self) -> None:
        page = Page("two")
        page.picture(SVG, "one", "what one shows")
        page.picture(SVG, "two", "what two shows", is_large=True)
        read = Elements(page.html())
        names = read.values("id")
        self.assertEqual((len(names), len(set(names))), (6, 6))
        self.assertEqual(read.values("href"), ["#picture-1-a", "#picture-2-a"])
        self.assertEqual(read.values("width", "height", "viewbox"), ["0 0 9 8"] * 2)
        self.assertNotIn("old", read.text)

    def test_a_verdict_and_what_it_was_made_of_come_first_as_text(self) -> None:
        page = Page("page", MARKUP, [(MARKUP, MARKUP)])
        page.text("below")
        read = Elements(page.html())
        self.assertEqual((read.open, read.all("script"), read.text.count(MARKUP)), ([], [], 3))
        self.assertLess(read.text.rindex(MARKUP), read.text.index("below"))

    def test_pictures_have_the_colours_of_the_page(self) -> None:
        """Black and white in their styles, and nothing of their texts."""
        page = Page("page")
        page.picture('<svg><path style="fill: #ffffff; stroke: #000000"/><path style="fill: #0072b2"/>'
                     "<text>#000000</text></svg>", "", "")
        text = page.html()
        self.assertIn('<path style="fill: var(--paper); stroke: var(--ink)"/><path style="fill: #0072b2"/>'
                      "<text>#000000</text>", text)
        self.assertIn("prefers-color-scheme: dark", text)

    def test_a_page_takes_nothing_from_elsewhere(self) -> None:
        read = Elements(Page("alone").html())
        self.assertEqual({"link", "img", "iframe"} & {tag for tag, _ in read.tags}, set())
        self.assertEqual(read.values("src", "href"), [])


class Missing(unittest.TestCase):
    def test_the_sentence_names_what_isnt_made_and_the_packages(self) -> None:
        self.assertRegex(missing(["matplotlib"]), r"^there are no pictures, since .*, has no matplotlib; .*python3-matplotlib")
        self.assertRegex(missing(["matplotlib", "jinja2"]), "^there are no pictures and no page, since .* has no matplotlib and "
                         "no jinja2; .*python3-matplotlib.* python3-jinja2")
