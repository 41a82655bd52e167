"""The page in a browser, without a window: a booking is seen within a second, and it fits narrow and wide screens.

Where NRM_PICTURES names a folder, pictures of it are laid there.
"""
from __future__ import annotations

import os
import shutil
import time
import unittest
from pathlib import Path
from typing import Any

from harness import needs, wait_for
from server.serves import ONE
from web.webs import Running, WebTest, until_read

LINES = "/networks/hub/desks/COUNTER-7/lines"
WITHIN = 1.5  # seconds: one, and half a second for a machine with other work


@needs("jinja2", "selenium")
@unittest.skipUnless(shutil.which("chromium") and shutil.which("chromedriver"),
                     "there is no chromium (Debian has chromium and chromium-driver)")
class BrowserTest(WebTest):
    def browser(self, width: int, *more: str) -> Any:
        """A browser of a width."""
        from selenium import webdriver
        from selenium.webdriver.chrome.options import Options
        from selenium.webdriver.chrome.service import Service
        options = Options()
        options.binary_location = str(shutil.which("chromium"))
        for it in ("--headless=new", "--no-sandbox", "--disable-gpu", "--disable-dev-shm-usage", "--hide-scrollbars",
                   f"--user-data-dir={self.folder / f'chromium-{width}'}", *more):
            options.add_argument(it)
        options.set_capability("goog:loggingPrefs", {"browser": "ALL"})
        made = webdriver.Chrome(service=Service(str(shutil.which("chromedriver"))), options=options)
        self.addCleanup(made.quit)
        made.execute_cdp_cmd("Emulation.setDeviceMetricsOverride",
                             {"width": width, "height": 900, "deviceScaleFactor": 1, "mobile": False})
        return made

    def picture(self, browser: Any, name: str) -> None:
        """Lays a picture of what the browser shows, if a folder is named."""
        if os.environ.get("NRM_PICTURES"):
            browser.save_screenshot(str(Path(os.environ["NRM_PICTURES"]) / name))

    def cell(self, browser: Any, table: str, row: str, column: int) -> str:
        return str(browser.execute_script(
            "const row = [...document.querySelectorAll(arguments[0] + ' tbody tr')].find((it) => "
            "it.cells[0].textContent === arguments[1]); return row ? row.cells[arguments[2]].textContent : ''",
            table, row, column))

    def sell(self, web: Running) -> None:
        """Some lines, of which a few are refused."""
        for at, line in enumerate(("book HJ-Q 12", "book HN-Y 3", "book FJ-Y 20", "reoptimise 2", "book MF-Q 9",
                                   "book HJ-Q 60", "book FN-Q 18", "cancel 2", "reoptimise 3", "book FJ-Q 80"), 1):
            web.post(f"{LINES}/{at}", line)

    def test_a_booking_is_seen(self) -> None:
        """On the page of its network and on that of all, without its being opened anew."""
        journal = self.journal("hub", "rail", mode="bid")
        with self.served(journal) as serve, self.web(journal, serve.path) as web:
            self.sell(web)
            wide, narrow = self.browser(1600), self.browser(360, "--force-dark-mode")
            wide.get(f"http://127.0.0.1:{web.port}/networks/hub")
            narrow.get(f"http://127.0.0.1:{web.port}/")
            wait_for(lambda: "Up to date" in wide.page_source and "Up to date" in narrow.page_source, "the streams")
            wait_for(lambda: self.cell(wide, "#part-legs", "HAM-FRA", 2) == "12", "what was sold before")
            time.sleep(1.1)
            began = time.monotonic()
            self.assertEqual(web.post(f"{LINES}/11", "book HF-Y 2").text, "ok 6\n")
            wait_for(lambda: self.cell(wide, "#part-legs", "HAM-FRA", 2) == "14", "the booking")
            wait_for(lambda: self.cell(narrow, "#networks", "hub", 2) == "11", "the line")
            self.assertLess(time.monotonic() - began, WITHIN)
            wait_for(lambda: "Bound of hindsight" in wide.page_source, "the bound")
            for name, browser in (("web-network.png", wide), ("web-networks.png", narrow)):
                self.picture(browser, name)
                wider = browser.execute_script("return document.documentElement.scrollWidth - window.innerWidth")
                self.assertLessEqual(wider, 0, "nothing but a table in its box is wider than the screen")
                self.assertEqual([it for it in browser.get_log("browser") if "favicon" not in it["message"]], [])
            narrow.get(f"http://127.0.0.1:{web.port}/networks/hub")
            self.assertLessEqual(narrow.execute_script("return document.documentElement.scrollWidth"), 360)

    def test_it_is_sorted_and_filtered_by_keyboard(self) -> None:
        from selenium.webdriver.common.by import By
        from selenium.webdriver.common.keys import Keys
        journal = self.journal("a-10", "a-9", "b", file=ONE.encode())
        self.write(journal, [("book LOC 2", "ok 1")], network=2)
        with self.web(journal) as web:
            until_read(web, "a-9", 1)
            browser = self.browser(800)
            browser.get(f"http://127.0.0.1:{web.port}/")

            def names() -> list[str]:
                rows = browser.find_elements(By.CSS_SELECTOR, "tbody th")
                return [it.text for it in rows if it.is_displayed()]
            wait_for(lambda: names() == ["a-9", "a-10", "b"], "the rows in the order of their numbers")
            heads = browser.find_elements(By.CSS_SELECTOR, "thead button")
            heads[2].send_keys(Keys.ENTER)
            heads[2].send_keys(Keys.ENTER)
            self.assertEqual(names()[0], "a-9", "the one with most lines")
            sorts = browser.execute_script("return [...document.querySelectorAll('th[aria-sort]')].map((it) => "
                                           "[it.textContent, it.getAttribute('aria-sort')])")
            self.assertEqual(sorts, [["Lines", "descending"]])
            browser.find_element(By.ID, "wanted").send_keys("a-")
            self.assertEqual(names(), ["a-9", "a-10"])
            self.assertEqual(browser.find_element(By.ID, "found").text, "2 of 3")
            self.write(journal, [("book LOC 2", "ok 1"), ("book LOC 2", "ok 2")], network=1)
            wait_for(lambda: names() == ["a-10", "a-9"], "the other order, with the rows that are wanted")
