"""The account of a line as a page: what the command prints, one at a time, and not for long."""
from __future__ import annotations

import html
import os
import re
import time
from collections import Counter
from pathlib import Path
from unittest import mock

from harness import needs, wait_for
from server.serves import ONE
from web.webs import WebTest, passed

LINE = "/networks/hub/lines/2"
FULL = "Refused: AB had 1 seat left of 300, and 2 were asked for."


def twice_in(page: str) -> list[str]:
    """The sentences, and lines of some words, that a page shows twice or more."""
    text = html.unescape(re.sub(r"<[^>]*>", "\n", re.sub(r"<(style|script|title).*?</\1>", "", page, flags=re.DOTALL)))
    parts = Counter(part for line in text.splitlines() for part in re.split(r"(?<=[.:;]) ", line.strip()))
    return [part for part, count in parts.items() if count > 1 and part.count(" ") > 2]


class AccountsTest(WebTest):
    def setUp(self) -> None:
        """The programs of the tests are on the path, where the command finds them if none is built here."""
        super().setUp()
        for name, program in (("nrm", self.program), ("nrm_why", self.why_program), ("nrm_desks", self.desks_program)):
            os.chmod(self.file(name, f'#!/bin/sh\nexec {" ".join(program.words)} "$@"\n'), 0o755)
        patch = mock.patch.dict(os.environ, {"PATH": f"{self.folder}:{os.environ['PATH']}",
                                             "NRM_WHY": str(self.folder / "nrm_why")})
        patch.start()
        self.addCleanup(patch.stop)
        self.lines = self.journal(file=ONE.encode())
        self.write(self.lines, [("book LOC 299", "ok 1"), ("book LOC 2", "no AB")])

    @needs("jinja2")
    def test_it_is_what_the_command_prints(self) -> None:
        with self.web(self.lines, has_accounts=True) as web:
            self.want_in(web.get(LINE).text, f'href="{LINE}/why"')
            page = web.get(f"{LINE}/why")
            self.assertEqual(page.status, 200, page.text)
            self.want_in(page.text, f'<p class="verdict">{FULL}')
            shown = html.unescape("\n".join(re.findall(r'<p class="verdict">(.*?)</p>\n<pre[^>]*>(.*?)</pre>', page.text,
                                                       re.DOTALL)[0]))
            self.assertEqual(shown, self.told("why", self.lines, "hub", 2, env=os.environ))
            self.assertEqual(twice_in(page.text), [])
            self.assertEqual(web.get("/networks/hub/lines/3/why").status, 404)

    @needs("jinja2")
    def test_it_is_off_by_default(self) -> None:
        with self.web(self.lines) as web:
            self.assertNotIn("/why", web.get(LINE).text)
            self.assertEqual(web.get(f"{LINE}/why")[:2], (404, "off: accounts are off: `--why` enables them\n"))
        self.stopped("web", self.lines, "--socket", "s", "--listen", "127.0.0.1:0", "--why", status=2, says="--page")

    @needs("jinja2")
    def test_one_at_a_time_and_not_for_long(self) -> None:
        """What is begun for it ends with its time, and then the next is explained."""
        self.file("nrm_why", f"#!/bin/sh\necho $$ > {self.folder}/begun\nexec sleep 300\n")
        with self.web(self.lines, has_accounts=True) as web:
            accounts = web.web.pages.accounts
            with accounts.lock:
                busy = web.get(f"{LINE}/why")
            self.assertEqual((busy.status, busy.text, "retry-after" in busy.head),
                             (503, "busy: another line is being explained\n", True))
            accounts.seconds = 5
            began = time.monotonic()
            self.assertEqual(web.get(f"{LINE}/why")[:2], (504, "late: the line isn't explained within 5 seconds\n"))
            self.assertLess(passed(began), 30)
            begun = (self.folder / "begun").read_text().strip()
            wait_for(lambda: not Path(f"/proc/{begun}/exe").exists(), "the end of what was begun", 20)
            self.file("nrm_why", "#!/bin/sh\nexit 7\n")
            accounts.seconds = 60  # however busy the machine is
            failed = web.get(f"{LINE}/why")
            self.assertEqual(failed.status, 501)
            self.want_in(failed.text, "status 7")
