"""The pages as HTML, made of the templates in `static` by jinja2, which escapes each name and text."""
from __future__ import annotations

import re
import shlex
import threading
from dataclasses import replace
from functools import cached_property
from pathlib import Path
from typing import Any

from nrm import Stop
from nrm.journal.answered_lines import AnsweredLine, line_in
from nrm.journal.choosing_store import shown, using
from nrm.journal.networks import known
from nrm.journal.stores import now
from nrm.libraries import is_there, lacks
from nrm.pages.page import templates
from nrm.web.followed_journal import Followed, Following
from nrm.web.line_accounts import Accounts
from nrm.web.messages import HTML, HttpRefusal, HttpRequest, HttpResponse, HttpStream
from nrm.web.shown_networks import NetworkRow, ShownNetwork, row_of, view_of
from nrm.web.page_events import Streams
from nrm.web.page_words import amount, why
from nrm.web.priced_networks import PricedNetworks
from nrm.web.recent_status import RecentStatus

STATIC = Path(__file__).with_name("static")
CATCHES_UP = 3.0  # seconds for which what is in the journal already is waited for
UNFIT = "Nobody answers for it, since the server has another program than it began with."
PARTS = ("summary", "legs", "money", "products", "refusals")  # of the page of a network, in their order


class Pages:
    """The pages, and the streams that keep them up to date."""

    def __init__(self, following: Following, looks: PricedNetworks, journal: str, accounts: Accounts,
                 status: RecentStatus) -> None:
        self.following, self.looks, self.journal, self.accounts = following, looks, journal, accounts
        self.status = status
        self.streams = Streams(following)
        self.lock = threading.Lock()

    @cached_property
    def templates(self) -> Any:
        """What makes the pages of templates."""
        made = templates(STATIC)
        made.filters["amount"] = amount
        return made

    def page(self, template: str, **values: object) -> HttpResponse:
        """A page of a template."""
        self.see_that_it_can_be_made()
        with self.lock:
            return HttpResponse(self.templates.get_template(template).render(**values).encode(), HTML)

    def see_that_it_can_be_made(self) -> None:
        """An HttpRefusal where jinja2 isn't there."""
        if not is_there("jinja2"):
            raise HttpRefusal(501, "library", f"there is no page, since {lacks(['jinja2'])}")

    # What is asked for

    def networks(self, asked: HttpRequest) -> HttpResponse:
        """The page of all networks."""
        self.following.wait_for_news(0, CATCHES_UP)
        return self.page("networks.html", rows=self.rows(), fault=self.following.fault)

    def network(self, asked: HttpRequest, name: str) -> HttpResponse:
        """The page of a network."""
        self.see_that_it_can_be_made()
        view = self.view(self.followed(name))
        return self.page("network.html", name=name, mode=view.network.mode, parts=self.parts_of(view))

    def line(self, asked: HttpRequest, name: str, number: str) -> HttpResponse:
        """The page of a line."""
        line = self.line_of(name, number)
        command = f"nrm-tools why {shlex.quote(shown(self.journal))} {name} {line.number}"
        return self.page("line.html", name=name, line=line, why=why(line.line, line.reply), command=command,
                         has_accounts=self.accounts.is_on)

    def account(self, asked: HttpRequest, name: str, number: str) -> HttpResponse:
        """The page of a line's account, which is made now."""
        line = self.line_of(name, number)
        first, _, rest = self.accounts.text(name, line.number).partition("\n")
        return self.page("why.html", name=name, line=line, first=first, rest=rest)

    def networks_as_they_change(self, asked: HttpRequest) -> HttpStream:
        """The rows of the table of all networks, as they change."""
        return self.streams.begin(self.changed_rows({}))

    def network_as_it_changes(self, asked: HttpRequest, name: str) -> HttpStream:
        """The parts of a network's page, as they change."""
        self.see_that_it_can_be_made()
        self.followed(name)
        return self.streams.begin(self.changed_parts(name, {}))

    def style(self, asked: HttpRequest) -> HttpResponse:
        """How pages look."""
        return HttpResponse((STATIC / "page.css").read_bytes(), "text/css; charset=utf-8")

    def script(self, asked: HttpRequest) -> HttpResponse:
        """What keeps pages up to date, filters and sorts."""
        return HttpResponse((STATIC / "page.js").read_bytes(), "text/javascript; charset=utf-8")

    # Of what

    def followed(self, name: str) -> Followed:
        """A network; an HttpRefusal if there is none of this name."""
        found = self.following.networks.get(name) or self.following.caught_up(name, CATCHES_UP)
        if not found:
            raise HttpRefusal(404, "network", "the journal has no network of this name")
        return found

    def answered(self, network: Followed) -> Followed:
        """A network as it is shown: with what is wrong, if the server may not answer for it."""
        is_unfit = not network.fault and network.name in self.status.unfit()
        return replace(network, fault=UNFIT) if is_unfit else network

    def rows(self) -> list[NetworkRow]:
        """The rows of the table of all networks."""
        at = now()
        return [row_of(self.answered(it), at) for it in self.following.networks.values()]

    def line_of(self, name: str, number: str) -> AnsweredLine:
        """A line of a network, as the journal has it now."""
        self.see_that_it_can_be_made()
        self.followed(name)
        if not re.fullmatch("[1-9][0-9]{0,14}", number):
            raise HttpRefusal(404, "line", "the number of a line is a whole number from 1")
        with using(self.journal) as connection:
            try:
                return line_in(connection, known(connection, name), int(number))
            except Stop as stop:
                raise HttpRefusal(404, "line", str(stop))

    def view(self, network: Followed) -> ShownNetwork:
        """What a network's page shows now."""
        return view_of(self.answered(network), self.looks.of(network), now())

    def parts_of(self, view: ShownNetwork) -> dict[str, str]:
        """The parts of a network's page, by their names."""
        with self.lock:
            made = self.templates.get_template("parts.html").module
            return {it: getattr(made, it)(view) for it in PARTS}

    # What changes

    def changed_rows(self, shown: dict[str, object]) -> Any:
        """A call that gives the rows that aren't as they were shown."""
        def changed() -> dict[str, object]:
            rows = {it.name: it for it in self.rows()}
            new = {name: row for name, row in rows.items() if shown.get(name) != row}
            shown.update(new)
            return {"rows": [list(it) for it in new.values()]} if new else {}
        return changed

    def changed_parts(self, name: str, shown: dict[str, str]) -> Any:
        """A call that gives the parts that aren't as they were shown."""
        last: list[object] = [None]

        def changed() -> dict[str, object]:
            view = self.view(self.followed(name))
            if view == last[0]:
                return {}
            last[0] = view
            new = {it: str(html) for it, html in self.parts_of(view).items() if shown.get(it) != html}
            shown.update(new)
            return {"parts": new, "said": view.sentence} if new else {}
        return changed
