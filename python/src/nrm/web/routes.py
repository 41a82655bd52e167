"""Which path is for whom: the routes, as the description in openapi.json has them too, and what answers each."""
from __future__ import annotations

import re
import threading
from dataclasses import dataclass
from functools import partial
from pathlib import Path
from typing import Callable, NamedTuple
from urllib.parse import unquote

from nrm.journal.networks import NAME
from nrm.libraries import is_there, lacks
from nrm.server.status_text import ask_status
from nrm.web.connections import Connections, Who, desk_of_token, own_desk
from nrm.web.followed_journal import Following
from nrm.web.html_pages import Pages
from nrm.web.line_accounts import Accounts
from nrm.web.messages import JSON, Answer, HttpRefusal, HttpRequest, HttpResponse
from nrm.web.metrics import LIBRARY, Watch
from nrm.web.posted_lines import Door, no_network
from nrm.web.priced_networks import PricedNetworks
from nrm.web.recent_status import RecentStatus

PAGES_LIBRARY = "jinja2"
DESCRIPTION = Path(__file__).with_name("openapi.json")
ALWAYS, PAGE, DOOR = "always", "page", "door"
OFF = {PAGE: "the page is off: `--page` enables it", DOOR: "the door is off: `--door` enables it"}


@dataclass(frozen=True)
class WebSettings:
    """The journal and the socket, what is on, and in whose name this process looks."""
    journal: str
    socket: str
    token: str | None = None
    has_page: bool = False
    has_door: bool = False
    needs_token: bool = False
    seconds: float = 10.0
    has_accounts: bool = False


class Route(NamedTuple):
    """A method and a path, in which a word in braces is any, for the part that it belongs to."""
    method: str
    path: str
    part: str
    call: Callable[..., Answer]

    def words_of(self, path: str) -> list[str] | None:
        """The words of a path that stand for those in braces; None for another path."""
        found = re.fullmatch(re.sub(r"\{[a-z]+\}", "([^/]+)", self.path.replace(".", r"\.")), path)
        return [unquote(it, "latin-1") for it in found.groups()] if found else None


class Web:
    """All that answers: what follows the journal, what asks the server, and the routes."""

    def __init__(self, settings: WebSettings) -> None:
        self.settings = settings
        self.following = Following(settings.journal)
        self.kept = Connections(settings.socket, settings.seconds)
        self.name: str | None = None
        self.naming = threading.Lock()
        asked = RecentStatus(partial(ask_status, settings.socket, settings.seconds))
        self.watch = Watch(self.following, asked)
        self.door = Door(self.kept, self.following, self.own, settings.needs_token)
        self.looks = PricedNetworks(self.kept, self.own, self.following)
        self.pages = Pages(self.following, self.looks, settings.journal,
                           Accounts(settings.journal, settings.has_accounts), asked)
        self.routes = [*watching(self.watch), *of_door(self.door), *of_page(self.pages)]

    def own(self, network: str) -> Who:
        """In whose name this process looks: the desk of its token, or one that no other process has."""
        token = self.settings.token
        with self.naming:
            if self.name is None:
                self.name = desk_of_token(self.settings.socket, token, self.settings.seconds) if token else own_desk()
        return Who(network, self.name, token)

    def answer(self, asked: HttpRequest) -> Answer:
        """What is answered to a request; an HttpRefusal where nothing else is."""
        method = "GET" if asked.method == "HEAD" else asked.method
        found = [(it, words) for it in self.routes if (words := it.words_of(asked.path)) is not None]
        if not found:
            raise HttpRefusal(404, "path", "there is nothing at this path")
        for route, words in found:
            if route.method == method:
                return self.called(route, asked, words)
        methods = ", ".join(it.method for it, _ in found)
        raise HttpRefusal(405, "method", f"this path takes {methods}", (("Allow", methods),))

    def called(self, route: Route, asked: HttpRequest, words: list[str]) -> Answer:
        """The answer of a route, if its part is on and the network's name may be one."""
        if not self.is_on(route.part):
            raise HttpRefusal(404, "off", OFF[route.part])
        if route.path.startswith("/networks/") and not NAME.fullmatch(words[0]):
            raise no_network()
        return route.call(asked, *words)

    def is_on(self, part: str) -> bool:
        """Whether a part is on."""
        return part == ALWAYS or (self.settings.has_page if part == PAGE else self.settings.has_door)

    def lacks(self) -> list[str]:
        """What isn't there of all that could be: a sentence each, which says how it is had."""
        needed = [("are no metrics", LIBRARY), *([("is no page", PAGES_LIBRARY)] if self.is_on(PAGE) else [])]
        return [*(OFF[it] for it in (PAGE, DOOR) if not self.is_on(it)),
                *(f"there {what}, since {lacks([library])}" for what, library in needed if not is_there(library))]

    def tidy(self) -> None:
        """What is done beside following, a few times a second."""
        self.kept.sweep()
        self.looks.keep_up()


def watching(watch: Watch) -> list[Route]:
    """The routes of who watches."""
    return [Route("GET", "/healthz", ALWAYS, watch.health), Route("GET", "/metrics", ALWAYS, watch.metrics),
            Route("GET", "/openapi.json", ALWAYS, description)]


def of_door(door: Door) -> list[Route]:
    """The routes of the door."""
    network = "/networks/{network}"
    return [Route("POST", f"{network}/desks/{{desk}}/lines/{{sequence}}", DOOR, door.line),
            Route("POST", f"{network}/desks/{{desk}}/lines", DOOR, door.line_by_key),
            Route("GET", f"{network}/ask/{{product}}", DOOR, door.ask),
            Route("GET", f"{network}/legs/{{leg}}", DOOR, door.leg),
            Route("GET", f"{network}/plan", DOOR, door.plan),
            Route("GET", f"{network}/hindsight", DOOR, door.hindsight),
            Route("GET", f"{network}/bookings/{{number}}", DOOR, door.booking)]


def of_page(pages: Pages) -> list[Route]:
    """The routes of the page."""
    network = "/networks/{network}"
    return [Route("GET", "/", PAGE, pages.networks), Route("GET", "/events", PAGE, pages.networks_as_they_change),
            Route("GET", "/page.css", PAGE, pages.style), Route("GET", "/page.js", PAGE, pages.script),
            Route("GET", network, PAGE, pages.network),
            Route("GET", f"{network}/events", PAGE, pages.network_as_it_changes),
            Route("GET", f"{network}/lines/{{number}}", PAGE, pages.line),
            Route("GET", f"{network}/lines/{{number}}/why", PAGE, pages.account)]


def description(asked: HttpRequest) -> HttpResponse:
    """The description of all routes, for programs."""
    return HttpResponse(DESCRIPTION.read_bytes(), JSON)
