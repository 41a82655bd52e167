"""What the tests of the web stand on: a web within this process, what it answers, and a server that says what it is
told to."""
from __future__ import annotations

import contextlib
import http.client
import json
import socket
import threading
import time
from dataclasses import replace
from pathlib import Path
from typing import Callable, Iterator, Mapping, NamedTuple, Sequence

from harness import SECONDS, meanwhile, wait_for
from nrm.journal.sqlite_tables import using
from nrm.journal.sqlite_writing import Given, SqliteWriter
from nrm.server.status_text import NetworkStatus
from nrm.web.http_listening import Listening, Site
from nrm.web.routes import Web, WebSettings
from server import servers
from server.serves import ServeTest

STATUS = replace(servers.STATUS, networks=(NetworkStatus("hub", "bid", "answers", 4, 812, False, 6),)).text()


class Told(NamedTuple):
    """What a web answers."""
    status: int
    text: str
    head: Mapping[str, str]

    @property
    def json(self) -> dict[str, object]:
        value: dict[str, object] = json.loads(self.text)
        return value


class Running:
    """A web that answers at a port."""

    def __init__(self, web: Web, site: Site) -> None:
        self.web, self.site, self.port = web, site, int(site.server_address[1])

    def ask(self, method: str, path: str, body: bytes | None = None, **head: str) -> Told:
        connection = http.client.HTTPConnection("127.0.0.1", self.port, timeout=SECONDS)
        with contextlib.closing(connection):
            connection.request(method, path, body, {name.replace("_", "-"): it for name, it in head.items()})
            answer = connection.getresponse()
            return Told(answer.status, answer.read().decode(), {it.lower(): value for it, value in answer.getheaders()})

    def there(self) -> int:
        """How many connections are there."""
        return self.site.listening.connections - int(self.site.free._value)  # type: ignore[attr-defined]

    def get(self, path: str, **head: str) -> Told:
        return self.ask("GET", path, **head)

    def post(self, path: str, line: str | bytes, **head: str) -> Told:
        return self.ask("POST", path, line if isinstance(line, bytes) else line.encode(), **head)

    def raw(self, sent: bytes, is_half: bool = False) -> bytes:
        """What comes back for some bytes, up to the end of the connection; nothing more is sent if it is half."""
        told = b""
        with socket.create_connection(("127.0.0.1", self.port), SECONDS) as connection:
            with contextlib.suppress(ConnectionError):
                connection.sendall(sent)
                if is_half:
                    connection.shutdown(socket.SHUT_WR)
                while piece := connection.recv(65_536):
                    told += piece
        return told


class WebTest(ServeTest):
    """A test of the web in a folder of its own."""

    @contextlib.contextmanager
    def web(self, journal: Path | str, place: object = "none", listening: Mapping[str, object] | None = None,
            **settings: object) -> Iterator[Running]:
        """A web of a journal and of the server at a socket, with all that can be on."""
        all_settings = {"has_page": True, "has_door": True, "seconds": 5, **settings}
        made = Web(WebSettings(str(journal), str(place), **all_settings))
        is_over = threading.Event()
        with Site(Listening("127.0.0.1:0", **(listening or {})), made.answer) as site:
            threads = [meanwhile(made.following.follow, is_over, made.tidy), meanwhile(site.serve_forever, 0.02)]
            try:
                wait_for(lambda: made.following.round, "the first look at the journal")
                yield Running(made, site)
            finally:
                is_over.set()
                site.shutdown()
                for it in threads:
                    it.join()
                made.kept.end()

    def write(self, journal: Path, lines: Sequence[tuple[str, str]], network: int = 1, desk: str = "D1") -> None:
        """Writes lines with their replies into a journal, as a server does."""
        with using(str(journal)) as connection:
            [before] = connection.execute("SELECT lines FROM head WHERE network = ?", [network]).fetchone()
        rows = "".join(f"{it}\t{desk}\t{it}\t{line}\t{reply}\n" for it, (line, reply) in enumerate(lines, before + 1))
        writer = SqliteWriter(str(journal), "program")
        self.assertEqual(writer.write([Given(network, 0, before, rows.encode())]), {})
        writer.close()

    @contextlib.contextmanager
    def stub(self, answer: Callable[[str], str | None]) -> Iterator[Path]:
        """A server whose answer to each line a call says; for None it says nothing, and ends the connection."""
        path = self.folder / "stub"
        with socket.socket(socket.AF_UNIX) as listener:
            listener.bind(str(path))
            listener.listen()
            ends = threading.Event()
            listener.settimeout(0.05)
            thread = meanwhile(self.take, listener, answer, ends)
            try:
                yield path
            finally:
                ends.set()
                thread.join()

    def take(self, listener: socket.socket, answer: Callable[[str], str | None], ends: threading.Event) -> None:
        while not ends.is_set():
            with contextlib.suppress(socket.timeout):
                connection, _ = listener.accept()
                meanwhile(self.speak, connection, answer)

    def speak(self, connection: socket.socket, answer: Callable[[str], str | None]) -> None:
        connection.settimeout(SECONDS)
        with connection, contextlib.suppress(OSError), connection.makefile("rb") as lines:
            for line in lines:
                told = answer(line.decode().rstrip("\n"))
                if told is None:
                    return
                connection.sendall(told.encode())


def until_read(web: Running, name: str, lines: int) -> None:
    """Waits until so many lines of a network are read."""
    wait_for(lambda: name in web.web.following.networks and web.web.following.networks[name].seen.lines >= lines,
             f"{lines} lines of {name}")


def passed(since: float) -> float:
    """The seconds since a moment."""
    return time.monotonic() - since
