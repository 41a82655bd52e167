"""The server of HTTP: how many come, how much each may send and how long it may take, and what each is answered.

`http.server` of Python's library takes the requests, a thread each, and this file bounds them: so many connections, of
each a head and a body of so many bytes, and so many seconds for all of a request, however slowly its bytes come. What
is answered is for `Answering` to say.
"""
from __future__ import annotations

import io
import ipaddress
import re
import socket
import ssl
import sys
import threading
import time
from dataclasses import dataclass
from http.server import BaseHTTPRequestHandler, ThreadingHTTPServer
from typing import Any, Callable, Sequence, cast

from nrm import Stop
from nrm.server.sockets import is_loopback, tcp_socket
from nrm.server.tls_certificates import server_context
from nrm.web.messages import PASSES, Answer, HttpHead, HttpRefusal, HttpRequest, HttpStream

MOST_CONNECTIONS = 200
MOST_BODY = 4_096
SECONDS = 30.0  # for all of a request, from the end of the one before, and for taking a piece of the answer
PIECE = 8_192
FULL = (b"HTTP/1.1 503 Service Unavailable\r\nContent-Type: text/plain; charset=utf-8\r\nRetry-After: 1\r\n"
        b"Connection: close\r\n\r\nconnections: as many are there as may be at once\n")
POLICY = ("default-src 'none'; script-src 'self'; style-src 'self'; connect-src 'self'; base-uri 'none'; "
          "form-action 'none'; frame-ancestors 'none'")
HEAD = (("Content-Security-Policy", POLICY), ("X-Content-Type-Options", "nosniff"), ("Referrer-Policy", "no-referrer"),
        ("Cache-Control", "no-store"))
Answering = Callable[[HttpRequest], Answer]


@dataclass(frozen=True)
class Listening:
    """Where it listens, with which certificate, and how much may come."""
    place: str
    is_beyond_allowed: bool = False
    certificate: str | None = None
    key: str | None = None
    connections: int = MOST_CONNECTIONS
    seconds: float = SECONDS
    hosts: tuple[str, ...] = ()  # by which it is asked, beside the names of this machine and the address that is asked

    def context(self) -> ssl.SSLContext | None:
        """What makes a connection one of TLS, if there is a certificate."""
        return server_context(self.certificate, self.key) if self.certificate and self.key else None


class Timed(io.RawIOBase):
    """What comes from a connection, all of it before a moment."""

    def __init__(self, connection: socket.socket, seconds: float) -> None:
        self.connection, self.seconds = connection, seconds
        self.begin()

    def begin(self) -> None:
        """A new request may take so many seconds from now on."""
        self.deadline = time.monotonic() + self.seconds

    def readable(self) -> bool:
        return True

    def readinto(self, buffer: Any) -> int:
        left = self.deadline - time.monotonic()
        if left <= 0:
            raise socket.timeout("the request took too long")
        self.connection.settimeout(left)
        try:
            return self.connection.recv_into(buffer)
        finally:
            self.connection.settimeout(self.seconds)


class Bounded(io.BufferedReader):
    """The same by lines, which are those of a head."""
    head = HttpHead()

    def readline(self, size: int | None = -1, /) -> bytes:
        return self.head.taken(super().readline(self.head.left + 1))


class Handler(BaseHTTPRequestHandler):
    """A connection, with one request after the other."""
    protocol_version = "HTTP/1.1"
    site: Site

    def version_string(self) -> str:
        return "nrm-tools"

    def setup(self) -> None:
        """Begins, with the handshake of TLS if there is one: here, since it may take long."""
        self.site = cast(Site, self.server)
        self.request.settimeout(self.site.listening.seconds)
        self.request.setsockopt(socket.IPPROTO_TCP, socket.TCP_NODELAY, True)
        if self.site.context:
            self.request = self.site.context.wrap_socket(self.request, server_side=True)
        super().setup()
        self.rfile.close()
        self.timed = Timed(self.connection, self.site.listening.seconds)
        self.rfile = self.bounded = Bounded(self.timed, PIECE)

    def handle_one_request(self) -> None:
        """Takes a request and answers it; what comes too late or not at all ends the connection."""
        self.timed.begin()
        self.bounded.head = HttpHead()
        self.requestline, self.request_version, self.command = "", self.protocol_version, ""
        try:
            self.raw_requestline = self.bounded.readline()
            if not self.raw_requestline:
                self.close_connection = True
            elif self.parse_request():
                self.answer(self.answered())
        except HttpRefusal as refusal:  # of its head: where the next request begins isn't known
            self.close_connection, self.request_version = True, self.protocol_version
            self.answer(refusal.response(False))
        except OSError:  # too late, or gone
            self.close_connection = True

    def answered(self) -> Answer:
        """What the request is answered."""
        head = {name.lower(): value for name, value in self.headers.items()}
        asked = HttpRequest(self.command, self.path.partition("?")[0], head)
        try:
            asked = HttpRequest(asked.method, asked.path, head, self.body(), self.client_address[0])
            self.site.see_that_it_is_own(asked, str(self.connection.getsockname()[0]))
            return self.site.answering(asked)
        except HttpRefusal as refusal:
            return refusal.response(asked.wants_json())
        except Stop as stop:
            return HttpRefusal(503, "journal", str(stop), PASSES).response(asked.wants_json())
        except OSError:
            raise
        except Exception as fault:
            self.site.tell(f"{asked.method} of a path failed with {type(fault).__name__}: {fault}")
            return HttpRefusal(500, "fault", "this server failed at it").response(asked.wants_json())

    def body(self) -> bytes:
        """The body of the request; an HttpRefusal ends the connection, since what is left of it would be a next
        request."""
        lengths = self.headers.get_all("Content-Length") or []
        if not lengths and "Transfer-Encoding" not in self.headers:
            return b""
        self.close_connection, was_to_close = True, self.close_connection
        if lengths and "Transfer-Encoding" in self.headers:
            raise HttpRefusal(400, "length", "a request has no `Content-Length` beside `Transfer-Encoding`")
        if "Transfer-Encoding" in self.headers:
            raise HttpRefusal(411, "length", "a body has its length in `Content-Length`, and comes in one piece")
        if len(lengths) > 1 or not re.fullmatch("[0-9]{1,15}", lengths[0]):
            raise HttpRefusal(400, "length", "`Content-Length` is one whole number")
        if int(lengths[0]) > MOST_BODY:
            raise HttpRefusal(413, "length", f"a body has at most {MOST_BODY} bytes")
        body = self.bounded.read(int(lengths[0]))
        if len(body) < int(lengths[0]):
            raise ConnectionError("the body broke off")
        self.close_connection = was_to_close
        return body

    def answer(self, answer: Answer) -> None:
        """Sends an answer."""
        if isinstance(answer, HttpStream):
            self.close_connection = True
            self.stream(answer)
            return
        self.put_head(answer.status, answer.kind, (("Content-Length", str(len(answer.body))), *answer.head))
        self.wfile.write(b"" if self.command == "HEAD" else answer.body)

    def put_head(self, status: int, kind: str, more: tuple[tuple[str, str], ...]) -> None:
        """Sends the head of an answer."""
        self.send_response(status)
        closes = (("Connection", "close"),) if self.close_connection else ()
        for name, value in (("Content-Type", kind), *more, *HEAD, *closes):
            self.send_header(name, value)
        self.end_headers()

    def stream(self, answer: HttpStream) -> None:
        """Sends pieces until the one who asked is gone."""
        try:
            self.put_head(200, answer.kind, ())
            for piece in answer.pieces if self.command != "HEAD" else ():
                self.wfile.write(piece)
        finally:
            answer.close()

    def send_error(self, code: int, message: str | None = None, explain: str | None = None) -> None:
        """Tells what `http.server` itself finds wrong."""
        self.close_connection, self.request_version = True, self.protocol_version
        why = message or self.responses.get(code, ("it is none",))[0]
        self.answer(HttpRefusal(code, "request", why).response(False))

    def finish(self) -> None:
        """Ends the connection."""
        super().finish()
        self.connection.close()

    def log_message(self, format: str, *args: Any) -> None:
        """Who asks what is told nowhere."""


class Site(ThreadingHTTPServer):
    """All connections, a thread each, no more than may be."""
    daemon_threads = True
    request_queue_size = 128

    def __init__(self, listening: Listening, answering: Answering, turned: Callable[[], None] = lambda: None) -> None:
        self.listening, self.answering, self.context = listening, answering, listening.context()
        self.turned = turned
        super().__init__(("127.0.0.1", 0), Handler, bind_and_activate=False)
        self.socket.close()
        self.socket = tcp_socket(listening.place, listening.is_beyond_allowed)
        self.server_address = self.socket.getsockname()
        self.free = threading.BoundedSemaphore(listening.connections)
        self.told_at = 0.0
        self.server_activate()

    def service_actions(self) -> None:
        """The loop has turned, which it does ten times a second where nobody comes."""
        self.turned()

    def where(self) -> str:
        """The address of its page."""
        host, port = self.server_address[:2]
        shown = f"[{host!s}]" if ":" in str(host) else str(host)
        return f"http{'s' if self.context else ''}://{shown}:{port}"

    def see_that_it_is_own(self, asked: HttpRequest, address: str) -> None:
        """An HttpRefusal for what the page of another site asks by a browser, at an address of this machine. That is
        seen by the name of the host too, since a name of a stranger may stand for that address: then the two sites are
        one to the browser, and the page may read what is answered."""
        host = asked.head.get("host", "")
        if not is_own_name(host, (*self.listening.hosts, address)):
            raise HttpRefusal(421, "host", "this server doesn't have the name in `Host`: `--host` adds a name")
        origin = asked.head.get("origin")
        if origin is not None and origin.partition("://")[2].lower() != host.lower():
            raise HttpRefusal(403, "origin", "the page of another site asked for this")

    def process_request(self, request: Any, client_address: Any) -> None:
        """Begins a thread for a connection, or turns it away."""
        if not self.free.acquire(blocking=False):
            self.turn_away(request)
            return
        try:
            super().process_request(request, client_address)
        except RuntimeError:  # there is no further thread
            self.free.release()
            self.turn_away(request)

    def turn_away(self, connection: socket.socket) -> None:
        """Says that as many are there as may be, without waiting."""
        connection.setblocking(False)
        try:
            if not self.context:
                connection.send(FULL)
        except OSError:
            pass
        self.shutdown_request(connection)

    def process_request_thread(self, request: Any, client_address: Any) -> None:
        """A connection, to its end."""
        try:
            super().process_request_thread(request, client_address)
        finally:
            self.free.release()

    def handle_error(self, request: Any, client_address: Any) -> None:
        """A connection that broke off, or a handshake that wasn't one, is nothing to tell."""
        fault = sys.exc_info()[1]
        if not isinstance(fault, OSError):
            self.tell(f"a connection failed with {type(fault).__name__}: {fault}")

    def tell(self, text: str) -> None:
        """Tells something on standard error, at most once a second."""
        if time.monotonic() - self.told_at >= 1:
            self.told_at = time.monotonic()
            print(f"nrm-tools web: {text}", file=sys.stderr, flush=True)


def is_own_name(host: str, names: Sequence[str] = ()) -> bool:
    """Whether the name of a host, with or without a port, is one of this machine alone, or one of some names."""
    name = plain(re.sub(r":[0-9]*$", "", host).strip("[]"))
    try:
        return name in ("localhost", *map(plain, names)) or is_loopback(name)
    except ValueError:
        return False


def plain(name: str) -> str:
    """A name of a host in small letters; an address in its shortest form, and as one of IPv4 if it is one."""
    try:
        found = ipaddress.ip_address(name)
    except ValueError:
        return name.lower()
    return str(getattr(found, "ipv4_mapped", None) or found)
