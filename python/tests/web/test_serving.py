"""HTTP itself: what is too long, too slow or too many, whose page asked, TLS, and how a run begins and ends."""
from __future__ import annotations

import http.client
import json
import os
import re
import signal
import socket
import ssl
import subprocess
import threading
import time
from pathlib import Path
from typing import Sequence

from harness import SECONDS, needs, wait_for
from nrm.web.http_listening import FULL, is_own_name
from nrm.web.messages import MOST_HEAD
from nrm.web.routes import DESCRIPTION
from server.serves import ONE
from web.webs import WebTest, passed

HOST = b"Host: localhost\r\n"


def status_of(told: bytes) -> int:
    return int(told.split(b" ")[1]) if told else 0


class ServingTest(WebTest):
    def test_what_is_too_long_or_none(self) -> None:
        """Each is refused, and ends the connection, so that nothing of it is taken for a next request."""
        line = b"POST /networks/hub/desks/A/lines/1 HTTP/1.1\r\n" + HOST
        long = b"a" * MOST_HEAD
        with self.web(self.journal()) as web:
            for sent, status in (
                    (line + b"Content-Length: 4097\r\n\r\n" + b"x" * 4097, 413), (b"GET /" + long, 431),
                    (b"GET / HTTP/1.1\r\n" + HOST + b"A: " + long + b"\r\n\r\n", 431),
                    (b"GET / HTTP/1.1\r\n" + HOST + b"A: b\r\n" * 3000 + b"\r\n", 431),
                    (line + b"Transfer-Encoding: chunked\r\n\r\n4\r\nplan\r\n0\r\n\r\n", 411),
                    (line + b"Content-Length: 4\r\nContent-Length: 5\r\n\r\nplan!", 400),
                    (line + b"Content-Length: -1\r\n\r\n", 400), (line + b"Content-Length: 4x\r\n\r\nplan", 400),
                    (line + b"Content-Length: 4\r\nTransfer-Encoding: chunked\r\n\r\nplan", 400),
                    (b"what\r\n\r\n", 400), (b"GET / HTTP/9.9\r\n\r\n", 505)):
                with self.subTest(sent=sent[:60]):
                    told = web.raw(sent)
                    self.assertEqual(status_of(told), status)
                    self.assertEqual(told.count(b"HTTP/1.1 "), 1)
                    self.assertNotIn(b"<html", told.lower())
            self.assertEqual(web.get("/healthz").status, 503)

    def test_a_connection_is_used_again(self) -> None:
        with self.web(self.journal()) as web:
            connection = http.client.HTTPConnection("127.0.0.1", web.port, timeout=SECONDS)
            for method, path, status, size in (("GET", "/openapi.json", 200, 1000), ("HEAD", "/openapi.json", 200, 0),
                                               ("POST", "/networks/hub/desks/A/lines/0", 400, 1), ("GET", "/x", 404, 1),
                                               ("PUT", "/healthz", 405, 1), ("GET", "/openapi.json?a=b", 200, 1000)):
                connection.request(method, path, b"plan" if method == "POST" else None)
                answer = connection.getresponse()
                self.assertEqual((answer.status, len(answer.read()) >= size), (status, True), path)
                if method == "PUT":
                    self.assertEqual(answer.getheader("Allow"), "GET")
            self.assertEqual(web.there(), 1)
            connection.close()
            wait_for(lambda: not web.there(), "the end")

    def test_a_slow_request_is_cut_off(self) -> None:
        """However its bytes come: the time is that of the whole."""
        with self.web(self.journal(), listening={"seconds": 0.6}) as web:
            for sent in (b"", b"GET / HT", b"POST / HTTP/1.1\r\nContent-Length: 9\r\n" + HOST + b"\r\npla"):
                began = time.monotonic()
                self.assertEqual(web.raw(sent), b"")
                self.assertLess(passed(began), 5)
            with socket.create_connection(("127.0.0.1", web.port), SECONDS) as connection:
                began = time.monotonic()
                with self.assertRaises(OSError):
                    for _ in range(100):
                        connection.sendall(b"G")
                        time.sleep(0.1)
                self.assertLess(passed(began), 5)

    def test_there_are_no_more_than_may_be(self) -> None:
        with self.web(self.journal(), listening={"connections": 2, "seconds": 20}) as web:
            with socket.create_connection(("127.0.0.1", web.port)), socket.create_connection(("127.0.0.1", web.port)):
                wait_for(lambda: web.there() == 2, "two")
                self.assertEqual(web.raw(b""), FULL)
            wait_for(lambda: web.get("/openapi.json").status == 200, "room")

    def test_the_page_of_another_site_is_refused(self) -> None:
        """By its origin, and by a name that isn't the server's."""
        line = "/networks/hub/desks/A/lines/0"
        with self.web(self.journal()) as web:
            for path, head, status in (
                    (line, {"Origin": "http://evil.example"}, 403), (line, {"Origin": "null"}, 403),
                    (line, {"Origin": f"http://127.0.0.1:{web.port}"}, 400), (line, {}, 400),
                    (line, {"Host": "evil.example"}, 421), (line, {"Host": f"localhost:{web.port}"}, 400),
                    (line, {"Host": "evil.example", "Origin": "http://evil.example"}, 421)):
                self.assertEqual(web.post(path, "plan", **head).status, status, head)
            self.assertEqual(web.get("/", Host="evil.example").status, 421)
        names = ("[::1]:80", "127.9.9.9", "LOCALHOST:1", "", "10.0.0.1", "a.localhost")
        self.assertEqual([is_own_name(it) for it in names], [True, True, True, False, False, False])

    def test_beyond_this_machine_it_is_asked_by_its_names_alone(self) -> None:
        """Those that it was given, and the address that is asked; since a stranger's page may have a name that means
        that address."""
        listening = {"is_beyond_allowed": True, "hosts": ("sales.example", "10.1.2.3")}
        with self.web(self.journal(), listening=listening) as web:
            for name, status in (("sales.example", 200), ("SALES.example:443", 200), ("10.1.2.3:80", 200),
                                 ("127.0.0.1", 200), ("evil.example", 421), ("sales.example.evil.example", 421),
                                 ("", 421), ("10.1.2.4", 421)):
                for path in ("/openapi.json", "/healthz", "/networks/hub/plan"):
                    told = web.get(path, Host=name)
                    self.assertEqual(told.status == 421, status == 421, (name, path, told))
            self.assertEqual(web.post("/networks/hub/desks/A/lines/1", "plan", Host="evil.example").status, 421)
        for host, name, is_own in (("[2001:db8::1]:80", "2001:DB8:0::1", True), ("10.9.9.9", "::ffff:10.9.9.9", True),
                                   ("10.9.9.8", "::ffff:10.9.9.9", False), ("2001:db8::2", "2001:db8::1", False)):
            self.assertEqual(is_own_name(host, (name,)), is_own, host)

    def test_nothing_is_left_of_a_fault_of_this_program(self) -> None:
        """It is told as such, and the next request is answered."""
        with self.web(self.journal()) as web:
            web.web.routes[0] = web.web.routes[0].__class__("GET", "/healthz", "always", lambda _: 1 // 0)
            told: list[str] = []
            web.site.tell = told.append  # type: ignore[method-assign]
            self.assertEqual((web.get("/healthz").status, len(told)), (500, 1))
            self.want_in(told[0], "ZeroDivisionError")
            self.assertEqual(web.get("/openapi.json").status, 200)

    def test_the_description_has_the_routes(self) -> None:
        """All of them, each with its words, and no others; what it names is in it."""
        described = json.loads(DESCRIPTION.read_text())
        paths = {(method.upper(), path): it for path, methods in described["paths"].items()
                 for method, it in methods.items()}
        with self.web(self.journal()) as web:
            self.assertEqual(set(paths), {(it.method, it.path) for it in web.web.routes})
            self.assertEqual(web.get("/openapi.json").json, described)
        for (_, path), it in paths.items():
            named = [them["name"] for them in it.get("parameters", []) if them["in"] == "path"]
            self.assertEqual(re.findall(r"\{(\w+)\}", path), named)
            self.assertIn("200", it["responses"])
        for name in re.findall(r'"#/components/(\w+/\w+)"', DESCRIPTION.read_text()):
            kind, which = name.split("/")
            self.assertIn(which, described["components"][kind])

    def certificate(self) -> tuple[str, str]:
        """A certificate for this machine, and its key."""
        made, key = str(self.folder / "made.pem"), str(self.folder / "key.pem")
        subprocess.run(["openssl", "req", "-x509", "-newkey", "ec", "-pkeyopt", "ec_paramgen_curve:prime256v1",
                        "-nodes", "-keyout", key, "-out", made, "-days", "2", "-subj", "/CN=localhost", "-addext",
                        "subjectAltName=DNS:localhost,IP:127.0.0.1"], check=True, capture_output=True)
        return made, key

    def test_tls(self) -> None:
        """One who doesn't shake hands keeps nobody waiting, and is dropped."""
        made, key = self.certificate()
        listening = {"certificate": made, "key": key, "seconds": 2}
        with self.web(self.journal(), listening=listening) as web:
            context = ssl.create_default_context(cafile=made)
            with socket.create_connection(("127.0.0.1", web.port), SECONDS) as silent:
                connection = http.client.HTTPSConnection("localhost", web.port, timeout=SECONDS, context=context)
                for _ in range(2):
                    connection.request("GET", "/openapi.json")
                    answer = connection.getresponse()
                    self.assertEqual((answer.status, len(answer.read()) > 1000), (200, True))
                connection.close()
                self.assertEqual(silent.recv(1), b"")
            context.maximum_version = ssl.TLSVersion.TLSv1_2
            context.set_ciphers("ECDHE-ECDSA-AES128-SHA:ECDHE-ECDSA-AES256-SHA384")
            with self.assertRaises(OSError):
                http.client.HTTPSConnection("localhost", web.port, timeout=SECONDS, context=context).connect()
            self.assertNotIn(b"200 OK", web.raw(b"GET /openapi.json HTTP/1.1\r\n" + HOST + b"\r\n"))
            self.assertEqual(web.site.where(), f"https://127.0.0.1:{web.port}")

    def test_a_run_begins_and_ends(self) -> None:
        journal = self.journal(file=ONE.encode())
        for sent in (signal.SIGTERM, signal.SIGINT, signal.SIGHUP):
            process = self.process("web", journal, "--socket", "none", "--listen", "127.0.0.1:0", "--answer", "0.2",
                                   stderr=subprocess.PIPE)
            assert process.stderr
            told = process.stderr.readline().decode()
            found = re.fullmatch(r"nrm-tools web: listening on http://127\.0\.0\.1:([0-9]+)\n", told)
            assert found, told
            connection = http.client.HTTPConnection("127.0.0.1", int(found[1]), timeout=SECONDS)
            connection.request("GET", "/healthz")
            self.assertEqual(connection.getresponse().status, 503)
            process.send_signal(sent)
            self.assertEqual(process.wait(SECONDS), 0)
            for line in process.stderr.read().decode().splitlines():
                self.assertRegex(line, "^nrm-tools web: (the (page|door) is off|there are no metrics)")
            process.stderr.close()
            connection.close()

    def test_what_is_off_is_said_at_the_start(self) -> None:
        """And how it is had; nothing is said of what is there."""
        journal = self.journal(file=ONE.encode())
        off = [f"nrm-tools web: the {it} is off: `--{it}` enables it" for it in ("page", "door")]
        no_metrics, no_page = "there are no metrics, since", "there is no page, since"
        for words, is_with_all, wanted in (((), True, off), (("--page", "--door"), True, []),
                                           (("--page",), False, [off[1], no_metrics, no_page]),
                                           (("--door",), False, [off[0], no_metrics])):
            told = self.told_at_the_start(journal, words, "" if is_with_all else "raise ImportError")
            self.assertEqual(len(told), len(wanted), told)
            for line, it in zip(told, wanted):
                self.want_in(line, it)

    def told_at_the_start(self, journal: Path, words: Sequence[str], library: str) -> list[str]:
        """What a web says behind where it listens, with a text in the place of each library."""
        for name in ("jinja2", "prometheus_client"):
            self.file(f"{name}.py", library)
        process = self.process("web", journal, "--socket", "none", "--listen", "127.0.0.1:0", *words,
                               stderr=subprocess.PIPE, env={**os.environ, "PYTHONPATH": str(self.folder)})
        assert process.stderr
        with process.stderr as lines:
            self.want_in(lines.readline().decode(), "listening on http://")
            process.terminate()
            told = lines.read().decode().splitlines()
        self.assertEqual(process.wait(SECONDS), 0)
        return told

    def test_words_that_mean_nothing(self) -> None:
        journal, place = self.journal(file=ONE.encode()), ("--socket", "s", "--listen", "127.0.0.1:0")
        for words in ((), ("--socket", "s"), ("--socket", "s", "--listen", "127.0.0.1"), (*place, "--key", "a"),
                      ("--socket", "", "--listen", "127.0.0.1:0"), ("--socket", "s", "--listen", "0.0.0.0:0"),
                      (*place, "--host", ""), (*place, "--host", "a b"), (*place, "--host", "sales.example:80")):
            self.stopped("web", journal, *words, status=2)
        self.stopped("web", "nowhere", *place, says="unable to open")
        self.stopped("web", journal, *place, "--token", self.file("empty", ""), says="has no token")
        os.chmod(self.file("c", "x"), 0o644)
        self.stopped("web", journal, *place, "--certificate", "c", "--key", "c", says="c has the rights 0644, and")
        os.chmod(self.folder / "c", 0o640)
        self.stopped("web", journal, *place, "--certificate", "c", "--key", "c", says="no certificate")


class StreamsTest(WebTest):
    @needs("jinja2")
    def test_streams_are_bounded_and_end(self) -> None:
        with self.web(self.journal()) as web:
            web.web.pages.streams.free = threading.BoundedSemaphore(1)
            with socket.create_connection(("127.0.0.1", web.port), SECONDS) as connection:
                connection.sendall(b"GET /events HTTP/1.1\r\n" + HOST + b"\r\n")
                self.assertEqual(status_of(connection.recv(1000)), 200)
                self.assertEqual(web.get("/networks/hub/events").status, 503)
            wait_for(lambda: web.ask("HEAD", "/events").status == 200, "the end of the stream that nobody reads")
