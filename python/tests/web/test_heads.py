"""Heads that a proxy in front may read otherwise: each is refused, and nothing behind it is a request."""
from __future__ import annotations

from typing import Callable

from nrm.web.messages import MOST_FIELDS
from web.test_door import speaks
from web.webs import WebTest

HOST = b"Host: localhost\r\n"
GET = b"GET /openapi.json HTTP/1.1\r\n"
CLOSE = b"Connection: close\r\n"
ENDS = CLOSE + b"\r\n"
HIDDEN = b"book HJ-Q 1"
INNER = b"POST /networks/hub/desks/A/lines/900 HTTP/1.1\r\n" + HOST + b"Content-Length: 11\r\n" + ENDS + HIDDEN
LENGTH = b"%d" % len(INNER)
SMUGGLES = [  # of each the fields of a head whose body is a second request
    b"Content-Length : " + LENGTH + b"\r\n", b"nonsense\r\nContent-Length: " + LENGTH + b"\r\n",
    b"nonsense\r\nTransfer-Encoding: chunked\r\n", b"Content-Length\0: " + LENGTH + b"\r\n",
    b"X: a\r\n Content-Length: " + LENGTH + b"\r\n", b"Content-Length: 0\r\nContent-Length: " + LENGTH + b"\r\n",
    b"Content-Length: 0\r\nTransfer-Encoding: chunked\r\n", b"X: a\0\r\nTransfer-Encoding: chunked\r\n",
    b": a\r\nContent-Length: " + LENGTH + b"\r\n"]
ODD = [  # fields of a head, each of which is refused
    (b"nonsense\r\n", 400), (b"A : b\r\n", 400), (b"A\t: b\r\n", 400), (b" A: b\r\n", 400), (b"A\0: b\r\n", 400),
    (b"A: b\0\r\n", 400), (b"A: b\rC: d\r\n", 400), (b"A: b\r\n c\r\n", 400), (b"A: b\r\n\tc\r\n", 400),
    (b": b\r\n", 400), (b"A(: b\r\n", 400), ("\u00c4: b\r\n".encode(), 400), (b"A: b\nC: d\r\n", 400),
    (b"A: b\x0bc\r\n", 400), (b"A: b\r\r\n", 400), (b"Content-Length: 1\r\nContent-Length: 2\r\n", 400),
    (b"Content-Length: 4\r\nTransfer-Encoding: chunked\r\n", 400), (b"Host: other\r\n", 400),
    (b"A: " + b"b" * 17_000 + b"\r\n", 431), (b"A: b\r\n" * MOST_FIELDS, 431)]
BEGINS = [  # how a request begins that is none
    b"GET /openapi.json\r\n", b"GET  /openapi.json HTTP/1.1\r\n", b"GET /openapi.json HTTP/1.1 \r\n",
    b"GET /open\0api.json HTTP/1.1\r\n", b"GET /openapi.json\rHTTP/1.1\r\n", b"GET /a\xa0HTTP/1.1\r\n",
    b"GET\t/openapi.json HTTP/1.1\r\n", b"GET /openapi.json HTTP/1.1\n", b"\r\nGET /openapi.json HTTP/1.1\r\n"]


class HeadsTest(WebTest):
    def recorded(self, heard: list[str]) -> Callable[[str], str | None]:
        """A server that keeps what it is sent."""
        answer = speaks()

        def kept(line: str) -> str | None:
            heard.append(line)
            return answer(line)
        return kept

    def test_no_second_request_is_hidden_in_a_body(self) -> None:
        """Nor behind a bare CR; and alone the same request is carried out."""
        heard: list[str] = []
        with self.stub(self.recorded(heard)) as place, self.web(self.journal(), place, {"seconds": 5}) as web:
            for fields in SMUGGLES:
                with self.subTest(fields=fields):
                    told = web.raw(GET + HOST + fields + b"\r\n" + INNER)
                    self.assertEqual((told.count(b"HTTP/1.1 "), told[:13], heard), (1, b"HTTP/1.1 400 ", []), told)
            told = web.raw(GET + HOST + b"X: a\rContent-Length: " + LENGTH + b"\r\n\r\n" + INNER)
            self.assertEqual((told.count(b"HTTP/1.1 "), told[:13], heard), (1, b"HTTP/1.1 400 ", []), told)
            self.assertEqual(web.raw(INNER)[:13], b"HTTP/1.1 200 ")
            self.assertIn(HIDDEN.decode(), heard)

    def test_a_head_that_others_read_otherwise_is_refused(self) -> None:
        """And the connection is closed; what is of the form of HTTP is answered, however odd."""
        with self.web(self.journal(), listening={"seconds": 5}) as web:
            for sent, status in [*((GET + HOST + CLOSE + fields, status) for fields, status in ODD),
                                 *((begin + HOST + CLOSE, 400) for begin in BEGINS), (GET + CLOSE, 400),
                                 (GET + HOST + CLOSE + b"A:\r\nB:b\r\nc~!: \t\xe9 \"\r\n", 200),
                                 (GET + HOST + CLOSE + b"A: b\r\n" * (MOST_FIELDS - 2), 200)]:
                with self.subTest(sent=sent[:80]):
                    told = web.raw(sent + b"\r\n")
                    self.assertEqual((told.count(b"HTTP/1.1 "), told[:13]), (1, b"HTTP/1.1 %d " % status), told[:300])
            self.want_in(web.raw(GET + HOST + b"A: " + b"b" * 17_000).decode(), "has at most 16384 bytes")
            self.want_in(web.raw(GET + HOST + b"A: b\r\n" * 100).decode(), "has at most 99 fields")

    def test_a_head_that_breaks_off_is_no_request(self) -> None:
        """Though all of it that came is of the form of HTTP."""
        with self.web(self.journal(), listening={"seconds": 5}) as web:
            for sent in (GET, GET + HOST, GET + HOST[:-2], GET[:-2], GET[:9]):
                self.assertEqual(web.raw(sent, is_half=True), b"", sent)
