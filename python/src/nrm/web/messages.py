"""What is asked by HTTP and what is answered: a request, a response whole or bit by bit, and a refusal in a sentence.

Of a head each line is seen as it came. A proxy in front may end a head, a field or a body elsewhere than Python's
parser does, where a line is none of those that HTTP knows: then what is a body to the one is a next request to the
other.
"""
from __future__ import annotations

import json
import re
from dataclasses import dataclass, field
from typing import Callable, Iterator, Mapping, Tuple, Union

from nrm.desk import TOKEN

TEXT, JSON, HTML = "text/plain; charset=utf-8", "application/json", "text/html; charset=utf-8"
PASSES = (("Retry-After", "1"),)  # with what may be asked again soon
Pairs = Tuple[Tuple[str, str], ...]
MOST_HEAD = 16_384  # bytes of a request before its body
MOST_FIELDS = 99  # with a further one Python's parser gives up
NAMED = rb"[!#$%&'*+.^_`|~0-9A-Za-z-]+"  # what HTTP calls a token
BEGIN = re.compile(NAMED + rb" [!-~]+ HTTP/[0-9]\.[0-9]\r\n")
FIELD = re.compile(NAMED + rb":[\t\x20-\x7e\x80-\xff]*\r\n")
END = b"\r\n"


@dataclass(frozen=True)
class HttpRequest:
    """What was asked: the path without its query, the fields of the head with names in small letters, the body, and the
    address of who asks."""
    method: str
    path: str
    head: Mapping[str, str] = field(default_factory=dict)
    body: bytes = b""
    address: str = ""

    def wants_json(self) -> bool:
        """Whether the answer is to be JSON."""
        return any(it.split(";")[0].strip() == JSON for it in self.head.get("accept", "").lower().split(","))

    def token(self) -> str | None:
        """The token of who asks; an HttpRefusal for another kind of it."""
        given = self.head.get("authorization")
        if given is None:
            return None
        kind, _, token = given.partition(" ")
        token = token.strip()
        if kind.lower() != "bearer" or not TOKEN.fullmatch(token):
            raise HttpRefusal(401, "token", "`Authorization` must have `Bearer` and a token",
                              (("WWW-Authenticate", "Bearer"),))
        return token


@dataclass(frozen=True)
class HttpResponse:
    """What is answered, as a whole."""
    body: bytes
    kind: str = TEXT
    status: int = 200
    head: Pairs = ()


@dataclass(frozen=True)
class HttpStream:
    """What is answered bit by bit, until the one who asked is gone; then it is closed."""
    pieces: Iterator[bytes]
    kind: str
    close: Callable[[], None]


Answer = Union[HttpResponse, HttpStream]


class HttpRefusal(Exception):
    """Why nothing else is answered: the status, a word for programs, and a sentence for people."""

    def __init__(self, status: int, word: str, why: str, head: Pairs = ()) -> None:
        super().__init__(f"{word}: {why}")
        self.status, self.word, self.why, self.head = status, word, why, head

    def response(self, is_json: bool) -> HttpResponse:
        """The answer that tells it."""
        if is_json:
            return json_of({"error": self.word, "why": self.why}, self.status, self.head)
        return HttpResponse(f"{self.word}: {self.why}\n".encode(), TEXT, self.status, self.head)


class HttpHead:
    """A head that comes line by line, and what has come of it."""

    def __init__(self) -> None:
        self.left, self.lines, self.hosts = MOST_HEAD, 0, 0

    def taken(self, line: bytes) -> bytes:
        """A next line, at most a byte longer than what is left; an HttpRefusal if it mustn't come. No bytes are the end
        of a connection, which may come before a head alone."""
        self.left -= len(line)
        if self.left < 0:
            raise HttpRefusal(431, "head", f"the head of a request has at most {MOST_HEAD} bytes")
        if not line.endswith(b"\n") and (line or self.lines):
            raise ConnectionError("the head broke off")
        self.lines += 1
        if line:
            self.see_that_it_may_come(line)
        return line

    def see_that_it_may_come(self, line: bytes) -> None:
        """An HttpRefusal for a line that isn't of the form of HTTP, or is one too many."""
        if self.lines == 1:
            if not BEGIN.fullmatch(line):
                raise HttpRefusal(400, "head", "a request begins with a method, a path and `HTTP/1.1`, with one space "
                                           "between each two, and ends its lines by CR and LF")
        elif line == END:
            if self.hosts != 1:
                raise HttpRefusal(400, "head", "a head has one field `Host`")
        elif not FIELD.fullmatch(line):
            raise HttpRefusal(400, "head", "each line of a head is a name, a colon right behind it, and a value in one "
                                       "line without control characters, and ends by CR and LF")
        elif self.lines > MOST_FIELDS + 1:
            raise HttpRefusal(431, "head", f"the head of a request has at most {MOST_FIELDS} fields")
        self.hosts += line[:5].lower() == b"host:"


def json_of(value: object, status: int = 200, head: Pairs = ()) -> HttpResponse:
    """An answer in JSON."""
    return HttpResponse(json.dumps(value, ensure_ascii=False).encode() + b"\n", JSON, status, head)


def text_of(text: str, status: int = 200) -> HttpResponse:
    """An answer in a line of text."""
    return HttpResponse(text.encode() + b"\n", TEXT, status)
