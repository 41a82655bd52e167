"""The frames by which a relay and `nrm_desks` speak: those that it is given, and those that it writes, read as they
come.

`docs/desks.md` says what each means.
"""
from __future__ import annotations

from typing import Iterable, Iterator, List, Tuple

MOST = 65_536  # the bytes behind the line of a frame that is given
WINDOW = 131_072  # the bytes of a client that the program may have and hasn't used
PLACES = 10_000  # of clients, from 0
KEPT, END, ALL_AGAIN = b"kept\n", b"end\n", b"again 0\n"
WITH_BYTES = (b"send", b"keep")
# the words of the line of a frame, and the bytes behind it. What is no frame has the words of its line
Frame = Tuple[List[bytes], bytes]


def again(rows: bytes) -> bytes:
    """Rows of the journal, whole ones."""
    return b"again %d\n" % len(rows) + rows


def pieces_of(rows: Iterable[bytes]) -> Iterator[bytes]:
    """Rows in pieces that a frame takes."""
    piece: list[bytes] = []
    size = 0
    for row in rows:
        if size + len(row) > MOST:
            yield b"".join(piece)
            piece, size = [], 0
        piece.append(row)
        size += len(row)
    yield b"".join(piece)


def came(place: int, data: bytes) -> bytes:
    """What came from the client at a place."""
    return b"came %d %d\n%b" % (place, len(data), data)


def opened(place: int, name: str, rights: str) -> bytes:
    """A client is at a place, as the desk of a name, with its rights."""
    return f"open {place} {name} {rights}\n".encode()


def gone(place: int) -> bytes:
    """No more of the lines of the client at a place are taken."""
    return b"gone %d\n" % place


class Frames:
    """What a program writes, of which the last frame may not be whole yet."""

    def __init__(self) -> None:
        self.left = b""

    def of(self, piece: bytes) -> list[Frame]:
        """The frames that are whole with a next piece."""
        data, at, found = self.left + piece, 0, []
        while (end := data.find(b"\n", at)) >= 0:
            words, stop = data[at:end].split(b" "), end + 1
            if words[0] in WITH_BYTES:
                stop += int(words[-1])
                if stop > len(data):
                    break
            found.append((words, data[end + 1:stop]))
            at = stop
        self.left = data[at:]
        return found
