"""Whose token it is that a client gave, and how long the answer to a wrong one waits."""
from __future__ import annotations

from itertools import islice
from typing import Callable, Tuple

from nrm.server.access import Access, Right
from nrm.server.wrong_tokens import Slowed

FRONT = b"token "  # of the line that gives a token
HERE = "here"  # the address of all who come by a Unix socket
MOST_TOLD = 10  # addresses in a line of the log


class Tokens:
    """The desks that may come, if any are named, and the addresses from which wrong tokens came."""

    def __init__(self, tell: Callable[..., None], access: Access | None = None) -> None:
        self.tell, self.access = tell, access
        self.slowed = Slowed()
        self.refused: dict[str, int] = {}  # those since they were told last

    def asked(self, address: str, token: bytes) -> Tuple[Right | None, float]:
        """Whose token it is that came from an address, and the seconds that the answer to a wrong one waits. On the
        Unix socket none does: those who may open it need no token, and the door of HTTP slows its callers itself."""
        right = self.access.named(token) if self.access else None
        if right:
            self.slowed.admitted(address)
            return right, 0
        self.refused[address] = self.refused.get(address, 0) + 1
        return None, self.slowed.refused(address) if address != HERE else 0

    def tell_of_refused(self) -> None:
        """Tells how many wrong tokens came since this was told last, and from where, in one line."""
        if not self.refused:
            return
        refused, self.refused = self.refused, {}
        others = len(refused) - MOST_TOLD
        self.tell("token-refused", count=sum(refused.values()), addresses=",".join(islice(refused, MOST_TOLD)),
                  others=others if others > 0 else None)
