"""How long the answer to a wrong token waits, by the wrong ones that came before from the same address."""
from __future__ import annotations

WRONG_AT_ONCE = 5  # wrong tokens from an address that are answered at once
WAITS = 1, 2, 4, 8, 16, 30  # the seconds that the next ones wait, and all behind them
MOST_ADDRESSES = 1000  # that are remembered


class Slowed:
    """The addresses from which wrong tokens came."""

    def __init__(self) -> None:
        self.wrong: dict[str, int] = {}  # by address, that of the latest behind the others

    def refused(self, address: str) -> float:
        """A wrong one came from an address: the seconds that its answer waits."""
        before = self.wrong.pop(address, 0)
        self.wrong[address] = before + 1
        if len(self.wrong) > MOST_ADDRESSES:
            del self.wrong[next(iter(self.wrong))]
        return WAITS[min(before - WRONG_AT_ONCE, len(WAITS) - 1)] if before >= WRONG_AT_ONCE else 0

    def admitted(self, address: str) -> None:
        """A right one came: the next wrong one is the first."""
        self.wrong.pop(address, None)
