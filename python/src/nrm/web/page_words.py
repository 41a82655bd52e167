"""What the page says in words and draws in lines: why a line was refused, times, amounts, bars and curves.

Amounts are written by whole numbers alone.
"""
from __future__ import annotations

from datetime import datetime, timedelta, timezone
from fractions import Fraction
from typing import Sequence

from nrm.replies import NoAnswer, NoFare, NoLeg, Overflow, Unknown, answer_of
from nrm.web.network_counts import JournalRow

BEGINNING = datetime(1970, 1, 1, tzinfo=timezone.utc)
WIDE, HIGH = 100, 24  # of a small picture
MISSING = {"book": "there is no such product", "cancel": "no booking of this number stands",
           "reoptimise": "the network has no such period"}


def time_of(at: int) -> str:
    """A time, of milliseconds since 1970 began."""
    try:
        return (BEGINNING + timedelta(milliseconds=at)).strftime("%Y-%m-%d %H:%M:%S")
    except OverflowError:
        return str(at)


def amount(value: Fraction | int) -> str:
    """An amount with two decimals, or none where it is whole; half a hundredth is rounded up."""
    if Fraction(value).denominator == 1:
        return f"{int(value):,}"
    hundredths = (Fraction(value) * 200 + 1) // 2
    return f"{hundredths // 100:,}.{hundredths % 100:02}"


def why(line: str, reply: str) -> str:
    """Why a line was refused, in plain words."""
    try:
        answer = answer_of(reply.encode("latin-1", "replace"))
    except NoAnswer:
        return reply
    kind, *words = line.split(" ")
    if isinstance(answer, NoLeg):
        return f"{answer.leg} lacks seats for a party of {words[-1] if words else '?'}"
    if isinstance(answer, NoFare):
        return "there are seats, and the fare is below the bid prices of the legs"
    if isinstance(answer, Unknown):
        return MISSING.get(kind, "there is nothing of this name")
    return "the linear program of the plan is too large" if isinstance(answer, Overflow) else reply


def why_of(row: JournalRow) -> str:
    """Why the line of a row was refused."""
    return why(row.line, row.reply)


def bars(values: Sequence[int]) -> list[tuple[int, int, int]]:
    """Bars side by side: of each its place, where it begins from above, and its height."""
    most = max(values, default=0)
    heights = [-(-it * HIGH // most) if most else 0 for it in values]
    return [(at, HIGH - height, height) for at, height in enumerate(heights)]


def curve(values: Sequence[Fraction]) -> str:
    """The points of a curve in steps through some values, from left to right; the highest is at the top."""
    most = max(values, default=Fraction(0))
    ups = [HIGH - 1 - (int(it * (HIGH - 2) / most) if most else 0) for it in values]
    if len(ups) < 2:
        ups *= 2
    points: list[str] = []
    for at, up in enumerate(ups):
        across = at * WIDE // max(1, len(ups) - 1)
        points += [f"{across},{ups[at - 1]}", f"{across},{up}"] if at else [f"{across},{up}"]
    return " ".join(points)
