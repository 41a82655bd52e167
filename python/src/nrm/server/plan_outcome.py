"""What became of a line for a plan that stood between two looks: its value, how long it took, and which bid prices it
changed.
"""
from __future__ import annotations

from dataclasses import dataclass
from fractions import Fraction
from typing import Sequence

from nrm.replies import plan_of

PASSES = ("memory", "denied")  # what may be answered otherwise later


@dataclass(frozen=True)
class PlanOutcome:
    """A plan that was made, in how many seconds, with its value, and the legs whose bid prices it changed as far as
    that is known; or why none was made, and whether the same would come of it again."""
    seconds: float = 0
    value: str = ""
    changed: tuple[str, ...] | None = None
    fault: str | None = None
    fails_again: bool = False


def outcome_of(told: Sequence[tuple[float, bytes]], why: str | None) -> PlanOutcome:
    """What the replies to a greeting, a look, a line and a look tell, of which there may be fewer if the client was
    closed: what became of that line the journal tells."""
    text = b"".join(data for _, data in told)
    greeting, _, rest = text.partition(b"\n")
    before, _, rest = rest.partition(b"\n\n")
    reply, is_whole, rest = rest.partition(b"\n")
    after, has_looked, _ = rest.partition(b"\n\n")
    if not is_whole:
        return PlanOutcome(fault=f"closed-{why.replace(' ', '-')}" if why else "strange")
    word, _, value = reply.decode("ascii", "backslashreplace").partition(" ")
    if word != "optimised":
        return PlanOutcome(fault=word, fails_again=word not in PASSES)
    end = len(greeting) + len(before) + 3
    seconds = heard_at(told, end + len(reply) + 1) - heard_at(told, end)
    return PlanOutcome(seconds, value, changed_by(before, after) if has_looked else None)


def heard_at(told: Sequence[tuple[float, bytes]], size: int) -> float:
    """When so many bytes had been told."""
    for when, data in told:
        size -= len(data)
        if size <= 0:
            return when
    raise ValueError(size)


def changed_by(before: bytes, after: bytes) -> tuple[str, ...]:
    """The legs whose bid prices differ in the texts of two plans."""
    old, new = prices_in(before), prices_in(after)
    return tuple(leg for leg in new if new[leg] != old.get(leg))


def prices_in(plan: bytes) -> dict[str, Fraction]:
    """The bid prices in the text of a plan, of which the other lines aren't read."""
    value, *lines = plan.decode().split("\n")
    return plan_of([value, *(it for it in lines if it.startswith("leg "))]).prices
