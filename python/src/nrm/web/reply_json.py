"""A reply in JSON: its kind and its fields, exact.

Seats, parties and numbers of bookings are numbers, since they are small; money is a text of digits, and a fraction two
of them, `{"num": "81130", "den": "3"}`, since a reader may take each number of JSON for a float.
"""
from __future__ import annotations

from fractions import Fraction
from typing import Mapping

from nrm.replies import (Answer, Available, Cancelled, Hindsight, Leg, NoAnswer, NoLeg, Optimised, Plan, Sold,
                         answer_of)

Fields = Mapping[str, object]


def exact(value: Fraction | None) -> Fields | None:
    """A fraction in its lowest terms."""
    return None if value is None else {"num": str(value.numerator), "den": str(value.denominator)}


def fields_of(answer: Answer) -> dict[str, object]:
    """The fields of an answer, its kind first."""
    return {"kind": type(answer).__name__, **own_fields(answer)}


def own_fields(answer: Answer) -> Fields:
    """The fields of an answer that its kind has."""
    if isinstance(answer, (Sold, NoLeg)):
        return vars(answer)
    if isinstance(answer, Cancelled):
        return {"number": answer.number, "amount": str(answer.amount)}
    if isinstance(answer, Optimised):
        return {"value": exact(answer.value)}
    if isinstance(answer, Available):
        return {"party": answer.party, "limit": None if answer.limit is None else fields_of(answer.limit)}
    if isinstance(answer, Leg):
        return vars(answer)
    if isinstance(answer, Hindsight):
        return {"bound": exact(answer.bound), "revenue": str(answer.revenue), "withheld": str(answer.withheld)}
    return fields_of_plan(answer) if isinstance(answer, Plan) else {}


def fields_of_plan(plan: Plan) -> Fields:
    """The fields of a plan. Nests and protections are those of `davn` alone."""
    nests = [{"leg": leg, "product": product, "adjusted": exact(it.adjusted), "bucket": it.bucket}
             for (leg, product), it in plan.nests.items()]
    return {"mode": plan.mode, "value": exact(plan.value),
            "allocation": {name: exact(it) for name, it in plan.allocation.items()},
            "prices": {name: exact(it) for name, it in plan.prices.items()},
            "nests": nests, "protections": {name: list(it) for name, it in plan.protections.items()}}


def told_of(reply: bytes) -> dict[str, object]:
    """A reply with its fields, and as it is."""
    text = reply.decode("latin-1")
    try:
        return {**fields_of(answer_of(reply)), "reply": text.rstrip("\n")}
    except NoAnswer:
        return {"kind": "Other", "reply": text.rstrip("\n")}
