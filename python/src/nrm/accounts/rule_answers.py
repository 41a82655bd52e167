"""The answer to a line by the rule, from the network file, what stands before the line and the plan in force: no
account is looked at, nor what the line was answered, but whether a plan was made.
"""
from __future__ import annotations

from fractions import Fraction

from nrm.accounts.played_session import PlayedLine
from nrm.accounts.rule_nests import Rule


def answer_by_rule(course: PlayedLine) -> str | None:
    """What the line is answered; None where no rule of this package says it: texts, hindsight, what is no line, and a
    plan that came to nothing."""
    kind, *rest = course.asked.split(" ")
    if course.reply == "bad":
        return None
    if kind == "book":
        return of_request(course, rest[0], int(rest[1]))
    if kind == "cancel":
        return of_cancellation(course, int(rest[0]))
    return of_optimisation(course, int(rest[0])) if kind == "reoptimise" else None


def of_request(course: PlayedLine, name: str, party: int) -> str:
    """A request: the first leg on which what is asked for and what is protected are more than what is left refuses it,
    and under `bid` a fare below the sum of the prices does."""
    product = course.network.products.get(name)
    if product is None:
        return "unknown"
    plan, left = course.plan_in_force(), course.left()
    rule = Rule(course.network, plan.prices, course.planned.period)
    for leg in product.legs:
        protected = rule.protected(leg, rule.bucket(product, leg)) if course.mode == "davn" else 0
        if party + protected > left[leg]:
            return f"no {leg}"
    if course.mode == "bid" and sum((plan.prices[it] for it in product.legs), Fraction(0)) > product.fare:
        return "no fare"
    return f"ok {course.last_booking + 1}"


def of_cancellation(course: PlayedLine, number: int) -> str:
    """A cancellation: of the worth of a booking that stands the product's percentage, rounded down."""
    sale = course.sales.get(number)
    if sale is None:
        return "unknown"
    product = course.network.products[sale.product]
    return f"cancelled {number} {sale.party * product.fare * product.refund // 100}"


def of_optimisation(course: PlayedLine, period: int) -> str | None:
    """A plan that is asked for: its value is that of the certificate behind the line."""
    if not 1 <= period <= course.network.periods:
        return "unknown"
    if course.mode == "first":
        return "optimised none"
    return f"optimised {course.plan_behind.split(chr(10))[0].split(' ')[1]}" if course.optimised() else None
