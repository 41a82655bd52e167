"""The rule of an account done again, step by step: what is compared, in words to be followed by hand, and whether it
holds.

What a step starts from is the network file, the replies before the line and the plan in force, never the account.
"""
from __future__ import annotations

from dataclasses import dataclass
from fractions import Fraction
from typing import Iterator

from nrm.accounts.played_session import PlayedLine
from nrm.accounts.reading import (Account, CancellationAccount, Enough, LegAccount, NestAccount, Optimisation,
                                  RequestAccount)
from nrm.accounts.rule_answers import answer_by_rule
from nrm.accounts.rule_nests import Rule
from nrm.network import Product

MOST_PARTY = 999


@dataclass(frozen=True)
class Step:
    """What is compared, in words, and whether it holds."""
    text: str
    holds: bool


def shown(number: Fraction) -> str:
    """A fraction as accounts have it."""
    return f"{number.numerator}/{number.denominator}"


def steps_of(account: Account, course: PlayedLine) -> Iterator[Step]:
    """The steps of an account, beside the session up to its line."""
    asked = "bad" if course.reply == "bad" else course.asked
    yield Step(f"line {course.number} of the stream asks for: {asked}",
               (account.number, account.asked) == (course.number, asked))
    if course.kept is not None:
        yield from of_kept(account, course)
    if account.answer is not None:
        yield Step(f"a session up to this line, by `nrm run`, answers it: {course.reply}",
                   account.answer == course.reply)
    yield Step("an account has reasons if it is of a request for a product of the network, of a booking that stands, or of "
               "a period of the network", wants_reasons(course) == (account.reasons is not None))
    if isinstance(account.reasons, RequestAccount):
        yield from of_request(account.reasons, course)
    elif isinstance(account.reasons, CancellationAccount):
        yield from of_cancellation(account.reasons, course)
    elif isinstance(account.reasons, Optimisation):
        yield from of_optimisation(account.reasons, course)
    answer = answer_by_rule(course)
    if answer is not None:
        yield Step("worked out once more without the account, from the network file, the replies before and the plan, "
                   f"the answer is: {answer}", account.answer == answer)


def of_kept(account: Account, course: PlayedLine) -> Iterator[Step]:
    """The replies that a journal has, to the line and to those before it."""
    yield Step(f"the journal has the reply of the account: {course.kept}", course.kept == account.answer)
    differing = course.differing
    if differing:
        yield Step(f"line {differing.line} before it has the reply {differing.kept} in the journal, and `nrm run` "
                   f"answers it: {differing.reply}", False)
    elif course.number > 1:
        yield Step(f"the replies that the journal has to the lines before it, {course.number - 1} in number, are those "
                   "of `nrm run`", True)


def wants_reasons(course: PlayedLine) -> bool:
    """Whether the last line of a session is one that is answered for reasons."""
    verb = course.asked.split(" ")[0]
    return verb in ("book", "cancel", "reoptimise") and course.reply not in ("unknown", "bad")


# A request


def of_request(it: RequestAccount, course: PlayedLine) -> Iterator[Step]:
    """The plan in force, the product, its legs, the fare, the answer, and the largest party."""
    made, period = course.planned.line, course.planned.period
    yield Step(f"the plan in force was made by {f'line {made}' if made else 'the opening'}, for period {period}, under "
               f"{course.mode}", (it.mode, it.planned, it.period) == (course.mode, made, period))
    _, name, party = course.asked.split(" ")
    product = course.network.products[name]
    yield Step(f"the network file has {name} at {product.fare}, of which {product.refund} in 100 are given back, over "
               f"{', '.join(product.legs)}",
               (it.product, it.fare, it.refund, [leg.name for leg in it.legs])
               == (name, product.fare, product.refund, list(product.legs)))
    prices = course.plan_in_force().prices
    for leg in it.legs:
        if leg.name in product.legs:
            yield from of_leg(leg, int(party), product, course)
            yield from of_nest(leg, product, Rule(course.network, prices, period), it.mode)
    yield from of_fares(it, product, prices)
    yield answer_step(it, int(party), course.reply)
    yield from largest_steps(it, product, prices)


def of_leg(leg: LegAccount, party: int, product: Product, course: PlayedLine) -> Iterator[Step]:
    """The seats of a leg, added up, and the comparison."""
    authorised, sold = course.network.legs[leg.name].authorised, course.sold[leg.name]
    yield Step(f"{leg.name}: {authorised} authorised in the network file less {sold} sold by the replies before, less "
               f"what was cancelled, leaves {authorised - sold}",
               (leg.authorised, leg.sold, leg.left) == (authorised, sold, authorised - sold))
    together, short = party + leg.protected, party + leg.protected - leg.left
    yield Step(f"{leg.name}: {party} asked for and {leg.protected} protected are {together}, and {leg.left} are left: "
               + (f"short by {short}" if short > 0 else "it covers them"),
               leg.needs == party and leg.short == (short if short > 0 else None))


def of_nest(leg: LegAccount, product: Product, rule: Rule, mode: str) -> Iterator[Step]:
    """The bucket of the product on a leg, and where the seats that are protected from it come from."""
    if mode != "davn" or leg.nest is None:
        yield Step(f"{leg.name}: nothing is protected, because there are no nests under {mode}",
                   mode != "davn" and leg.nest is None and leg.protected == 0)
        return
    nest, name = leg.nest, leg.name
    fare, bucket = rule.adjusted(product, name), rule.bucket(product, name)
    thresholds = rule.network.legs[name].thresholds
    others = "".join(f", less {shown(rule.prices[it])} of {it}" for it in product.legs if it != name)
    yield Step(f"{name}: the fare {product.fare}{others} is {shown(fare)}; of the thresholds "
               f"({', '.join(map(str, thresholds))}) {bucket - 1} are greater, so it is in bucket {bucket} of "
               f"{len(thresholds) + 1}",
               (nest.fare, nest.bucket, nest.buckets, nest.least, nest.below)
               == (fare, bucket, len(thresholds) + 1, thresholds[bucket - 1] if bucket <= len(thresholds) else None,
                   thresholds[bucket - 2] if bucket > 1 else None))
    yield from of_protection(leg, nest, rule)


def of_protection(leg: LegAccount, nest: NestAccount, rule: Rule) -> Iterator[Step]:
    """The seats that are protected, by the rule, and the test of their number."""
    wanted = rule.protected(leg.name, rule_bucket(nest))
    yield Step(f"{leg.name}: by the rule of nests {wanted} seats are protected from bucket {nest.bucket}",
               leg.protected == wanted == (nest.enough.seats if nest.enough else 0))
    if nest.enough:
        yield from of_enough(leg, nest.enough, rule)


def rule_bucket(nest: NestAccount) -> int:
    """The bucket of a nest, if the leg has it; else one that nothing is protected from."""
    return nest.bucket if 1 <= nest.bucket <= nest.buckets else 1


def of_enough(leg: LegAccount, it: Enough, rule: Rule) -> Iterator[Step]:
    """The demand and the fares behind a number of seats, and that one seat less is too few."""
    name, which = leg.name, f"buckets 1 to {it.buckets}" if it.buckets > 1 else "bucket 1"
    demand = rule.demand(rule.in_buckets(name, 1, it.buckets))
    yield Step(f"{name}: the demand from period {rule.period} on for {which}, history by history, is "
               f"{' '.join(map(str, demand))}", list(it.demand) == demand and it.histories == len(demand))
    mean, next_fare = rule.mean(name, 1, it.buckets), rule.next_fare(name, it.buckets + 1)
    yield Step(f"{name}: the mean adjusted fare of {which} is {shown(mean or Fraction(0))}, and the fare of bucket "
               f"{it.buckets + 1} is {shown(next_fare)}", (it.mean, it.next_fare) == (mean, next_fare))
    over, less = (len([one for one in it.demand if one > seats]) for seats in (it.seats, it.seats - 1))
    today = it.histories * it.next_fare
    if it.seats < leg.authorised:
        yield Step(f"{name}: {over} histories have more than {it.seats}; {over} times {shown(it.mean)} is "
                   f"{shown(over * it.mean)}, at most {it.histories} times {shown(it.next_fare)}, {shown(today)}: "
                   f"{it.seats} seats are enough", it.over == over and over * it.mean <= today)
    else:
        yield Step(f"{name}: {over} histories have more than {it.seats}, and no more than the {leg.authorised} "
                   "authorised seats are protected", it.over == over and it.seats == leg.authorised)
    yield Step(f"{name}: {less} histories have more than {it.seats - 1}; {less} times {shown(it.mean)} is "
               f"{shown(less * it.mean)}, more than {shown(today)}: one seat less is not enough",
               less * it.mean > today)


def of_fares(it: RequestAccount, product: Product, prices: dict[str, Fraction]) -> Iterator[Step]:
    """The fare against the bid prices, where these are looked at."""
    looked_at = it.mode == "bid" and all(leg.short is None for leg in it.legs)
    if it.fares is None or not looked_at:
        yield Step("the fare is compared with bid prices only under bid, and only where no leg is short",
                   (it.fares is not None) == looked_at)
        return
    wanted = tuple((leg, prices[leg]) for leg in product.legs)
    total = sum((price for _, price in wanted), Fraction(0))
    below = total - product.fare
    yield Step(f"the plan in force prices {', '.join(f'{leg} at {shown(price)}' for leg, price in wanted)}",
               it.fares.prices == wanted)
    yield Step(f"the prices add up to {shown(total)}, and the fare is {product.fare}: "
               + (f"it is below by {shown(below)}" if below > 0 else "it reaches them"),
               (it.fares.sum, it.fares.fare, it.fares.below) == (total, product.fare, below if below > 0 else None))


def ruled(it: RequestAccount, party: int, is_below: bool) -> str:
    """What a party is answered, by the numbers of the legs: `ok` without the number of the booking where it is sold."""
    short = [leg.name for leg in it.legs if party + leg.protected > leg.left]
    return f"no {short[0]}" if short else "no fare" if is_below else "ok"


def answer_step(it: RequestAccount, party: int, reply: str) -> Step:
    """That the numbers give the answer."""
    wanted = ruled(it, party, it.fares is not None and it.fares.below is not None)
    why = {"ok": "no leg is short" + (", and the fare reaches the prices" if it.mode == "bid" else ""),
           "no fare": "no leg is short, and the fare is below the prices",
           }.get(wanted, "the first leg that is short is named")
    return Step(f"{why}: {reply}", reply == wanted or wanted == "ok" and reply.startswith("ok "))


def largest_steps(it: RequestAccount, product: Product, prices: dict[str, Fraction]) -> Iterator[Step]:
    """The largest party that is sold, and what one seat more is answered."""
    total = sum((prices[leg] for leg in product.legs), Fraction(0)) if it.mode == "bid" else Fraction(0)
    is_below = total > product.fare
    seats = [max(leg.left - leg.protected, 0) for leg in it.legs]
    largest = 0 if is_below else min([MOST_PARTY, *seats])
    yield Step("no party is sold, because the fare is below the prices" if is_below else
               f"the legs have {', '.join(map(str, seats))} seats left that aren't protected, so {largest} would be "
               "sold",
               it.largest == largest)
    beyond = ruled(it, largest + 1, is_below) if largest < MOST_PARTY else "bad"
    yield Step(f"one seat more, {largest + 1}, is answered {beyond}", it.beyond == beyond)


# A cancellation, and an optimisation


def of_cancellation(it: CancellationAccount, course: PlayedLine) -> Iterator[Step]:
    """The booking, as its line was sold, and what is given back."""
    number = int(course.asked.split(" ")[1])
    sale = course.sales.get(number)
    if sale is None:
        yield Step(f"no booking {number} stands by the replies before", False)
        return
    product = course.network.products[sale.product]
    worth = sale.party * product.fare
    back = worth * product.refund // 100
    yield Step(f"booking {number} was sold by line {sale.line}: {sale.asked}",
               (it.number, it.product, it.party) == (number, sale.product, sale.party))
    yield Step(f"{sale.party} times the fare {product.fare} is {worth}", (it.fare, it.worth) == (product.fare, worth))
    yield Step(f"{product.refund} in 100 of {worth} is {back}, rounded down; the rest of {worth - back} is withheld",
               (it.refund, it.back, it.withheld) == (product.refund, back, worth - back))
    yield Step(f"the answer gives back the same: cancelled {number} {back}",
               course.reply == f"cancelled {number} {back}")


def of_optimisation(it: Optimisation, course: PlayedLine) -> Iterator[Step]:
    """The seats left, added up."""
    left = course.left()
    yield Step(f"by the replies before, {', '.join(f'{leg} has {seats}' for leg, seats in left.items())} seats left",
               it.left == tuple(left.items()))
