"""An account in a sentence of plain words, and what is wrong where something is."""
from __future__ import annotations

from fractions import Fraction
from typing import Sequence

from nrm.accounts.checking import Why
from nrm.accounts.played_session import PlayedLine
from nrm.accounts.reading import Account, CancellationAccount, LegAccount, Optimisation, RequestAccount
from nrm.accounts.rule_answers import answer_by_rule
from nrm.accounts.rule_steps import shown


def plain(number: Fraction) -> str:
    """A number as people write it: without a denominator where that is 1."""
    return str(number.numerator) if number.denominator == 1 else shown(number)


def counted(number: int, what: str = "seat") -> str:
    """So many of something."""
    return f"{number} {what}{'' if number == 1 else 's'}"


def was(number: int) -> str:
    """The verb of a number of things."""
    return "was" if number == 1 else "were"


def sentence_of(account: Account, course: PlayedLine, sale: str = "") -> str:
    """The account in plain words; of the sale of a booking that was cancelled more may be known than its line."""
    reasons = account.reasons
    if isinstance(reasons, RequestAccount):
        return of_request(reasons, account.answer or "")
    if isinstance(reasons, CancellationAccount):
        return of_cancellation(reasons, course, sale)
    if isinstance(reasons, Optimisation):
        return of_optimisation(account)
    verb = account.asked.split(" ")[0]
    if account.answer == "unknown":
        return {"book": "Refused: no product has the name {}.", "cancel": "Nothing was cancelled: no booking {} stood.",
                "leg": "No leg has the name {}.",
                }.get(verb, "No plan was made: the network has no period {}.").format(account.asked.split(" ")[1])
    if verb in ("leg", "plan"):
        return f"The line asked for a text, and changed nothing: {account.asked}."
    if verb == "bad":
        return "The line isn't one that is known, and changed nothing."
    return f"The line {verb} was answered: {account.answer}."


def of_request(it: RequestAccount, answer: str) -> str:
    """A request that was sold or refused, and what would have been enough."""
    party = it.legs[0].needs
    short = next((leg for leg in it.legs if leg.short is not None), None)
    if short is not None:
        told = f"Refused: {of_short(short)}"
    elif it.fares is not None and it.fares.below is not None:
        told = (f"Refused: the fare of {it.fares.fare} is {plain(it.fares.below)} below {plain(it.fares.sum)}, the sum "
                "of the bid prices of its legs, which is what the seats are worth to others.")
    else:
        told = f"Sold: {counted(party)} of {it.product} at {it.fare} each, as booking {answer.split(' ')[-1]}."
    return f"{told} {of_largest(it)}"


def of_short(leg: LegAccount) -> str:
    """Why a leg refuses."""
    left = f"{leg.name} had {counted(leg.left)} left of {leg.authorised}"
    asked = f"and {leg.needs} {was(leg.needs)} asked for."
    if leg.protected == 0:
        return f"{left}, {asked}"
    return f"{left}, {leg.protected} {was(leg.protected)} protected for dearer bookings, {asked}"


def of_largest(it: RequestAccount) -> str:
    """What would have been enough."""
    if it.largest == 0:
        return "No party, however small, would have been sold then."
    if it.beyond == "bad":
        return f"The largest party that can be asked for, {it.largest}, would have been sold."
    return f"The largest party that would have been sold then is {it.largest}."


def of_cancellation(it: CancellationAccount, course: PlayedLine, more: str) -> str:
    """What was given back of a booking, and when that was sold."""
    sale = course.sales.get(it.number)
    sold = f", sold by line {sale.line}{more}" if sale else ""
    return (f"Cancelled: booking {it.number} of {counted(it.party)} of {it.product}{sold} for {it.worth}. {it.back} "
            f"{was(it.back)} given back, {it.refund} in 100, and {it.withheld} {was(it.withheld)} withheld.")


def of_optimisation(account: Account) -> str:
    """What an optimisation came to."""
    answer = account.answer or ""
    if not answer.startswith("optimised "):
        return f"No plan was made, because the linear program ended with {answer}: the plan in force stayed."
    value = answer.split(" ")[1]
    if value == "none":
        return "A plan was asked for, and first come, first served has none."
    return f"A plan was made at the seats left; its value in a history, on average, is {plain(Fraction(value))}."

# What is wrong


def verdict(why: Why) -> str:
    """How many steps hold."""
    failing = [it for it in why.steps if not it.holds]
    if not failing:
        return f"All {len(why.steps)} steps hold."
    return (f"{len(failing)} of {len(why.steps)} steps FAIL. The first: "
            f"{failing[0].text}")


def fault_of(why: Why) -> str | None:
    """What is wrong, if a step fails: whether the journal has another reply to the line, or to one before it; else the
    first step."""
    kept, answer, differing = why.course.kept, why.account.answer, why.course.differing
    if why.holds:
        return None
    if kept is not None and kept != answer:
        return f"Something is wrong: the reply to line {why.course.number} is {voices(why, kept)}."
    if differing:
        return (f"Something is wrong: the reply to line {differing.line} is `{differing.kept}` in the journal, and "
                f"`{differing.reply}` by `nrm run`, so what stood before line {why.course.number} can't be relied on.")
    return f"Don't rely on this account: {verdict(why)}"


def voices(why: Why, kept: str) -> str:
    """What each says that the reply to the line is, of which those that say the same stand together."""
    said = {"in the journal": kept, "in the account": why.account.answer or "", "by `nrm run`": why.course.reply,
            "by the rule as it is computed here": answer_by_rule(why.course)}
    replies = dict.fromkeys(it for it in said.values() if it is not None)
    told = [f"{quoted(reply)} {together([who for who, it in said.items() if it == reply])}" for reply in replies]
    return f"{', '.join(told[:-1])}, and {told[-1]}"


def together(texts: Sequence[str]) -> str:
    """Some texts in a sentence, one behind the other."""
    return " and ".join([", ".join(texts[:-1]), texts[-1]] if len(texts) > 1 else texts)


def quoted(reply: str) -> str:
    """A reply in a sentence: of a text its first line, and of none a word."""
    first, is_text, _ = reply.partition("\n")
    return f"`{first}{' ..' if is_text else ''}`" if reply else "none"
