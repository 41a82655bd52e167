"""The amounts of a column, such as 1.234,50 or EUR 35.00: one decimal mark and one currency in all of them."""
from __future__ import annotations

import re
from decimal import Decimal
from typing import Iterable

from nrm import Stop
from nrm.records.log_rows import cut_short

CURRENCY = re.compile(r"[^\W\d_]{1,4}\.?|[€$£¥]|,-|\.-")
BLANKS = re.compile(r"[\s'’\u00a0\u202f]")
AMOUNT = re.compile(r"(-?)((?:\d{1,3}(?:([.,])\d{3})(?:\3\d{3})*)|\d{1,12})(?:([.,])(\d{1,2}))?")


def parts_of(text: str) -> tuple[str, str]:
    """The digits of an amount with their marks, and its currency, which may be empty."""
    digits = BLANKS.sub("", CURRENCY.sub("", text))
    return digits, "".join(CURRENCY.findall(text)).strip(",-.").upper()


class Amounts:
    """Reads the amounts of a column; a Stop where its rows have two decimal marks or two currencies."""

    def __init__(self, column: str, texts: Iterable[tuple[int, str]]) -> None:
        marks: dict[str, tuple[int, str]] = {}
        currencies: dict[str, tuple[int, str]] = {}
        for line, text in texts:
            digits, currency = parts_of(text)
            found = AMOUNT.fullmatch(digits)
            if found and found[4]:
                marks.setdefault(found[4], (line, text))
            if found and currency:
                currencies.setdefault(currency, (line, text))
        for which, there in (("decimal marks", marks), ("currencies", currencies)):
            if len(there) > 1:
                (line, one), (other_line, other) = list(there.values())[:2]
                raise Stop(f"the column {column} has two {which}: line {line} has {one!r} and line {other_line} "
                           f"{other!r}; select the rows of one of them")
        self.mark = next(iter(marks), None)

    def amount(self, text: str) -> Decimal:
        """The amount that a text says; a ValueError says what is wrong with it."""
        found = AMOUNT.fullmatch(parts_of(text)[0])
        if not found:
            raise ValueError(f"{cut_short(text)!r} isn't an amount" if text else "it has no amount")
        sign, whole, thousands, mark, decimals = found.groups()
        if thousands and thousands in (mark, self.mark):
            raise ValueError(f"in {cut_short(text)!r} {thousands} is a mark for thousands, and elsewhere for decimals")
        if sign:
            raise ValueError(f"{cut_short(text)!r} is below 0")
        return Decimal(f"{re.sub('[.,]', '', whole)}.{decimals or 0}")
