"""Every line of a certificate file that is refused, and how to mend it. The first that is told is the program's."""
from __future__ import annotations

import difflib
import re
from fractions import Fraction
from math import lcm
from typing import Collection, Iterator, Mapping, Sequence

from nrm.limits import GREATEST_NUMBER, MOST_CERTIFICATE_BYTES, SIZE_LIMIT
from nrm.network import Network
from nrm.records.mending import NO_TEXT, is_no_text, shown

FRACTION = re.compile(r"(0|[1-9][0-9]*)/([1-9][0-9]*)")
MOST_DIGITS = len(str(GREATEST_NUMBER))


def faults_of_certificate(data: bytes, network: Network) -> Iterator[tuple[str, str]]:
    """What the program says of each fault of a certificate file's bytes, and how to mend it."""
    if len(data) > MOST_CERTIFICATE_BYTES:
        yield "refused certificate long", f"it has more than {MOST_CERTIFICATE_BYTES} bytes; is it another kind of file?"
        return
    wanted = ["value", *[f"product {it}" for it in network.products], *[f"leg {it}" for it in network.legs]]
    given: dict[str, Fraction | None] = {}
    lines, tried = data.split(b"\n"), set()
    for number, line in enumerate(lines if lines[-1] else lines[:-1], 1):
        text = line.removesuffix(b"\r").decode("utf-8", "backslashreplace")
        what, _, last = text.rpartition(" ")
        found = FRACTION.fullmatch(last)
        if what not in wanted or what in given or not found:
            advice = how_to_mend_a_line(text, wanted, given)
            yield f"refused certificate line {number}", f"line {number}: {shown(text)}: {advice}"
            if is_no_text(text):
                return  # what is wrong with the file as a whole is told once
            tried.add(line_meant(text, wanted)[0])
        elif any(len(it) > MOST_DIGITS or int(it) > GREATEST_NUMBER for it in found.groups()):
            advice = f"no number may be above {GREATEST_NUMBER}"
            yield f"refused certificate line {number} large", f"line {number}: {shown(text)}: {advice}"
            given[what] = None
        else:
            given[what] = Fraction(*map(int, found.groups()))
    for what in wanted:
        if what not in given and what not in tried:
            advice = f"there is no line `{what}` with a fraction: add `{what} 0/1` if it is 0"
            yield f"refused certificate no {what}", advice
    whole = {what: number for what, number in given.items() if number is not None}
    if whole.keys() >= set(wanted) and is_too_fine(whole, network):
        yield "refused certificate too fine", "its fractions have no common denominator below 2^48: use simpler ones"


def line_meant(text: str, wanted: Collection[str]) -> tuple[str | None, str]:
    """What a line seems to be meant to be of, else None, and the rest of it."""
    kind, *words = re.split(r"[\s,;]+", text.strip("\ufeff \t,;"))
    names = 0 if kind.lower() == "value" else 1
    what = " ".join([kind.lower(), *map(str.upper, words[:names])])
    return what if what in wanted else None, " ".join(words[names:])


def how_to_mend_a_line(text: str, wanted: Sequence[str], given: Collection[str]) -> str:
    """What is said of a line that is refused."""
    if is_no_text(text):
        return NO_TEXT
    if not text.strip() or text.startswith("#"):
        return "a certificate can't have blank lines or comments: delete the line"
    if text.startswith(("nest ", "protect ")):
        return "it is of a plan under davn: `grep -v -e ^nest -e ^protect FILE > NEW` leaves the certificate"
    what, rest = line_meant(text, wanted)
    if what is None:
        words = text.rpartition(" ")[0]
        close = difflib.get_close_matches(words, wanted, 1) if words.startswith(("value", "product", "leg")) else []
        guess = f"; is it `{close[0]}`?" if close else ""
        return f"it must be `value`, `product NAME` or `leg NAME`, one blank and a fraction{guess}"
    if what in given:
        return "it was given above: delete one of the two"
    mark = ", without the byte order mark before it" if text.startswith("\ufeff") else ""
    if found := re.fullmatch(r"0*(\d+)(?:/0*([1-9]\d*))?", rest):
        return f"write `{what} {found[1]}/{found[2] or 1}`{mark}"
    return f"write `{what}` and a fraction{mark}, such as 3/2: a decimal must be written as the fraction that it stands for"


def is_too_fine(given: Mapping[str, Fraction], network: Network) -> bool:
    """Whether the numbers have no common denominator that the program takes."""
    seats = [network.histories * given[f"product {it}"] for it in network.products]
    prices = [network.histories * given["value"], *[given[f"leg {it}"] for it in network.legs]]
    for numbers in (seats, prices):
        common = lcm(*[it.denominator for it in numbers])
        if max(Fraction(common), *[it * common for it in numbers]) >= SIZE_LIMIT:
            return True
    return False
