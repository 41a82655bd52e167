"""How to mend a field or a row of a network file, in words, from what stands in it and what is wanted."""
from __future__ import annotations

import difflib
import re
from typing import Sequence

from nrm.network import Row
from nrm.records.fitting_names import fitting

SHAPES = {
    "periods": "periods,HISTORIES,PERIODS", "leg": "leg,NAME,SEATS and up to 9 thresholds",
    "product": "product,NAME,FARE and 1 to 4 legs", "refund": "refund,PRODUCT,PERCENTAGE",
    "demand": "demand,PRODUCT,HISTORY and a number for each period"}
OF_VERSION_2 = {**SHAPES, "periods": "periods,HISTORIES,PERIODS,2",
                "leg": "leg,NAME,SEATS,AUTHORISED and up to 9 thresholds"}
MOST_TEXT = 60  # that is shown of a field
NO_TEXT = "it is UTF-16, or isn't text: save it as UTF-8, or run `iconv -f UTF-16 -t UTF-8 FILE > NEW`"
WITHOUT_PADDING = r"sed 's/,*\r*$//' FILE > NEW"
NOTHING_THERE = f"is missing; if the row ends in commas, `{WITHOUT_PADDING}` removes them"


def shown(text: str) -> str:
    """A field as it is told; what can't be seen in it is written out."""
    text = text if len(text) <= MOST_TEXT else text[:MOST_TEXT] + ".."
    return repr(text) if text != text.strip() or not text.isprintable() or not text else text


def kind_meant(text: str) -> str | None:
    """The kind of row that a first field says, or seems to be meant to say; else None."""
    text = text.strip().lower()
    close = [text] if text in SHAPES else difflib.get_close_matches(text, SHAPES, 1)
    return close[0] if close else None


def is_refund(row: Row) -> bool:
    """Whether a row is meant as one of a refund, in small letters or not."""
    return row.fields[0].strip().lower() == "refund"


def is_no_text(text: str) -> bool:
    """Whether a line or a field shows that a file is UTF-16 or no text."""
    return "\0" in text or text.startswith(("\\xff\\xfe", "\\xfe\\xff"))


def is_no_csv(text: str) -> bool:
    """Whether a first field shows that the whole file is something else than rows with commas in UTF-8."""
    return is_no_text(text) or text.startswith("PK\x03") or re.match(r"periods *[;\t|]", text) is not None


def how_to_mend_a_kind(fields: Sequence[str], is_above_all: bool, version: int) -> str:
    """What is said of a row of no kind; whether it is above all that have one shows a heading row."""
    text, kind = fields[0], kind_meant(fields[0])
    if text.startswith("PK\x03"):
        return "it is a spreadsheet's own file (.xlsx, .ods): save it as CSV, with commas and in UTF-8"
    if is_no_text(text):
        return NO_TEXT
    if re.match(rf"({'|'.join(SHAPES)}) *[;\t|]", text):
        return ("the fields are separated by another character: save it with commas, or run `tr ';' ',' < FILE > NEW`, "
                r"with '\t' for tabs")
    if "\ufeff" in text:
        return "there is a byte order mark that isn't at the start of the file, or twice: delete it"
    if not any(fields):
        return f"the row is empty: delete it, or run `{WITHOUT_PADDING}`, since a blank line isn't a row"
    if kind == text.strip().lower():
        return f"write {kind}, in lower case and without blanks"
    if text.startswith("#"):
        return "a network file can't have comments: delete the line"
    if is_above_all and not kind:
        return "a network file can't have a row of headings: delete it; the first row is " + SHAPES["periods"]
    kinds = "periods, leg, product, refund and demand" if version == 2 else "periods, leg, product and demand"
    return f"it must be one of {kinds}{f': write {kind}' if kind else ''}"


def how_to_mend_a_name(text: str) -> str:
    """What is said of a name that has not the form of one."""
    if not text:
        return f"a name {NOTHING_THERE}"
    return f"a name has 1 to 12 of A-Z, 0-9 and -: write {fitting(text)}, here and wherever it is named"


def how_to_mend_a_number(text: str, kind: str) -> str:
    """What is said of a number in a row of some kind that isn't a whole one in digits."""
    digits = text.strip()
    if not digits:
        return f"a number {NOTHING_THERE}"
    if re.fullmatch(r"[0-9]+", digits):
        return f"write {shown(digits.lstrip('0') or '0')}, without blanks and without a 0 in front"
    if re.fullmatch(r"[0-9]{1,3}([,.' \u00a0\u2019\u202f][0-9]{3})+", digits):
        return f"write digits alone: {shown(re.sub('[^0-9]', '', digits))}, if the mark is for thousands"
    if re.fullmatch(r"[0-9]+[.,][0-9]*", digits):
        what = "a percentage" if kind == "refund" else "fares in whole currency units"
        return f"write a whole number, {what}: round it"
    found = re.fullmatch(r"[^0-9]*([0-9]+)[^0-9]*", digits)
    if found and not digits.startswith("-"):
        return f"write digits alone: {shown(found[1].lstrip('0') or '0')}"
    return "write a whole number in digits alone, without a sign"


def how_to_mend_a_range(kind: str, at: int, least: int, most: int, version: int) -> str:
    """What is said of a number beyond its limits."""
    limits = f"it must be {least} to {most}"
    if kind == "leg" and at == 2:
        return f"{limits}; more seats are sold as two legs: docs/network-file.md, 'Why the limits'"
    if kind == "leg" and at == 3 and version == 2:
        return f"{limits}; is it a threshold? In version 2 the authorised seats stand before these"
    if kind == "periods" and at == 3:
        return "it must be 2, or be left out for version 1"
    if kind == "periods":
        return f"{limits}: take {'the latest histories' if at == 1 else 'fewer cuts'}"
    return limits
