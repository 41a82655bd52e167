"""Names that fit into a network file, for texts that don't."""
from __future__ import annotations

import re
import unicodedata
from typing import Iterable, Mapping, Sequence

from nrm.limits import MOST_NAME_BYTES
from nrm.network import NAME


def words_in(text: str) -> list[str]:
    """The words of a text, in capitals and without accents: letters and digits alone."""
    plain = unicodedata.normalize("NFKD", text.replace("ß", "ss").replace("æ", "ae").replace("ø", "o")).upper()
    return re.findall("[A-Z0-9]+", "".join(it for it in plain if not unicodedata.combining(it))) or ["X"]


def joined(words: Sequence[str], size: int, between: str = "") -> str:
    """Words as one, of which the longest are shortened until it is no longer than a size, or each has one letter."""
    shorter = list(words)
    while len(between.join(shorter)) > size and max(map(len, shorter)) > 1:
        longest = max(shorter, key=len)
        shorter[shorter.index(longest)] = longest[:-1]
    return between.join(shorter)


def fitting(text: str) -> str:
    """A name for a text: in capitals, accents left out, a `-` for all else, and each word shorter until it fits."""
    name = joined(words_in(text), MOST_NAME_BYTES, "-")
    return name if len(name) <= MOST_NAME_BYTES else name.replace("-", "")[:MOST_NAME_BYTES]


def named(texts: Iterable[str], known: Mapping[str, str] | None = None) -> dict[str, str]:
    """A name for each of some texts: itself where it is one, else one that fits, and each a name of its own. Names that
    are known already, of these texts and of others, stay as they are."""
    every, names = list(texts), dict(known or {})
    names.update({it: it for it in every if it not in names and NAME.fullmatch(it) and it not in names.values()})
    for text in every:
        if text not in names:
            names[text] = free_name(fitting(text), set(names.values()))
    return names


def free_name(wanted: str, taken: set[str]) -> str:
    """A name that isn't taken: the one that is wanted, else that with a number behind it."""
    name, number = wanted, 1
    while name in taken:
        number += 1
        name = f"{wanted[:MOST_NAME_BYTES - 1 - len(str(number))].rstrip('-')}-{number}"
    return name
