"""Names that fit into a network file, of the parts that a product has: the train, the stops and the fare class.

Each part has one code wherever it stands, whole where there is room, else as long as there is.
"""
from __future__ import annotations

import itertools
from dataclasses import dataclass
from typing import Callable, Iterable, Iterator, Sequence

from nrm.limits import MOST_NAME_BYTES
from nrm.records.fitting_names import joined, words_in

SIZES = range(MOST_NAME_BYTES, 0, -1)
Best = Callable[[Sequence[str], int], str]  # the code that is liked best for some words, of at most so many letters


@dataclass(frozen=True)
class Parts:
    """What a name is made of: any of these may be empty."""
    train: str
    first: str
    last: str
    fare_class: str


def beginning(words: Sequence[str], size: int) -> str:
    """The beginning of the words."""
    return "".join(words)[:size]


def of_numbers(words: Sequence[str], size: int) -> str:
    """The words with digits, as a train's number."""
    return "".join(it for it in words if any(map(str.isdigit, it)))[:size]


def of_all_words(words: Sequence[str], size: int) -> str:
    """Something of each word, the longest ones shortened."""
    return joined(words, size)[:size]


def codes(texts: Iterable[str], size: int, best: Best) -> dict[str, str]:
    """A code of its own for each text, of at most so many letters and digits: the whole text if it is no longer, else
    the best, or its beginning with later letters, or with a number. No code at all if there are too many texts."""
    found: dict[str, str] = {}
    ordered = sorted(texts, key=lambda it: (len("".join(words_in(it))) > size, it))
    for text in ordered:
        taken = set(found.values())
        code = next((it for it in candidates(words_in(text), size, best) if it and it not in taken), None)
        if code is None:
            return {}
        found[text] = code
    return found


def candidates(words: Sequence[str], size: int, best: Best) -> Iterator[str]:
    """The codes that a text may get, the best first."""
    whole = "".join(words)
    yield from ([whole] if len(whole) <= size else [best(words, size), whole[:size]])
    for end in sorted({1, size - 1}, reverse=True):
        for letters in itertools.combinations(whole[end:], size - end):
            yield whole[:end] + "".join(letters)
    yield from (f"{whole[:size - len(str(it))]}{it}" for it in range(2, 10 ** size) if len(str(it)) <= size)


@dataclass(frozen=True)
class Form:
    """How long the code of each part may be, and whether there is a - between the stops."""
    train: int
    stop: int
    fare_class: int
    is_apart: bool

    def liking(self, number: int) -> tuple[int, ...]:
        """How much a form is liked: the train's number of so many digits first, then two letters of each stop and of
        the class, then three of a stop, then the rest."""
        return (min(self.train, number), min(self.stop, 2), min(self.fare_class, 2), min(self.stop, 3), self.train,
                int(self.is_apart), self.fare_class, self.stop)


class Names:
    """Names of parts, in the form that is liked best of those in which all fit, and differ where the parts do."""

    def __init__(self, every: Sequence[Parts]) -> None:
        trains = {it.train for it in every} - {""}
        stops = {it for some in every for it in (some.first, some.last)} - {""}
        classes = {it.fare_class for it in every} - {""}
        self.is_named_by_train = len(trains) > 1
        self.trains, self.stops, self.classes = (
            {size: codes(texts, size, best) for size in SIZES}
            for texts, best in ((trains, of_numbers), (stops, beginning), (classes, of_all_words)))
        self.form = self.liked_most(list(dict.fromkeys(every)))

    def liked_most(self, every: Sequence[Parts]) -> Form | None:
        """The form that is liked most of those that fit; None if none does."""
        sizes = [self.useful(it) for it in (self.trains, self.stops, self.classes)]
        forms = (Form(*some) for some in itertools.product(*sizes, (True, False)))
        number = max((len(of_numbers(words_in(it), MOST_NAME_BYTES)) for it in self.trains[MOST_NAME_BYTES]), default=0)
        liked = sorted(forms, key=lambda it: it.liking(number), reverse=True)
        return next((it for it in liked if self.fits(every, it)), None)

    def fits(self, every: Sequence[Parts], form: Form) -> bool:
        """Whether the names of some parts are no longer than they may be in a form, and all differ."""
        names = set[str]()
        for it in every:
            name = self.of(it, form)
            if len(name) > MOST_NAME_BYTES or name in names:
                return False
            names.add(name)
        return True

    @staticmethod
    def useful(by_size: dict[int, dict[str, str]]) -> list[int]:
        """The sizes in which all have a code, none larger than the longest code."""
        longest = max(map(len, by_size[MOST_NAME_BYTES].values()), default=1)
        return [it for it in SIZES if it <= longest and len(by_size[it]) == len(by_size[MOST_NAME_BYTES])]

    def of(self, parts: Parts, form: Form) -> str:
        """The name of parts in a form."""
        train = self.trains[form.train].get(parts.train, "") if self.is_named_by_train else ""
        stops = [self.stops[form.stop].get(it, "") for it in (parts.first, parts.last)]
        relation = ("-" if form.is_apart else "").join(filter(None, stops))
        return "-".join(filter(None, [train, relation, self.classes[form.fare_class].get(parts.fare_class, "")]))

    def name(self, parts: Parts) -> str | None:
        """The name of parts; None if there is no form in which all fit."""
        return self.of(parts, self.form) if self.form else None
