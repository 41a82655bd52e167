"""The parts of a timetable: legs that products join, directly or through others, and what holds a part together."""
from __future__ import annotations

from dataclasses import dataclass
from typing import Iterable, Mapping, Sequence

from nrm.limits import MOST_LEGS, MOST_PRODUCTS


@dataclass(frozen=True)
class Part:
    """Legs that belong together, and the products on them, in their order."""
    legs: list[str]
    products: list[str]

    def is_too_large(self) -> bool:
        """Whether a network file doesn't take it."""
        return len(self.legs) > MOST_LEGS or len(self.products) > MOST_PRODUCTS


def parts_of(legs: Iterable[str], products: Mapping[str, Sequence[str]]) -> list[Part]:
    """The parts of a timetable, from the names of its legs and the legs of each product."""
    leader = {it: it for it in legs}

    def leader_of(leg: str) -> str:
        while leader[leg] != leg:
            leader[leg] = leg = leader[leader[leg]]
        return leg

    for first, *others in products.values():
        for leg in others:
            leader[leader_of(leg)] = leader_of(first)
    parts: dict[str, Part] = {}
    for leg in leader:
        parts.setdefault(leader_of(leg), Part([], [])).legs.append(leg)
    for product, (first, *_) in products.items():
        parts[leader_of(first)].products.append(product)
    return list(parts.values())


def holding(part: Part, legs_of: Mapping[str, Sequence[str]]) -> list[str]:
    """The products without which, one at a time, a part would fall apart."""
    on_leg: dict[str, list[str]] = {it: [] for it in part.legs}
    for product in part.products:
        for leg in legs_of[product]:
            on_leg[leg].append(product)

    def is_joined_by_another(product: str) -> bool:
        """Whether one other product alone joins all legs of a product: most are told so, and soon."""
        legs = {*legs_of[product]}
        return any(legs <= {*legs_of[it]} for it in on_leg[legs_of[product][0]] if it != product)

    return [it for it in part.products if len(legs_of[it]) > 1 and not is_joined_by_another(it)
            and len(parts_of(part.legs, {other: legs_of[other] for other in part.products if other != it})) > 1]
