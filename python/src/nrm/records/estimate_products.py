"""What network files say of the products of a sale: their classes, the dear and the cheap, the parts that they are in,
and the demand that was reckoned with so far.
"""
from __future__ import annotations

from collections import defaultdict
from typing import Mapping, Sequence

from nrm import Stop, said
from nrm.network import Network, Product
from nrm.records.estimate_rates import Known
from nrm.records.sale import Sale
from nrm.records.timetable_parts import parts_of


def known_of(sale: Sale, names: Mapping[str, str], path: str | None, earlier: str | None, is_by_class: bool) -> Known:
    """What is known of the products of a sale by a network file with their fares and legs, and by an earlier one with
    demand, if there are such. Without the first all are of one class and one part."""
    everything = [range(len(sale.products))]
    before = before_of(sale, names, earlier) if earlier is not None else {}
    if path is None:
        return Known(everything, everything, before, is_by_class)
    network = Network.read(path)
    products = [network.products[names[it]] for it in sale.products]
    numbers = {it.name: j for j, it in enumerate(products)}
    found = parts_of(network.legs, {it.name: it.legs for it in products})
    parts = [[numbers[it] for it in part.products] for part in found if part.products]
    return Known(classes_of(products), parts, before, is_by_class)


def classes_of(products: Sequence[Product]) -> list[list[int]]:
    """The numbers of the dear products and of the cheap ones: those whose fare is above the middle of the fares of
    their journey, or where it has one fare, of all."""
    overall = sorted(it.fare for it in products)[len(products) // 2]
    by_journey: dict[tuple[str, ...], set[int]] = defaultdict(set)
    for it in products:
        by_journey[it.legs].add(it.fare)
    middle = {legs: (min(some) + max(some)) / 2 if len(some) > 1 else overall for legs, some in by_journey.items()}
    is_dear = [it.fare >= middle[it.legs] for it in products]
    return [some for some in ([j for j, it in enumerate(is_dear) if it == dear] for dear in (True, False)) if some]


def before_of(sale: Sale, names: Mapping[str, str], path: str) -> dict[int, list[float]]:
    """The mean demand of a network file, by the numbers of those products that it has."""
    network = Network.read(path)
    if network.periods != sale.periods:
        raise Stop(f"{said(path)} has {network.periods} periods, and --cuts makes {sale.periods}")
    means = network.mean_demand
    return {j: means[names[text]] for j, text in enumerate(sale.products) if names[text] in means}
