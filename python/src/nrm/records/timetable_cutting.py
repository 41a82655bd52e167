"""A timetable cut into the files of a folder where no product joins its legs, and what is told of what is too large."""
from __future__ import annotations

import csv
import glob
import os
from typing import Iterator, Sequence

from nrm import Stop, bytes_in, make_folder, said
from nrm.limits import MOST_LEGS, MOST_LEGS_OF_A_PRODUCT, MOST_PRODUCTS
from nrm.network import Network, Product, text_of
from nrm.records.timetable_leaving import Proposal, proposal, worth
from nrm.records.timetable_parts import Part, holding, parts_of
from nrm.writing_files import Output

MOST_TOLD = 10  # products that hold a part together, or that are proposed
LEFT_OUT = "left-out.csv"


def names_in(path: str) -> list[str]:
    """The products that a list names in the first field of its rows, but for its head."""
    rows = csv.reader(bytes_in(path).decode("ascii", "replace").splitlines())
    return [row[0] for row in rows if row and row[0] != "product"]


class Cut:
    """A timetable as it is cut into the files of a folder, and what is told of it."""

    def __init__(self, network: Network, folder: str, output: Output, without: Sequence[str] = ()) -> None:
        self.network, self.folder, self.output, self.without = network, folder, output, without
        unknown = [it for it in without if it not in network.products]
        if unknown:
            raise Stop(f"there is no product {unknown[0]} to leave out")
        self.legs_of = {it.name: it.legs for it in network.products.values() if it.name not in set(without)}
        self.in_all = sum(map(worth, network.products.values()))
        self.written: list[str] = []
        self.proposed: list[Product] = []
        self.in_files = 0  # products
        self.too_large_parts = 0
        self.long = [it for it, legs in self.legs_of.items() if len(legs) > MOST_LEGS_OF_A_PRODUCT]

    @property
    def is_whole(self) -> bool:
        """Whether files that the program takes have all that isn't left out."""
        return not self.too_large_parts and not self.long

    def write(self) -> Iterator[str]:
        """Makes the files of the parts, and gives a line for each."""
        make_folder(self.folder)
        yield from self.too_long()
        places = [["product", "file"], *[[it, ""] for it in self.without]]
        for part in parts_of(self.network.legs, self.legs_of):
            if part.is_too_large():
                self.too_large_parts += 1
                yield from self.too_large(part)
            elif part.products:
                name = self.write_part(part)
                places += [[it, name] for it in part.products]
                yield (f"{said(self.written[-1])}: legs {len(part.legs)}, the first {part.legs[0]}; "
                       f"products {len(part.products)}")
            else:
                yield f"the leg {part.legs[0]} has no product, and is in no file"
        self.output.add(os.path.join(self.folder, "parts.csv"), text_of(places))
        if self.without:
            left_out = [self.network.products[it] for it in self.without]
            yield f"left out: products {len(left_out)}, {self.share(left_out)} of what was asked for at its fare"
        yield from self.propose()
        yield from self.of_earlier_runs()

    def verdict(self, path: str) -> str:
        """What is said first of the timetable at a path, once its parts are written."""
        return f"{'; '.join(self.said(path))}."

    def said(self, path: str) -> Iterator[str]:
        """How many products files have, and what of the others and of those that no file takes."""
        every, files = len(self.network.products), len(self.written)
        share = "all" if self.in_files == every else f"{self.in_files:,} of"
        yield (f"{files:,} {'file has' if files == 1 else 'files have'} {share} {every:,} products of {said(path)}"
               if files else f"No file was written of {said(path)}")
        if self.without:
            left_out = self.share([self.network.products[it] for it in self.without])
            yield f"left out: {len(self.without):,}, {left_out} of what was asked for at its fare"
        if self.too_large_parts:
            parts = "1 part is" if self.too_large_parts == 1 else f"{self.too_large_parts:,} parts are"
            yield (f"{parts} too large, and would fit into files without {len(self.proposed):,} of the products, "
                   f"{self.share(self.proposed)} of what was asked for at its fare")
        if self.long:
            yield f"`nrm` refuses those over more than {MOST_LEGS_OF_A_PRODUCT} legs, {len(self.long):,} in all"

    def too_long(self) -> Iterator[str]:
        """What is told of journeys over more legs than a product of a file may have."""
        if self.long:
            more = f" and {len(self.long) - MOST_TOLD} more" if len(self.long) > MOST_TOLD else ""
            yield (f"products over more than {MOST_LEGS_OF_A_PRODUCT} legs, which no file takes: "
                   f"{', '.join(self.long[:MOST_TOLD])}{more}; docs/network-file.md, 'Why the limits', describes ways "
                   f"out")

    def share(self, products: Sequence[Product]) -> str:
        """The share of some products in what was asked for in all histories at its fare."""
        return f"{100 * sum(map(worth, products)) / (self.in_all or 1):.2f} %"

    def with_share(self, product: Product) -> str:
        """A product with its share."""
        return f"{product.name} {self.share([product])}"

    def write_part(self, part: Part) -> str:
        """Writes the file of a part, and gives its name."""
        name = f"part-{len(self.written) + 1}.csv"
        self.written.append(os.path.join(self.folder, name))
        self.in_files += len(part.products)
        self.output.add(self.written[-1], text_of(self.network.rows(part.legs, part.products)))
        return name

    def too_large(self, part: Part) -> Iterator[str]:
        """What is told of a part that no file takes."""
        yield (f"too large: {len(part.legs)} legs and {len(part.products)} products, "
               f"and a file takes {MOST_LEGS} and {MOST_PRODUCTS}; it isn't written")
        yield f"    its legs: {' '.join(part.legs)}"
        single = sorted((self.network.products[it] for it in holding(part, self.legs_of)), key=worth)
        if single:
            yield ("    it would fall apart without any one of these products, the cheapest first: "
                   f"{', '.join(map(self.with_share, single[:MOST_TOLD]))}{more_than(single)}")
        found = proposal(part, self.network.products)
        self.proposed += found.left_out
        yield from self.told_of(found)

    def told_of(self, found: Proposal) -> Iterator[str]:
        """What is told of a proposal."""
        sizes = [len(it.legs) for it in found.parts if it.products]
        yield (f"    proposed: without {len(found.left_out)} of its products, {self.share(found.left_out)} of what was "
               f"asked for at its fare, it is {len(sizes)} files of {sizes[0]}"
               f"{''.join(f', {it}' for it in sizes[1:-1])}{f' and {sizes[-1]}' if len(sizes) > 1 else ''} legs")
        yield (f"    these are, the cheapest first: {', '.join(map(self.with_share, found.left_out[:MOST_TOLD]))}"
               f"{more_than(found.left_out)}")

    def propose(self) -> Iterator[str]:
        """Writes the list of what is proposed to be left out, and tells how it is used."""
        path = os.path.join(self.folder, LEFT_OUT)
        if not self.proposed:
            return
        histories = self.network.histories
        rows = [[it.name, " ".join(it.legs), f"{worth(it) / histories:.2f}", self.share([it])[:-2]]
                for it in sorted(self.proposed, key=worth)]
        self.output.add(path, text_of([["product", "legs", "a season", "share %"], *rows]))
        yield f"{said(path)} has the products that are proposed; `--leave-out {said(path)}` leaves them out and writes the rest"

    def of_earlier_runs(self) -> Iterator[str]:
        """Which parts in the folder are of another timetable."""
        there = glob.glob(os.path.join(glob.escape(self.folder), "part-*.csv"))
        for path in sorted({*there} - {*self.written}):
            yield f"{said(path)} isn't of this timetable; it was there before"

def more_than(products: Sequence[Product]) -> str:
    """How many products there are beside those that are told."""
    return f" and {len(products) - MOST_TOLD} more" if len(products) > MOST_TOLD else ""
