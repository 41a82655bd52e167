"""What a desk is told of seats that it could have is what it then gets."""
from __future__ import annotations

import random
from collections import Counter

from nrm.desk import Cancelled, Desk, NoFare, NoLeg, Sold
from nrm.network import Network
from nrm.replies import MODES
from server.serves import ServeTest, journal_of

SEEDS = 5


def made_network(draw: random.Random) -> str:
    """A few legs, some with all seats that a leg may have, and products over one to three of them."""
    rows, legs = ["periods,2,2,2"], [f"L{at}" for at in range(4)]
    rows += [f"leg,{leg},{draw.randint(0, 60)},{draw.choice([0, 3, 10, 25, 60, 999])},300,150" for leg in legs]
    for at in range(7):
        used = draw.sample(legs, draw.choice([1, 1, 2, 3]))
        rows.append(f"product,P{at},{draw.randint(50, 600)},{','.join(used)}")
        rows += [f"demand,P{at},{history},{draw.randint(0, 9)},{draw.randint(0, 9)}" for history in (1, 2)
                 if draw.randrange(4)]
    return "\n".join(rows) + "\n"


def random_line(draw: random.Random, network: Network) -> str:
    """A line that changes something."""
    kind = draw.randrange(8)
    if kind < 5:
        return f"book {draw.choice(list(network.products))} {draw.randint(1, 9)}"
    return f"cancel {draw.randint(1, 12)}" if kind < 7 else f"reoptimise {draw.randint(1, 2)}"


class Available(ServeTest):
    def test_as_many_are_available_as_are_sold(self) -> None:
        """On random states in the three modes: a party of so many is sold, and of one more is not, for the reason that
        was told. Hindsight knows nothing of who asked."""
        files = {f"{mode}-{seed}": made_network(random.Random(seed)) for mode in MODES for seed in range(SEEDS)}
        journal = journal_of(self.folder / "journal", self.desks_program,
                             {name: (name.split("-")[0], file.encode()) for name, file in files.items()})
        seen: Counter[tuple[str, str]] = Counter()
        with self.served(journal, "--linger", "1") as serve:
            for name, file in files.items():
                draw, network = random.Random(name), Network.read(self.file("made.csv", file))
                with Desk(serve.path, "D1", network=name, seconds=60) as desk:
                    for _ in range(draw.randint(0, 25)):
                        desk.ask(random_line(draw, network))
                    for product in network.products:
                        self.see(desk, name, product, seen)
        for mode in MODES:
            self.assertEqual(all(seen[mode, it] for it in ("none", "some")), True,
                             f"parties of both kinds under {mode}: {seen}")
        self.assertEqual(any(seen[mode, "all"] for mode in MODES), True, "a leg with room for 999")

    def see(self, desk: Desk, name: str, product: str, seen: Counter[tuple[str, str]]) -> None:
        """Asks for a product, and books so many and one more; what was sold is given back."""
        before = desk.hindsight()
        found = desk.ask_for(product)
        self.assertEqual((desk.available(product), desk.hindsight()), (found.party, before), f"{name} {product}")
        if found.limit:
            self.assertEqual(desk.book(product, found.party + 1), found.limit, f"{name} {product}")
        if found.party:
            sold = desk.book(product, found.party)
            self.assertIsInstance(sold, Sold, f"{name} {product} {found.party}")
            self.assertIsInstance(desk.cancel(sold.number), Cancelled)
        self.assertIsInstance(found.limit, (NoLeg, NoFare, type(None)))
        seen[name.split("-")[0], "none" if not found.party else "all" if found.party == 999 else "some"] += 1
