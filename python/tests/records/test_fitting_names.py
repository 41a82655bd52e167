"""Names fit into a network file, and each is one of its own."""
from __future__ import annotations

import random

from harness import PlaceTest
from nrm.network import NAME
from nrm.records.fitting_names import fitting, named


class Names(PlaceTest):
    def test_names_fit_and_are_names_of_their_own(self) -> None:
        draw = random.Random(1)
        texts = ["", "ß", "-", "ABCDEFGHIJKL",
                 *["".join(draw.choices("aB9_- é.東", k=draw.randint(1, 30))) for _ in range(3000)]]
        names = named(texts)
        self.assertEqual((len(set(names.values())), all(map(NAME.fullmatch, names.values()))), (len(set(texts)), True))
        self.assertEqual([names[it] for it in texts if NAME.fullmatch(it)], [it for it in texts if NAME.fullmatch(it)])
        self.assertEqual([fitting(it) for it in ("LH454_27NOV", "zv q", "Zürich–Genève")],
                         ["LH454-27NOV", "ZV-Q", "ZURIC-GENEVE"])

    def test_names_that_are_known_stay(self) -> None:
        known = {"zv_q": "ZV-Q", "gone": "OLD"}
        self.assertEqual(named(["zv q", "zv_q"], known), {"zv_q": "ZV-Q", "gone": "OLD", "zv q": "ZV-Q-2"})
        self.assertEqual(known, {"zv_q": "ZV-Q", "gone": "OLD"})
