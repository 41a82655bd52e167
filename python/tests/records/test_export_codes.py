"""Names that are made of parts: each fits, each is one of its own, and a part has the same code wherever it stands."""
from __future__ import annotations

import itertools
import random
import unittest

from nrm.network import NAME
from nrm.records.export_codes import Names, Parts, codes, of_all_words, of_numbers

STOPS = ["Paris Gare de Lyon", "Dijon-Ville", "Lyon Part-Dieu", "Marseille St-Charles", "Nice-Ville"]
NAMED = [  # trains, stops, classes, and the names of the first train's product between the first two stops, and the leg
    (["TGV 6607", "TGV 6613"], STOPS[:3], ["Seconde", "Première"], "6607-PADI-SE", "6607-PADI"),
    (["ICE 71", "ICE 73"], ["Frankfurt", "Mannheim"], ["Flex", "Spar"], "71-FRAMAN-FL", "71-FRAMAN"),
    (["LX 1", "LX 3"], ["ZRH", "GVA"], ["Y", "Q"], "LX1-ZRHGVA-Y", "LX1-ZRHGVA"),
    ([""], ["ZRH", "VIE"], ["Flex", "Light"], "ZRH-VIE-FLEX", "ZRH-VIE"),
    (["7501"], ["Paris", "Lyon"], ["2"], "PARIS-LYON-2", "PARIS-LYON"),
    ([""], ["A", "B"], [""], "A-B", "A-B")]


class OfParts(unittest.TestCase):
    def test_whole_where_there_is_room(self) -> None:
        for trains, stops, classes, product, leg in NAMED:
            every = [Parts(*it) for it in itertools.product(trains, stops, stops, ["", *classes]) if it[1] != it[2]]
            names = Names(every)
            found = [names.name(Parts(trains[0], stops[0], stops[1], it)) for it in (classes[0], "")]
            self.assertEqual(found, [product, leg])

    def test_each_is_a_name_of_its_own(self) -> None:
        """Whatever the texts, if there aren't too many to tell them apart."""
        draw = random.Random(3)

        def texts(least: int, most: int) -> set[str]:
            count = draw.randint(least, most)
            return {"".join(draw.choices("aB9_- é.東ß", k=draw.randint(1, 25))) for _ in range(count)}

        for _ in range(40):
            parts = itertools.product(*map(sorted, (texts(1, 5), stops := texts(3, 8), stops, texts(1, 4))))
            every = [Parts(*it) for it in parts if it[1] != it[2]]
            made = Names(every)
            names = [made.name(it) or "" for it in every]
            self.assertEqual((len(set(names)), all(map(NAME.fullmatch, names))), (len(every), True))

    def test_a_code_is_the_same_each_time(self) -> None:
        """Whichever order the texts come in."""
        for best in (of_numbers, of_all_words):
            for size in (1, 2, 3, 12):
                self.assertEqual(codes(STOPS, size, best), codes(reversed(STOPS), size, best))
        self.assertEqual(codes(["Lyon", "Lyon Part-Dieu", "Lille", "Lyss"], 2, of_all_words),
                         {"Lille": "LI", "Lyon": "LY", "Lyon Part-Dieu": "LP", "Lyss": "LS"})
        self.assertEqual(codes([str(it) for it in range(40)], 1, of_numbers), {}, "there are too many for one letter")
