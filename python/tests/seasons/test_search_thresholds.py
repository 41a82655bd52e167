"""Thresholds are searched for among those that rules propose: on all legs by one rule, then leg by leg."""
from __future__ import annotations

import json
from typing import Callable

from harness import PlaceTest
from nrm.network import Network, rows_of
from nrm.seasons.search_fields import Earned, Field, ProgressLine, Tries
from nrm.seasons.search_thresholds import ThresholdSearch, proposed, rows_of_thresholds
from seasons.clusters import LOG, SECONDS, needs_dask

LEGS = b"periods,1,1,2\nleg,A,10,11,50\nleg,B,20,20\nproduct,P,100,A\nproduct,Q,90,B\n"
RULES = {"the file": {"A": (50,), "B": ()}, "one": {"A": (60,), "B": (60,)},
         "two": {"A": (70, 60), "B": (70, 60)}}


def wanting(wanted: dict[str, tuple[int, ...]]) -> Callable[[str, range], list[Earned]]:
    """Plays seasons that earn a unit for each leg whose thresholds are those wanted, of B two."""
    def play(text: str, numbers: range) -> list[Earned]:
        legs = Network.of(rows_of(text.encode())).legs
        met = sum(len(name) * (1 + (name == "B")) for name, it in wanted.items() if legs[name].thresholds == it)
        return [Earned(met, 0)] * len(numbers)
    return play


class Searches(PlaceTest):
    def test_it_begins_with_the_best_rule_and_goes_on_leg_by_leg(self) -> None:
        network = Network.of(rows_of(LEGS))
        for wanted, rule in (({"A": (70, 60), "B": (60,)}, "one"), ({"A": (60,), "B": (70, 60)}, "two"),
                             ({"A": (60,), "B": ()}, "the file"), ({"A": (9,), "B": (9,)}, "the file")):
            field = Field(wanting(wanted), Tries(None, {}), range(3))
            search = ThresholdSearch(network, RULES, field, ProgressLine(lambda _: None))
            self.assertEqual(search.best_rule(), rule)
            found = search.from_rule(rule, 3)
            self.assertEqual(found, wanted if (9,) not in wanted.values() else RULES[rule])
            self.assertLessEqual(len(field.texts), 9, "three choices for each of two legs")

    def test_other_thresholds_leave_all_else_as_it_is(self) -> None:
        network = Network.of(rows_of(LEGS))
        self.assertEqual(rows_of_thresholds(network, RULES["the file"]), list(network.rows()))
        rows = rows_of_thresholds(network, RULES["two"])
        self.assertEqual(rows[1:3], [["leg", "A", 10, 11, 70, 60], ["leg", "B", 20, 20, 70, 60]])

    def test_each_rule_proposes(self) -> None:
        rules = dict(proposed(LOG, Network.read(LOG), 3, self.program))
        self.assertEqual(list(rules), ["the file", "fares 2", "gaps 2", "cost 2", "fares 3", "gaps 3", "cost 3"])
        self.assertEqual(rules["the file"], {"ZRH-VIE": (200, 90), "VIE-BUD": (150, 60)})
        self.assertEqual((rules["fares 3"]["ZRH-VIE"], rules["gaps 3"]["ZRH-VIE"]), ((430, 320), (215, 90)))


@needs_dask
class Command(PlaceTest):
    def test_it_tells_writes_and_goes_on(self) -> None:
        words = [LOG, 2, "--search", "--seasons", 12, "--check", 8, "--workers", 1, "--tries", "tries",
                 *self.with_program]
        out = self.told("thresholds", *words, "--out", "new.csv", timeout=SECONDS)
        tries = (self.folder / "tries").read_text().splitlines(keepends=True)
        self.assertEqual(json.loads(tries[0])["modes"], ["davn"])
        (self.folder / "tries").write_text("".join(tries[:4]))
        again = self.told("thresholds", *words, "--out", "new.csv", timeout=SECONDS)
        self.assertEqual(again, out)
        self.assertEqual((self.folder / "tries").read_text(), "".join(tries))
        new = Network.read(str(self.folder / "new.csv"))
        rows = [line.split() for line in out.partition("Thresholds\n")[2].partition("Earned")[0].splitlines()[2:4]]
        self.assertEqual([row[0] for row in rows], list(new.legs))
        for name, *_, found in rows:
            self.assertEqual(str(new.legs[name].thresholds[-1]), found)
        self.want_in(out, "Of the rules on all legs at once ")
