"""Histories are played again without being known."""
from __future__ import annotations

from harness import EXAMPLES, PlaceTest
from made import SECOND
from nrm.network import rows_of, text_of


class Playing(PlaceTest):
    def test_replay_tells_each_history(self) -> None:
        out = self.told("replay", EXAMPLES / "log" / "network.csv", *self.with_program)
        self.assertEqual(out.splitlines()[-1].split(),
                         ["all", "7,760", "4,410", "56.8", "%", "5,490", "70.7", "%", "6,600", "85.1", "%"])
        self.assertEqual(out.splitlines()[0], "In 3 histories davn earns 6,600, 85.1 % of the bound; bid 5,490, "
                         "70.7 %; first 4,410, 56.8 %. davn is ahead of bid in 2 of 3.")
        one = self.file("one.csv", "periods,1,1\nleg,A,1\nproduct,P,5,A\n")
        self.stopped("replay", one, *self.with_program, says="two histories")
        rows = [row.fields for row in rows_of((EXAMPLES / "log" / "network.csv").read_bytes())]
        rows = [[*row, 2] if row[0] == "periods" else [*row[:2], 0, *row[2:]] if row[0] == "leg" else row
                for row in rows]
        again = self.told("replay", self.file("second.csv", text_of(rows)), *self.with_program)
        self.assertEqual(again.partition(" history ")[1:], out.partition(" history ")[1:])
        # In history 1 are asked for 3 seats of AC, 5 of AB and 7 of BC: AC has both seats of BC, and AB the other three
        # of its leg.
        told = self.told("replay", self.file("second.csv", SECOND), *self.with_program)
        self.assertEqual(told.partition(" history ")[2].splitlines()[1].split()[:2], ["1", "1,600"])
