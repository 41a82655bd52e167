"""Streams and journals become what was asked for, sold or not, and what of them is left out is told."""
from __future__ import annotations

from harness import EXAMPLES, WithinTest
from nrm.limits import MOST_HISTORIES
from nrm.network import Network

NETWORK = "periods,1,2\nleg,L,9\nproduct,A,9,L\nproduct,B,5,L\ndemand,B,1,4,1\n"
STREAM = "book A 2\nbook B 9\ncancel 1\nreoptimise 2\nbook A 1\nreoptimise 9\nbook A 1\nhindsight\n"


class Streams(WithinTest):
    def setUp(self) -> None:
        super().setUp()
        self.network = self.file("n.csv", NETWORK)

    def test_what_was_refused_counts(self) -> None:
        """By the period of the last `reoptimise`; 9 seats of B were never there."""
        made = self.told("asked", self.network, self.file("one", STREAM), self.file("two", "book B 3\r\n"))
        self.assertEqual(made, "periods,2,2\nleg,L,9\nproduct,A,9,L\nproduct,B,5,L\n"
                               "demand,A,1,2,2\ndemand,B,1,9,0\ndemand,B,2,3,0\n")

    def test_what_was_read_and_left_out_is_told(self) -> None:
        stream = ("book A 2\nbook A 0\nbook NONE 2\nreoptimise 2\nreoptimise 1\nbook B 1\ncancel 7\nplan\nleg L\n\n"
                  "status\nbook OTHER 3")
        err = self.ran("asked", self.network, self.file("s", stream)).err
        path = self.folder / "s"
        self.assertEqual(err.splitlines(), [
            f"nrm-tools asked: {path}: requests 2, seats 3; cancellations ignored 1",
            f"nrm-tools asked: {path}: seats left out 5, of products that the network doesn't have: NONE, OTHER",
            f"nrm-tools asked: {path}: lines left out 2, which no session takes; the first is line 2",
            f"nrm-tools asked: {path}: lines `reoptimise` ignored 1, which begin no later period of the "
            "network; the first is line 5"])

    def test_lines_that_changed_nothing_are_not_counted_in_silence(self) -> None:
        """Those of an older text journal, which were sent again."""
        path = self.file("old", "book A 2\nbook A 2\nbook B 1\n")
        self.file("old.void", "2\n")
        self.stopped("asked", self.network, path, says=f"{path}.void numbers lines of {path} that changed nothing")

    def test_histories_are_added(self) -> None:
        """And the latest of all are taken, so that a line after each departure makes the network of the next."""
        path, one, two = self.network, self.file("one", "book A 1\n"), self.file("two", "book A 2\n")
        made = self.told("asked", path, one, two, "--add").splitlines()
        self.assertEqual((made[0], made[-3:]), ("periods,3,2", ["demand,A,2,1,0", "demand,A,3,2,0", "demand,B,1,4,1"]))
        made = self.told("asked", path, one, two, "--add", "--last", "2").splitlines()
        self.assertEqual((made[0], made[-2:]), ("periods,2,2", ["demand,A,1,1,0", "demand,A,2,2,0"]))
        for history in range(MOST_HISTORIES + 2):
            path = self.file(f"{history}.csv", self.told("asked", path, one, "--add", "--last", str(MOST_HISTORIES)))
        self.assertEqual(Network.read(path).histories, MOST_HISTORIES)

    def test_what_is_refused(self) -> None:
        one = self.file("one", "book A 1\n")
        for words, wanted in (
                ([self.file("plan", "plan\n")], "plan asks for no product of"), (["none"], "none: No such file"),
                ([one] * 33, "these are 33 histories, and a network file takes 32: name fewer"),
                ([one, "--last", "33"], "--last 33: a network file takes 1 to 32 histories"),
                ([self.file("many", "book B 500\n" * 2)],
                 "B was asked for 1000 seats in history 1, and a row of demand takes 999")):
            self.want_in(self.stopped("asked", self.network, *words), wanted)

    def test_goes_on_to_a_session(self) -> None:
        """From the stream of an example, to a network that keeps its version and that the program takes."""
        season = EXAMPLES / "season"
        made = self.told("asked", season / "network.csv", season / "commands.txt")
        self.assertEqual(self.nrm("print", self.file("next.csv", made)), made)
        network = Network.read(str(self.folder / "next.csv"))
        lines = [it.split() for it in (season / "commands.txt").read_text().splitlines()]
        asked = {name: sum(int(it[2]) for it in lines if it[:2] == ["book", name]) for name in network.products}
        self.assertEqual({it.name: it.demand_in_all() for it in network.products.values()}, asked)
