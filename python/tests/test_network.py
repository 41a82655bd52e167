"""Network files are read and written alike in both versions, and told where they are none."""
from __future__ import annotations

import dataclasses

from harness import EXAMPLES, PlaceTest
from made import SECOND
from nrm import audit
from nrm.network import Leg, Network, text_of

NO_NETWORKS = ["leg,AB,3\nperiods,1,1\nproduct,P,5,AB\n", "periods,1,1,3\nleg,AB,3,3\nproduct,P,5,AB\n",
               "periods,1,1,2\nleg,AB,3\nproduct,P,5,AB\n", "periods,1,1,\nleg,AB,3\nproduct,P,5,AB\n",
               "periods,1,1\nleg,AB,3\nproduct,P,5,AB\nrefund,P,50\n",
               "periods,1,1,2\nleg,AB,3,3\nproduct,P,5,AB\nrefund,Q,50\n",
               "periods,1,1,2\nleg,AB,3,3\nproduct,P,5,AB\nrefund,P\n",
               "periods,1,1,2\nleg,AB,3,3\nproduct,P,5,AB\nrefund,P,5,5\n",
               "periods,1,1,2\nleg,AB,3,3\nproduct,P,5,AB\nrefund,P,half\n",
               "periods,1,1,2\nperiods,1,1,2\nleg,AB,3,3\nproduct,P,5,AB\n"]


class Networks(PlaceTest):
    def paths(self) -> list[str]:
        return [*map(str, EXAMPLES.glob("*/network.csv")), self.file("second.csv", SECOND)]

    def test_both_versions_are_read_alike(self) -> None:
        for path in self.paths():
            printed = self.file("printed.csv", self.nrm("print", path))
            self.assertEqual(dataclasses.replace(Network.read(path), version=2), Network.read(printed), path)

    def test_the_auditor_who_reads_for_himself_reads_both_alike(self) -> None:
        for path in self.paths():
            printed = self.file("printed.csv", self.nrm("print", path))
            self.assertEqual({**vars(audit.Network(path)), "version": 2}, vars(audit.Network(printed)), path)
        network = audit.Network(self.file("second.csv", SECOND))
        self.assertEqual((network.version, network.histories, network.periods), (2, 2, 2))
        self.assertEqual((network.seats, network.authorised),
                         ({"AB": 3, "BC": 9, "CD": 4}, {"AB": 5, "BC": 2, "CD": 4}))
        self.assertEqual(network.thresholds, {"AB": [300, 90], "BC": [], "CD": [80]})
        self.assertEqual(network.refund, {"AC": 0, "AB": 33, "BC": 100, "CD": 100})

    def test_each_field_is_read(self) -> None:
        network = Network.read(self.file("second.csv", SECOND))
        self.assertEqual((network.version, network.histories, network.periods), (2, 2, 2))
        self.assertEqual(list(network.legs.values()),
                         [Leg("AB", 3, 5, (300, 90)), Leg("BC", 9, 2), Leg("CD", 4, 4, (80,))])
        self.assertEqual({it.name: it.refund for it in network.products.values()},
                         {"AC": 0, "AB": 33, "BC": 100, "CD": 100})
        self.assertEqual(network.products["AC"].legs, ("AB", "BC"))
        self.assertEqual(network.products["AB"].demand, {1: (5, 0), 2: (4, 3)})
        self.assertEqual((network.products["AB"].demand_in_all(), network.products["AB"].demand_in(2)), (12, 7))
        self.assertEqual(network.mean_demand["AB"], [4.5, 1.5])
        self.assertEqual(network.legs["AB"].seats_in_words(), "3 seats, 5 authorised")
        first = Network.read(self.file("first.csv", "periods,1,1\nleg,AB,3,300\nproduct,P,5,AB\n"))
        self.assertEqual((first.version, first.legs, first.products["P"].refund),
                         (1, {"AB": Leg("AB", 3, 3, (300,))}, 100))
        self.assertEqual(first.legs["AB"].seats_in_words(), "3 seats")

    def test_what_is_written_is_the_same_network(self) -> None:
        path = self.file("second.csv", SECOND)
        again = self.file("again.csv", text_of(Network.read(path).rows()))
        self.assertEqual(self.nrm("print", again), self.nrm("print", path))

    def test_a_history_is_taken_out(self) -> None:
        left = Network.read(self.file("second.csv", SECOND)).without(1)
        self.assertEqual((left.histories, left.products["AB"].demand, left.products["AC"].demand), (1, {1: (4, 3)}, {}))

    def test_a_file_that_is_refused_is_told_with_what_explains_it(self) -> None:
        for text in NO_NETWORKS:
            path = self.file("no.csv", text)
            self.stopped("lp", path, says=f"{path} is refused: `nrm-tools explain {path}` says which rows")
            told = self.ran("explain", path)
            self.assertEqual((told.status, told.out.partition("\n")[0] + "\n"),
                             (3, self.nrm("print", path, status=3)), repr(text))
