"""Prices are averaged over the histories, each by itself with its certificate, and sold by as they say."""
from __future__ import annotations

from fractions import Fraction
from pathlib import Path

from harness import PlaceTest, needs
from nrm import Stop
from nrm.network import Network, rows_of, text_of
from nrm.program import Program
from nrm.replies import Hindsight, answer_of, plan_of
from nrm.seasons.averaged_playing import NEW_PRICES, NOT_ASKED, periods_of, replies_by_prices
from nrm.seasons.averaged_prices import AVERAGED, Averaged, mean_of, to_come
from nrm.seasons.drawing import DrawnSeason, Settings
from nrm.seasons.playing import Player, ProgramTime
from seasons.clusters import LOG, SECONDS, SimulateTest, needs_dask

# two seats; in history 1 three dear requests come, in history 2 none, so the mean of both, one and a half, fits
ONE_LEG = b"""periods,2,2,2
leg,A,2,2,150
product,DEAR,200,A
product,CHEAP,90,A
refund,CHEAP,25
demand,DEAR,1,1,2
demand,CHEAP,2,1,0
"""


class Averages(PlaceTest):
    def setUp(self) -> None:
        super().setUp()
        self.network = Network.of(rows_of(ONE_LEG))

    def averaged(self) -> Averaged:
        return Averaged(self.network, self.program, str(self.folder))

    def test_the_mean_is_exact(self) -> None:
        third = [{"A": Fraction(1, 3), "B": Fraction(0)}, {"A": Fraction(1), "B": Fraction(5)}]
        self.assertEqual(mean_of(third), {"A": Fraction(2, 3), "B": Fraction(5, 2)})

    def test_what_is_to_come_of_a_history(self) -> None:
        it = to_come(self.network, 1, 2, {"A": 1})
        self.assertEqual([it.legs["A"].seats, it.legs["A"].authorised, it.legs["A"].thresholds], [2, 1, ()])
        self.assertEqual([one.demand for one in it.products.values()], [{1: (0, 2)}, {1: (0, 0)}])
        self.assertEqual((it.histories, it.periods, it.products["CHEAP"].refund), (1, 2, 25))

    def test_a_leg_that_is_scarce_in_some_histories_has_a_price(self) -> None:
        """By itself history 1 has a third dear request that two seats don't take, and history 2 a seat to spare."""
        averaged = self.averaged()
        self.assertEqual(averaged.of(1, {"A": 2}), {"A": Fraction(100)})
        self.assertEqual(averaged.opening, {1: {"A": Fraction(200)}, 2: {"A": Fraction(0)}})
        self.assertEqual(averaged.of(1, {"A": 2}, without=1), {"A": Fraction(0)})
        self.assertEqual(averaged.of(2, {"A": 1}), {"A": Fraction(100)}, "two dear requests for a seat, or none")
        path = self.file("one-leg.csv", ONE_LEG)
        self.assertEqual(self.program.told(plan_of, "plan", "bid", path).prices, {"A": Fraction(0)})

    def test_each_history_has_its_certificate(self) -> None:
        for number in (1, 2):
            path, certificate = self.averaged().certified(number)
            self.assertEqual(self.nrm("check", path, certificate), "optimal\n")
        words = " ".join(f"'{it}'" for it in self.program.words)
        wrong = self.file("wrong", f'case $1 in check) echo wrong value;; *) exec {words} "$@";; esac')
        with self.assertRaisesRegex(Stop, "isn't optimal"):
            Averaged(self.network, Program(("sh", wrong)), str(self.folder)).certified(1)

    def test_a_season_is_sold_by_the_prices_of_each_period(self) -> None:
        path, asked = self.file("one-leg.csv", ONE_LEG), []

        def prices_at(period: int, left: dict[str, int]) -> dict[str, Fraction]:
            asked.append((period, dict(left)))
            return {"A": Fraction(91 if period == 1 else 90)}
        lines = ["book CHEAP 1", "book DEAR 1", "reoptimise 2", "book CHEAP 1", "book DEAR 1", "hindsight"]
        self.assertEqual(periods_of(DrawnSeason(None, lines)), [lines[:2], lines[3:5]])
        season = DrawnSeason(None, lines)
        replies = replies_by_prices(self.network, season, self.program, path, prices_at, ProgramTime())
        self.assertEqual(replies[:-1], [NOT_ASKED, b"ok 1", NEW_PRICES, b"ok 2", b"no A"])
        last = answer_of(replies[-1])
        self.assertTrue(isinstance(last, Hindsight) and last.revenue == 290, last)
        self.assertEqual(asked, [(1, {"A": 2}), (2, {"A": 1})])

    def test_an_outcome_is_of_all_requests_and_its_bound_too(self) -> None:
        """Of three requests that fit two seats' prices one isn't asked for: it is refused, and the bound knows it."""
        settings = Settings(modes=("first", AVERAGED), show=1.0)
        player = Player(ONE_LEG, settings, self.program, str(self.folder))
        lines = ["book CHEAP 1", "book CHEAP 1", "reoptimise 2", "book DEAR 1", "hindsight"]
        season = DrawnSeason(None, lines, shows=[1, 1, 0, 1, 0])
        found = player.outcomes(season)
        first, averaged = found["first"], found[AVERAGED]
        self.assertEqual((first.revenue, averaged.revenue), (180, 200))
        self.assertEqual((first.bound, averaged.bound), (290, 290))
        self.assertEqual((first.refused, averaged.refused), ({"CHEAP": 0, "DEAR": 1}, {"CHEAP": 2, "DEAR": 0}))
        self.assertEqual((first.booked, averaged.booked, averaged.shown), ({"A": 2}, {"A": 1}, {"A": 1}))
        self.assertGreater(player.clock.spent, 0)

    def test_prices_of_the_plan_sell_as_bid_does(self) -> None:
        """One history's mean is itself: so where there is one, both ways sell each request alike."""
        network = Network.read(LOG)
        rows = to_come(network, 2, 1, {name: it.authorised for name, it in network.legs.items()}).rows()
        path = self.file("one.csv", text_of(rows))
        out = self.told("averaged", path, "--seasons", 30, "--demand", "poisson", *self.with_program)
        [line] = [it for it in out.splitlines() if it.startswith("  averaged less bid")]
        self.assertEqual(line.split()[3:], ["0.0", "0.0", "0.0", "0.0", "0.00", "%"])
        for row in out.partition("greatest\n")[2].splitlines()[:2]:
            self.assertEqual(len(set(row.split()[1:])), 1, row)

    def test_it_tells_writes_and_compares(self) -> None:
        out = self.told("averaged", LOG, "--out", "kept", "--seasons", 5, "--leave-out", *self.with_program)
        self.want_in(out, "\nkept/history-1.txt to history-3.txt: each certificate is optimal for the file beside it\n")
        self.want_in(out, "averaged less davn")
        first, second, *_ = out.splitlines()
        self.assertRegex(first, r"^(averaged|davn|bid) .*averaged.*, with these thresholds and demand drawn so\.$")
        self.assertEqual(second, "Averaged over 3 histories, the opening bid price is above the plan's on 0 of 2 legs, "
                         "and below it on 2.")
        self.assertIn("\nseed: 1\n", out)
        self.assertEqual(len(list((self.folder / "kept").glob("history-*.csv"))), 3)
        for words, status, says in ((["--cancel", "0.1"], 2, "--cancel"), (["--seasons", "1"], 2, "--seasons"),
                                    (["--leave-out", "--demand", "poisson"], 2, "--leave-out")):
            self.stopped("averaged", LOG, *words, *self.with_program, status=status, says=says)
        one = self.file("one.csv", "periods,1,1\nleg,A,1\nproduct,P,5,A\n")
        self.stopped("averaged", one, "--leave-out", *self.with_program, says="one history")


@needs_dask
class Beside(SimulateTest):
    """Averaged prices beside the modes, as simulate plays them."""

    @needs("matplotlib", "jinja2")
    def test_simulate_plays_what_averaged_plays(self) -> None:
        words = ["--seasons", 6, "--leave-out", "--seed", 3]
        out = self.simulated(LOG, *words, "--averaged", "--workers", 2, "--out", "beside", env=None)
        alone = self.told("averaged", LOG, *words, *self.with_program)
        for name in ("averaged less first", "averaged less bid", "averaged less davn"):
            of_both = [[line.split()[3:7] for line in text.splitlines() if line.startswith(f"  {name}")]
                       for text in (out, alone)]
            self.assertEqual((len(of_both[0]), of_both[0]), (1, of_both[1]), name)
        self.want_in(out, "Under averaged the prices were the mean of those of each history by itself")
        self.want_in(out, "Seasons whose revenue is above the bound: 0.")
        pictures = {it.stem for it in (self.folder / "beside").glob("*.svg")}
        self.assertEqual(pictures, {"shares", *(f"differences-{it}" for it in (
            "bid-first", "davn-first", "davn-bid", "averaged-first", "averaged-bid", "averaged-davn"))})
        self.assertEqual([line.split(",")[1] for line in self.rows()[1:5]], ["first", "bid", "davn", AVERAGED])

    def rows(self) -> list[str]:
        """The rows that the run has written."""
        return (self.folder / "beside" / "network-seasons.csv").read_text().splitlines()

    def test_it_goes_with_networks_and_departures_and_without_cancellations(self) -> None:
        more = self.file("more.csv", Path(LOG).read_text().replace("leg,ZRH-VIE,8,", "leg,ZRH-VIE,9,"))
        out = self.simulated(LOG, more, "--seasons", 4, "--averaged", "--modes", "bid", "--workers", 2, "--show", "0.9",
                             "--denied-cost", 5)
        self.want_in(out, "What one network earns more than another under averaged on the same draws")
        self.want_in(out, "more averaged less bid")
        self.stopped("simulate", LOG, "--seasons", 2, "--averaged", "--cancel", "0.1", status=2, timeout=SECONDS,
                     says="--cancel can't be used with --averaged")
