"""The auditor's command on plans of `davn`: nests worked by hand, those of cases, examples and made networks, and wrong
ones, of which each is told."""
from __future__ import annotations

import copy
import random
from dataclasses import dataclass
from fractions import Fraction
from typing import Iterator

import reference
import run
from harness import EXAMPLES, Done, WithinTest
from nrm import audit
from nrm.replies import Leg, answer_of, replies_of

MADE = range(1, 61)
PLANTED_IN_EACH, SEED = 6, 5
FEWEST_PLANS, FEWEST_LATER = 25, 100
SMALL, FEWEST_OTHERWISE = 400, 40

# Four histories of two periods. The plan below it is worked out in the remarks of `HAND_PLAN`.
HAND = """periods,4,2,2
leg,X,10,30,300,200,100
leg,Y,2,1,150
leg,W,9,9,500,300
leg,Q,5,5,400
leg,R,5,5
product,H,400,X
product,M,200,X
product,L,199,X
product,T,250,X,Y
product,S,99,X
product,N,40,Y,X
product,K,60,Y
product,V,600,W
product,U,100,Q
demand,H,1,1,0
demand,H,2,1,1
demand,H,3,0,3
demand,H,4,3,0
demand,M,2,20,1
demand,L,1,0,2
demand,T,3,1,1
demand,N,1,1,0
demand,K,2,2,0
demand,V,1,1,0
demand,V,2,1,1
demand,V,3,1,2
demand,V,4,2,2
demand,U,4,0,1
"""

# The demand in the four histories, both periods together: H 1, 2, 3, 3; M 0, 21, 0, 0; L 2, 0, 0, 0; T 0, 0, 2, 0;
# N 1, 0, 0, 0; K 0, 2, 0, 0; V 1, 2, 3, 4; U 0, 0, 0, 1; S none.
#
# Prices. X, W and Q have seats over, so they have the price 0. T and K have all their demand, 1/2 and 1/2, which fills
# the one seat of Y: any price from 40, the fare of N, to 60, that of K, is optimal, and 101/2 is one. The value: 9/4 of
# H at 400, 900; 21/4 of M at 200, 1050; 1/2 of L at 199, 99 1/2; 1/2 of T at 250, 125; 1/2 of K at 60, 30; 10/4 of V at
# 600, 1500; 1/4 of U at 100, 25. Together 3729 1/2.
#
# X, thresholds 300, 200 and 100. H brings 400: bucket 1. M brings 200, which isn't below 200: bucket 2. L brings 199,
# and T 250 less 101/2, which is 399/2: bucket 3. S brings 99, and N 40 less 101/2, which is -21/2: bucket 4.
#   Bucket 1: 9 seats at 400. The next fare is 200, and 4 times 200 is 800: two histories may have more, at 400 each. H
#   is asked for 1, 2, 3 and 3 times. 1 seat: three have more. 2 seats: two have. So 2.
#   Buckets 1 and 2: 9 seats at 400 and 21 at 200, 7800 over 30, which is 260. The next fare is of 2 seats at 199 and 2
#   at 399/2, 797/4, four times which is 797: three histories may have more, which is 780. They are asked for 1, 23, 3
#   and 3 times: 1 seat is enough, but as many are protected as for bucket 1: 2.
#   Buckets 1 to 3: the mean of bucket 4 is below 0, since S isn't asked for, so its fare is 0, and no history may have
#   more. They are asked for 3, 23, 5 and 3 times: 23, of 30 authorised seats.
# Y, threshold 150. T brings 250: bucket 1; N brings 40 and K 60: bucket 2, whose fare is 1 seat at 40 and 2 at 60, 160
#   over 3. 4 times that is 213 1/3, below 250, so no history may have more: T is asked for 2 times in the third. But
#   there is 1 authorised seat: 1.
# W, thresholds 500 and 300. V brings 600: bucket 1. Bucket 2 is empty, and its fare is 300: 1200 allow two histories
#   with more, 600 each: V is asked for 1, 2, 3 and 4 times, so 2. Bucket 3 is empty and the last: 0, so 4.
# Q, threshold 400. U brings 100: bucket 2. Nothing is asked for in bucket 1: 0. R has no thresholds and no products.
HAND_PLAN = """value 7459/2
product H 9/4
product M 21/4
product L 1/2
product T 1/2
product S 0/1
product N 0/1
product K 1/2
product V 5/2
product U 1/4
leg X 0/1
leg Y 101/2
leg W 0/1
leg Q 0/1
leg R 0/1
nest X H 400/1 1
nest X M 200/1 2
nest X L 199/1 3
nest X T 399/2 3
nest X S 99/1 4
nest X N -21/2 4
nest Y T 250/1 1
nest Y N 40/1 2
nest Y K 60/1 2
nest W V 600/1 1
nest Q U 100/1 2
protect X 2 2 23
protect Y 1
protect W 2 4
protect Q 0
protect R
"""
FARES = "8 each adjusted fare is the fare less the prices of the other legs: "
BUCKETS = "9 each bucket is that of the adjusted fare: "
PROTECTIONS = "10 each protection is that of the adjusted fares, the demand and the seats: "
HOLDS = "".join(f"{it}holds\n" for it in (FARES, BUCKETS, PROTECTIONS))
WRONG = {  # each by what a mistake would print: the line that is right, and the condition and what is told of it
    "nest X T 250/1 3": ("nest X T 399/2 3", FARES, "printed 250/1, should be 399/2"),  # no price is taken off
    "nest Y T 399/2 1": ("nest Y T 250/1 1", FARES, "printed 399/2, should be 250/1"),  # that of the leg itself is
    "nest X N 21/2 4": ("nest X N -21/2 4", FARES, "printed 21/2, should be -21/2"),
    "nest X M 200/1 3": ("nest X M 200/1 2", BUCKETS, "printed bucket 3, should be 2"),  # a fare at a threshold
    "nest X T 399/2 2": ("nest X T 399/2 3", BUCKETS, "printed bucket 2, should be 3"),
    "nest X N -21/2 0": ("nest X N -21/2 4", BUCKETS, "printed bucket 0, should be 4"),
    "protect X 3 2 23": ("protect X 2 2 23", PROTECTIONS, "printed 3 for buckets 1 to 1, should be 2"),  # not if equal
    "protect X 2 1 23": ("protect X 2 2 23", PROTECTIONS, "printed 1 for buckets 1 to 2, should be 2"),  # none kept up
    "protect X 2 3 23": ("protect X 2 2 23", PROTECTIONS, "printed 3 for buckets 1 to 2, should be 2"),  # mean of fares
    "protect X 2 2 30": ("protect X 2 2 23", PROTECTIONS, "printed 30 for buckets 1 to 3, should be 23"),  # below 0
    "protect X 2 2 10": ("protect X 2 2 23", PROTECTIONS, "printed 10 for buckets 1 to 3, should be 23"),  # seats in it
    "protect Y 2": ("protect Y 1", PROTECTIONS, "printed 2 for buckets 1 to 1, should be 1"),  # above the seats
    "protect Y 0": ("protect Y 1", PROTECTIONS, "printed 0 for buckets 1 to 1, should be 1"),
    "protect W 4 4": ("protect W 2 4", PROTECTIONS, "printed 4 for buckets 1 to 1, should be 2"),  # 0 for an empty one
    "protect W 2 2": ("protect W 2 4", PROTECTIONS, "printed 2 for buckets 1 to 2, should be 4"),  # 300 for the last
    "protect Q 1": ("protect Q 0", PROTECTIONS, "printed 1 for buckets 1 to 1, should be 0"),
}
UNREADABLE = ["nest X H 400 1", "nest X H 400/1", "nest X H 400/1 01", "nest X H 400/0 1", "nest X H 400/1 1 ",
              "nest X H +400/1 1", "nest X H 400.0/1 1", "nest X H 400/1 -1", "nest H X 400/1 1", "nest X K 60/1 4",
              "nest X  H 400/1 1", "protect X 2 2", "protect X 2 2 23 23", "protect X 2 2 -3", "protect X 2  2 23",
              "protect Z 2", "protect", "protect X 2 2 2/1", "Protect X 2 2 23", "protects X 2 2 23", "nest"]


@dataclass(frozen=True)
class Planted:
    """A plan with one mistake, the name of the line that it is at, and the last line that is wanted of its audit."""
    text: str
    line: str
    last: str


def planted(text: str) -> Iterator[Planted]:
    """A plan with one mistake in its nests at a time: each line left out, each line twice, and each number one more and
    one less."""
    lines = text.splitlines(keepends=True)
    for at, line in enumerate(lines):
        if line.startswith(("nest ", "protect ")):
            words, begin = line.split(), 3 if line.startswith("nest ") else 2
            name, twice = " ".join(words[:begin]), f"refused certificate line {at + 2}"
            yield Planted("".join([*lines[:at], *lines[at + 1:]]), name, f"refused certificate no {name}")
            yield Planted("".join([*lines[:at], line, *lines[at:]]), name, twice)
            for place in range(begin, len(words)):
                number, over, rest = words[place].partition("/")
                for other in (int(number) + 1, int(number) - 1):
                    changed = " ".join([*words[:place], f"{other}{over}{rest}", *words[place + 1:]]) + "\n"
                    last = f"refused certificate line {at + 1}" if other < 0 and not over else f"wrong {name}"
                    yield Planted("".join([*lines[:at], changed, *lines[at + 1:]]), name, last)


def later(network: reference.Network, left: dict[str, int], period: int) -> bytes:
    """The network file of a later plan: the seats left for the authorised ones, and no demand before its period."""
    changed = copy.deepcopy(network)
    changed.authorised = {name: left[name.decode()] for name in network.seats}
    changed.demand = {it: [0] * (period - 1) + demand[period - 1:] for it, demand in network.demand.items()}
    return reference.canonical(changed)


def small_network(draw: random.Random) -> reference.Network:
    """Fares at thresholds and a little beside them, and products that are asked for in each history, in one or in none:
    so that some buckets are empty, and some ask for fewer seats than those above them."""
    network = reference.Network()
    network.version, network.histories, network.periods = 2, draw.randint(1, 6), 1
    for leg in (b"A", b"B", b"C"):
        network.seats[leg], network.authorised[leg] = draw.randint(0, 30), draw.randint(0, 30)
        network.thresholds[leg] = sorted(draw.sample([30, 21, 20, 19, 6], draw.randint(0, 5)), reverse=True)
    for number in range(draw.randint(3, 9)):
        product, legs = b"P%d" % number, draw.sample(list(network.seats), draw.randint(1, 3))
        network.products[product] = draw.choice([40, 21, 20, 19, 5]), legs
        asked = draw.choice([0, 1, network.histories])
        for history in draw.sample(range(1, network.histories + 1), asked):
            network.demand[product, history] = [draw.randint(1, 30 if asked == 1 else 4)]
    return network


class Nests(WithinTest):
    def audited(self, network: str | bytes, plan: str, *words: str) -> Done:
        return self.ran("audit", self.file("network.csv", network), self.file("plan.txt", plan), *words)

    def optimal(self, what: object, network: str | bytes, plan: str, *words: str) -> None:
        """Sees that the nests of a plan are found right, and its certificate."""
        done = self.audited(network, plan, *words)
        self.assertEqual((done.status, done.out.count(HOLDS), done.out.splitlines()[-1]), (0, 1, "optimal"),
                         f"{what}: {done.out}")

    def wrong(self, network: str | bytes, it: Planted) -> None:
        """Sees that a mistake is found, at its line."""
        done = self.audited(network, it.text)
        self.assertEqual((done.out.splitlines()[-1], done.status), (it.last, 1 if it.last.startswith("wrong") else 3))
        if done.status == 1:
            self.want_in(done.out, f"    {it.line}: printed ")

    def test_nests_by_hand(self) -> None:
        self.optimal("by hand", HAND, HAND_PLAN)
        mixed = HAND_PLAN.splitlines(keepends=True)
        random.Random(SEED).shuffle(mixed)
        self.optimal("in another order", HAND, "".join(mixed).replace("\n", "\r\n").replace("399/2", "798/4"))

    def test_what_a_mistake_would_print_is_told(self) -> None:
        for printed, (right, condition, told) in WRONG.items():
            name = " ".join(right.split()[:3 if right.startswith("nest") else 2])
            self.assertIn(right + "\n", HAND_PLAN)
            done = self.audited(HAND, HAND_PLAN.replace(right + "\n", printed + "\n"))
            wanted = HOLDS.replace(f"{condition}holds\n", f"{condition}fails\n    {name}: {told}\n")
            self.want_in(done.out, wanted)
            self.assertEqual((done.status, done.out.splitlines()[-1]), (1, f"wrong {name}"))

    def test_each_difference_is_told(self) -> None:
        done = self.audited(HAND, HAND_PLAN.replace("nest X T 399/2 3", "nest X T 1/1 4").replace("protect W 2 4",
                                                                                                "protect W 3 5"))
        self.want_in(done.out, f"{FARES}fails\n    nest X T: printed 1/1, should be 399/2\n"
                               f"{BUCKETS}fails\n    nest X T: printed bucket 4, should be 3\n"
                               f"{PROTECTIONS}fails\n    protect W: printed 3 for buckets 1 to 1, should be 2\n"
                               "    protect W: printed 5 for buckets 1 to 2, should be 4\n")
        self.assertEqual((done.status, done.out.splitlines()[-1]), (1, "wrong nest X T"))

    def test_one_wrong_number_a_line_left_out_and_a_line_twice(self) -> None:
        found = list(planted(HAND_PLAN))
        self.assertEqual(len(found), 11 * (2 + 4) + 5 * 2 + 2 * (3 + 1 + 2 + 1))
        for it in found:
            self.wrong(HAND, it)

    def test_a_line_that_is_none_is_named(self) -> None:
        lines = HAND_PLAN.splitlines(keepends=True)
        for line in UNREADABLE:
            for at in (0, 15, len(lines)):
                done = self.audited(HAND, "".join([*lines[:at], f"{line}\n", *lines[at:]]))
                self.assertEqual((done.status, done.out), (3, f"refused certificate line {at + 1}\n"), line)
        large = f"nest X H {2**127}/1 1"
        done = self.audited(HAND, HAND_PLAN.replace("nest X H 400/1 1", large))
        self.assertEqual((done.status, done.out), (3, "refused certificate line 16 large\n"))

    def test_a_plan_may_be_longer_than_a_certificate(self) -> None:
        """One of as many legs and products as there may be, without demand, whose fractions aren't in lowest terms."""
        legs = [f"LEG-{it:08}" for it in range(64)]
        on = {f"PROD-{it:07}": [legs[(it + at) % 64] for at in range(4)] for it in range(256)}
        products = [f"product,{it},7,{','.join(used)}" for it, used in on.items()]
        network = "\n".join(["periods,1,1", *[f"leg,{it},9" for it in legs], *products])
        for size, last in ((20, "optimal"), (36, "optimal"), (120, "refused certificate long")):
            fare = f"7{'0' * size}/1{'0' * size}"
            plan = "".join(f"{line}\n" for line in [
                "value 0/1", *[f"product {it} 0/1" for it in on], *[f"leg {it} 0/1" for it in legs],
                *[f"nest {leg} {it} {fare} 1" for it, used in on.items() for leg in used],
                *[f"protect {it}" for it in legs]])
            self.assertGreater(len(plan), audit.LONGEST_CERTIFICATE)
            self.assertEqual(self.audited(network, plan).out.splitlines()[-1], last)

    def test_the_prices_in_the_file_are_those_that_count(self) -> None:
        """With 40 for Y, another optimal price, T brings X 210 and falls into bucket 2, and N brings X nothing."""
        done = self.audited(HAND, HAND_PLAN.replace("leg Y 101/2", "leg Y 40/1"))
        self.want_in(done.out, f"{FARES}fails\n    nest X T: printed 399/2, should be 210/1\n"
                               f"    nest X N: printed -21/2, should be 0/1\n"
                               f"{BUCKETS}fails\n    nest X T: printed bucket 3, should be 2\n")
        self.want_in(done.out, "7 the value is the cost: holds\n")

    def test_at_any_prices_of_small_networks_another_account_is_the_same(self) -> None:
        """That of `tests/reference.py`: fares, buckets and protections."""
        draw, kept_up, capped, unasked = random.Random(SEED), 0, 0, 0
        for _ in range(SMALL):
            network = small_network(draw)
            read = audit.Network(self.file("small.csv", reference.canonical(network)))
            prices = {leg: Fraction(draw.choice([0, 0, 0, 1, 40]), draw.choice([1, 2, 3])) for leg in network.seats}
            nests = reference.Nests(network, prices, 1)
            for leg, authorised in network.authorised.items():
                name = leg.decode()
                nest = audit.nest_of(read, name, {it.decode(): price for it, price in prices.items()}, authorised)
                on = [it for it, (_, legs) in network.products.items() if leg in legs]
                self.assertEqual(nest.fares, {it.decode(): nests.adjusted(leg, it) for it in on})
                self.assertEqual(nest.buckets, {it.decode(): nests.bucket(leg, it) for it in on})
                self.assertEqual([0, *nest.protections], nests.levels[leg])
                alone = [nests.computed(leg, it) for it in range(1, len(nest.protections) + 1)]
                kept_up += alone != nest.protections
                capped += authorised in alone
                unasked += 0 in alone
        self.assertGreater(min(capped, unasked), FEWEST_OTHERWISE)
        self.assertGreater(kept_up, 0, "a bucket asks for fewer seats than those above it")

    def test_the_plans_of_the_cases(self) -> None:
        count = 0
        for case in run.cases_of(""):
            if case.words[:2] == [b"plan", b"davn"] and case.status == 0 and case.stdout.startswith(b"value "):
                network = case.files.get(case.words[2].decode())
                if network is not None:
                    self.optimal(case.name, network, case.stdout.decode())
                    count += 1
        self.assertGreaterEqual(count, FEWEST_PLANS)

    def test_the_plans_of_the_examples_and_mistakes_in_them(self) -> None:
        draw = random.Random(SEED)
        for path in sorted(EXAMPLES.glob("*/network.csv")):
            plan = self.nrm("plan", "davn", path)
            self.optimal(path, path.read_bytes(), plan)
            for it in draw.sample(list(planted(plan)), PLANTED_IN_EACH):
                self.wrong(path.read_bytes(), it)

    def test_the_plans_of_made_networks_and_mistakes_in_them(self) -> None:
        draw = random.Random(SEED)
        for number in MADE:
            network = reference.canonical(reference.made_network(reference.Draws(number)))
            plan = self.nrm("plan", "davn", self.file("made.csv", network))
            self.optimal(number, network, plan)
            for it in draw.sample(list(planted(plan)), PLANTED_IN_EACH):
                self.wrong(network, it)

    def test_later_plans_of_made_networks(self) -> None:
        """A leg protects up to its authorised seats, and not up to those left: so the first network is wanted too."""
        count = without = 0
        for number in MADE:
            draws = reference.Draws(number)
            network = reference.made_network(draws)
            opened = self.file("opened.csv", reference.canonical(network))
            lines = list(reference.made_lines(network, draws))
            asked = [b"leg " + it for it in network.seats] + [b"plan"]
            for period in (2, 3, 4):
                given = b"\n".join([*lines[:2_500 * (period - 1)], *asked])
                reply, *legs, plan = list(replies_of(self.nrm("run", "davn", opened, given=given).encode()
                                                     .splitlines(keepends=True)))[-len(asked) - 1:]
                if reply.startswith(b"optimised "):
                    texts = [it for it in map(answer_of, legs) if isinstance(it, Leg)]
                    changed = later(network, {it.name: it.left for it in texts}, period)
                    self.optimal((number, period), changed, plan.decode(), "--opened", opened)
                    without += self.audited(changed, plan.decode()).status == 1
                    count += 1
        self.assertGreaterEqual(count, FEWEST_LATER)
        self.assertGreater(without, 0, "where the seats left are fewer than what is protected, that is told")

    def test_an_opened_network_must_be_the_same_but_for_seats_and_demand(self) -> None:
        other = HAND.replace("leg,X,10,30,", "leg,X,10,20,").replace("demand,U,4,0,1", "demand,U,4,3,1")
        self.want_in(self.audited(HAND, HAND_PLAN, "--opened", self.file("other.csv", other)).out,
                     f"{PROTECTIONS}fails\n    protect X: printed 23 for buckets 1 to 3, should be 20\n")
        for old, new in (("periods,4", "periods,5"), ("product,H,400", "product,H,401"), ("300,200,100", "300,200,99"),
                         ("T,250,X,Y", "T,250,Y,X"), ("leg,R,5,5\n", "")):
            other = self.file("other.csv", HAND.replace(old, new))
            done = self.audited(HAND, HAND_PLAN, "--opened", other)
            self.assertEqual((done.status, done.out), (3, "refused: OPENED is another network\n"), new)
        self.assertEqual(self.audited(HAND, HAND_PLAN, "--opened", "none.csv")[::2], ("refused no file\n", 3))
