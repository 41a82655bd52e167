#!/usr/bin/env python3
"""Accounts: what `nrm_why` writes of a line, by hand in each mode, and beside the second account.

    tests/why.py [PATTERN] [--why WORD...] [--program WORD...] [--lines N]

PATTERN picks the tests with it in their names. The program that accounts is that of --why, else the words of NRM_WHY,
else crates/nrm_why/out/nrm_why, which isn't built here. The accounts of 10,000 lines of made sessions, or of N, must be
those of `tests/reference.py`; and of each request among them that isn't for an unknown name the largest party is asked
for by `nrm run`, which must sell it, and then one seat more, which must be answered as the account says. With no
--program `nrm` is the script at the top. What fails is told; the last line is `N passed, M failed`.
"""
import concurrent.futures
import os
import random
import re
import subprocess
import sys

sys.dont_write_bytecode = True
import checks
import reference
from checks import TOP, Wrong, want

BUILT = os.path.join(TOP, "crates", "nrm_why", "out", "nrm_why")
MODES = ["first", "bid", "davn"]
LINES_OF_A_SESSION = 50
USAGE = "usage: nrm_why MODE FILE NUMBER\n"
BID_PRICES, HALVES, CERTIFICATE, TWO_LEGS = (
    os.path.join(TOP, "examples", it, "network.csv") for it in ("bid-prices", "halves", "certificate", "two-legs"))
REFUNDS = ("periods,1,1,2\nleg,AB,9,5\nleg,BC,9,2\nproduct,THRU,333,AB,BC\nproduct,LOC,540,AB\nrefund,LOC,25\n"
           "refund,THRU,50\n")
# for bucket 1 alone 8 seats are enough, and for buckets 1 and 2 together no more, since one history alone has MID
SAME_LEVEL = """periods,4,1
leg,AB,10,300,100
product,HIGH,400,AB
product,MID,110,AB
product,LOW,90,AB
demand,HIGH,1,8
demand,HIGH,2,8
demand,HIGH,3,8
demand,HIGH,4,8
demand,MID,1,40
""" + "".join(f"demand,LOW,{it},1\n" for it in range(1, 5))
test = checks.Tests()


class Place:
    """A folder with files, and the programs that are run."""

    def __init__(self, folder, why, program):
        self.folder, self.why, self.program = folder, why, program

    def file(self, name, text):
        path = os.path.join(self.folder, name)
        with open(path, "w") as file:
            file.write(text)
        return path

    def ran(self, *words, given=b"", **more):
        """What the program that accounts writes, and its status; on standard error it must write nothing."""
        more = {"input": given, "stdout": subprocess.PIPE, **more}
        done = subprocess.run([*self.why, *words], stderr=subprocess.PIPE, cwd=self.folder, **more)
        want(done.stderr, b"", f"standard error of {words}")
        return (done.stdout or b"").decode("latin-1"), done.returncode

    def account(self, mode, network, lines, number):
        text, ended = self.ran(mode, network, str(number), given="".join(f"{it}\n" for it in lines).encode())
        want(ended, 0, f"the status of line {number} of {lines}, which wrote {text!r}")
        return text


def want_account(place, mode, network, lines, number, wanted):
    want(place.account(mode, network, lines, number), "".join(f"{it}\n" for it in wanted), f"{mode} {lines} {number}")


# By hand


@test
def first_come_first_served(place):
    """Sold, short on the second leg, short on the first, and the largest party each time."""
    lines = ["book THRU 2", "book THRU 1", "book LOC 1", "book LOC 1"]
    want_account(place, "first", TWO_LEGS, lines, 1, [
        "line 1 book THRU 2", "plan first opening period 1", "product THRU fare 500 refund 100",
        "leg AB authorised 3 sold 0 left 3 protected 0 needs 2 covers",
        "leg BC authorised 2 sold 0 left 2 protected 0 needs 2 covers",
        "largest 2 then no BC", "answer ok 1"])
    want_account(place, "first", TWO_LEGS, lines, 2, [
        "line 2 book THRU 1", "plan first opening period 1", "product THRU fare 500 refund 100",
        "leg AB authorised 3 sold 2 left 1 protected 0 needs 1 covers",
        "leg BC authorised 2 sold 2 left 0 protected 0 needs 1 short 1",
        "largest 0 then no BC", "answer no BC"])
    want_account(place, "first", TWO_LEGS, lines, 4, [
        "line 4 book LOC 1", "plan first opening period 1", "product LOC fare 200 refund 100",
        "leg AB authorised 3 sold 3 left 0 protected 0 needs 1 short 1",
        "largest 0 then no AB", "answer no AB"])


@test
def both_legs_short(place):
    """Both are told, and the first is named."""
    want_account(place, "first", TWO_LEGS, ["book THRU 999"], 1, [
        "line 1 book THRU 999", "plan first opening period 1", "product THRU fare 500 refund 100",
        "leg AB authorised 3 sold 0 left 3 protected 0 needs 999 short 996",
        "leg BC authorised 2 sold 0 left 2 protected 0 needs 999 short 997",
        "largest 2 then no BC", "answer no AB"])


@test
def the_largest_that_a_line_may_ask_for(place):
    network = place.file("large.csv", "periods,1,1\nleg,AB,999\nproduct,P,1,AB\n")
    want_account(place, "first", network, ["book P 1"], 1, [
        "line 1 book P 1", "plan first opening period 1", "product P fare 1 refund 100",
        "leg AB authorised 999 sold 0 left 999 protected 0 needs 1 covers", "largest 999 then bad", "answer ok 1"])


@test
def bid_prices(place):
    """The page of bid prices: below by 10, just reached, and short before the fare is looked at."""
    lines = ["book THRU 1", "book LOW 1", "book LOC 1", "reoptimise 2", "book THRU 1", "reoptimise 2", "book LOW 3"]
    want_account(place, "bid", BID_PRICES, lines, 1, [
        "line 1 book THRU 1", "plan bid opening period 1", "product THRU fare 210 refund 100",
        "leg AB authorised 4 sold 0 left 4 protected 0 needs 1 covers",
        "leg BC authorised 4 sold 0 left 4 protected 0 needs 1 covers",
        "price AB 120/1", "price BC 100/1", "sum 220/1 fare 210 below 10/1", "largest 0 then no fare",
        "answer no fare"])
    want_account(place, "bid", BID_PRICES, lines, 2, [
        "line 2 book LOW 1", "plan bid opening period 1", "product LOW fare 120 refund 100",
        "leg AB authorised 4 sold 0 left 4 protected 0 needs 1 covers",
        "price AB 120/1", "sum 120/1 fare 120 reaches", "largest 4 then no AB", "answer ok 1"])
    want_account(place, "bid", BID_PRICES, lines, 5, [
        "line 5 book THRU 1", "plan bid line 4 period 2", "product THRU fare 210 refund 100",
        "leg AB authorised 4 sold 1 left 3 protected 0 needs 1 covers",
        "leg BC authorised 4 sold 1 left 3 protected 0 needs 1 covers",
        "price AB 120/1", "price BC 0/1", "sum 120/1 fare 210 reaches", "largest 3 then no AB", "answer ok 3"])
    want_account(place, "bid", BID_PRICES, lines, 6, [
        "line 6 reoptimise 2", "left AB 2", "left BC 2", "answer optimised 455/1"])
    want_account(place, "bid", BID_PRICES, lines, 7, [
        "line 7 book LOW 3", "plan bid line 6 period 2", "product LOW fare 120 refund 100",
        "leg AB authorised 4 sold 2 left 2 protected 0 needs 3 short 1", "largest 0 then no fare", "answer no AB"])


@test
def a_fare_below_by_a_fraction(place):
    """The prices of examples/halves are 101/2, 99/2 and 101/2; a product that nobody asked for changes none."""
    with open(HALVES) as file:
        network = place.file("halves.csv", file.read() + "product,LOW,50,AB\n")
    want_account(place, "bid", network, ["book LOW 1"], 1, [
        "line 1 book LOW 1", "plan bid opening period 1", "product LOW fare 50 refund 100",
        "leg AB authorised 1 sold 0 left 1 protected 0 needs 1 covers",
        "price AB 101/2", "sum 101/2 fare 50 below 1/2", "largest 0 then no fare", "answer no fare"])
    want_account(place, "bid", network, ["book CAB 1"], 1, [
        "line 1 book CAB 1", "plan bid opening period 1", "product CAB fare 101 refund 100",
        "leg CA authorised 1 sold 0 left 1 protected 0 needs 1 covers",
        "leg AB authorised 1 sold 0 left 1 protected 0 needs 1 covers",
        "price CA 101/2", "price AB 101/2", "sum 101/1 fare 101 reaches", "largest 1 then no CA", "answer ok 1"])


@test
def nests(place):
    """The page of nests: what is protected for bucket 1, where bucket 2 is empty, and where both above are."""
    lines = ["book ABL 4", "book ABL 3", "book BCL 4", "book ACL 1", "book ABH 5", "book ACH 3", "cancel 1",
             "book ABL 1", "book ACH 3", "book BCL 1", "reoptimise 1", "book BCL 3"]
    want_account(place, "davn", CERTIFICATE, lines, 1, [
        "line 1 book ABL 4", "plan davn opening period 1", "product ABL fare 150 refund 100",
        "nest AB fare 150/1 bucket 2 of 3 from 100 below 300",
        "enough AB seats 7 buckets 1 mean 2880/7 next 150/1 histories 4 over 1", "demand AB 6 6 9 7",
        "leg AB authorised 10 sold 0 left 10 protected 7 needs 4 short 1", "largest 3 then no AB", "answer no AB"])
    want_account(place, "davn", CERTIFICATE, lines, 4, [
        "line 4 book ACL 1", "plan davn opening period 1", "product ACL fare 229 refund 100",
        "nest AB fare 149/1 bucket 2 of 3 from 100 below 300",
        "enough AB seats 7 buckets 1 mean 2880/7 next 150/1 histories 4 over 1", "demand AB 6 6 9 7",
        "leg AB authorised 10 sold 3 left 7 protected 7 needs 1 short 1",
        "nest BC fare 79/1 bucket 3 of 3 below 100",
        "enough BC seats 6 buckets 2 mean 350/1 next 80/1 histories 4 over 0", "demand BC 4 2 6 4",
        "leg BC authorised 10 sold 4 left 6 protected 6 needs 1 short 1", "largest 0 then no AB", "answer no AB"])
    want_account(place, "davn", CERTIFICATE, lines, 6, [
        "line 6 book ACH 3", "plan davn opening period 1", "product ACH fare 500 refund 100",
        "nest AB fare 420/1 bucket 1 of 3 from 300", "leg AB authorised 10 sold 8 left 2 protected 0 needs 3 short 1",
        "nest BC fare 350/1 bucket 1 of 3 from 300", "leg BC authorised 10 sold 4 left 6 protected 0 needs 3 covers",
        "largest 2 then no AB", "answer no AB"])
    want_account(place, "davn", CERTIFICATE, lines, 11, [
        "line 11 reoptimise 1", "left AB 2", "left BC 3", "answer optimised 1080/1"])
    want_account(place, "davn", CERTIFICATE, lines, 12, [
        "line 12 book BCL 3", "plan davn line 11 period 1", "product BCL fare 80 refund 100",
        "nest BC fare 80/1 bucket 3 of 3 below 100", "leg BC authorised 10 sold 7 left 3 protected 0 needs 3 covers",
        "largest 3 then no BC", "answer ok 5"])


@test
def a_fare_below_zero(place):
    """An adjusted fare has a sign, as on the page of nests behind its line `reoptimise 1`."""
    lines = ["book ABL 3", "book BCL 4", "book ABH 5", "cancel 1", "book ACH 3", "reoptimise 1", "book ACL 1"]
    text = place.account("davn", CERTIFICATE, lines, 7)
    checks.want_in(text, "nest BC fare -191/1 bucket 3 of 3 below 100\nleg BC authorised 10 sold 7 left 3 protected 0")


@test
def a_level_that_fewer_buckets_give(place):
    """As many seats are enough for bucket 1 as for 1 and 2: what is told is the basis for bucket 1."""
    network = place.file("same.csv", SAME_LEVEL)
    want_account(place, "davn", network, ["book LOW 3"], 1, [
        "line 1 book LOW 3", "plan davn opening period 1", "product LOW fare 90 refund 100",
        "nest AB fare 90/1 bucket 3 of 3 below 100",
        "enough AB seats 8 buckets 1 mean 400/1 next 110/1 histories 4 over 0", "demand AB 8 8 8 8",
        "leg AB authorised 10 sold 0 left 10 protected 8 needs 3 short 1", "largest 2 then no AB", "answer no AB"])


@test
def cancellations(place):
    """A percentage, cut: a quarter of 1,080, and half of 333; then the numbers that don't stand."""
    network = place.file("refunds.csv", REFUNDS)
    lines = ["book LOC 2", "book THRU 1", "cancel 1", "cancel 2", "cancel 2", "cancel 999999999999"]
    want_account(place, "first", network, lines, 3, [
        "line 3 cancel 1", "booking 1 product LOC party 2 fare 540 worth 1080 refund 25", "back 270 withheld 810",
        "answer cancelled 1 270"])
    want_account(place, "bid", network, lines, 4, [
        "line 4 cancel 2", "booking 2 product THRU party 1 fare 333 worth 333 refund 50", "back 166 withheld 167",
        "answer cancelled 2 166"])
    for number in (5, 6):
        want_account(place, "first", network, lines, number, [f"line {number} {lines[number - 1]}", "answer unknown"])


@test
def other_lines(place):
    lines = ["book NONE 1", "reoptimise 3", "leg AB", "leg NONE", "plan", "hindsight", "boook", "", "reoptimise 1"]
    told = [["line 1 book NONE 1", "answer unknown"], ["line 2 reoptimise 3", "answer unknown"], ["line 3 leg AB"],
            ["line 4 leg NONE", "answer unknown"], ["line 5 plan"], ["line 6 hindsight", "answer hindsight 0/1 revenue 0 withheld 0"],
            ["line 7 bad", "answer bad"], ["line 8 bad", "answer bad"],
            ["line 9 reoptimise 1", "left AB 3", "left BC 2", "answer optimised none"]]
    for number, wanted in enumerate(told, 1):
        want_account(place, "first", TWO_LEGS, lines, number, wanted)
    text, status = place.ran("first", TWO_LEGS, "2", given=b"plan\nbook LOC 1\r")
    want((text.splitlines()[0], text.splitlines()[-1], status), ("line 2 book LOC 1", "answer ok 1", 0),
         "a last part without a line feed")


@test
def absent_lines(place):
    for given, number in ((b"", "1"), (b"plan\n", "2"), (b"plan\nplan", "3"), (b"plan\n", "4294967296")):
        want(place.ran("first", TWO_LEGS, number, given=given), (f"absent line {number}\n", 10), f"{given} {number}")


@test
def usage(place):
    for words in ([], ["first"], ["first", TWO_LEGS], ["first", TWO_LEGS, "1", "1"], ["run", TWO_LEGS, "1"],
                  ["First", TWO_LEGS, "1"],
                  *(["first", TWO_LEGS, it] for it in ("0", "01", "", "+1", "-1", "1.0", "x", "4294967297",
                                                       "9999999999", "10000000000", "00000000001"))):
        want(place.ran(*words), (USAGE, 2), f"the words {words}")


@test
def what_it_says_of_itself(place):
    checks.want_of_itself(place.ran, "nrm_why", USAGE)


@test
def files_that_are_refused(place):
    want(place.ran("first", "none.csv", "1"), ("refused no file\n", 3), "no file")
    want(place.ran("first", place.folder, "1"), ("file fault\n", 9), "a folder")
    bad = place.file("bad.csv", "periods,1,1\nleg,AB,1000\n")
    want(place.ran("first", bad, "1"), ("refused row 2 why 7 range\n", 3), "a bad row")


@test
def an_opening_that_is_too_large(place):
    network = place.file("too-large.csv", checks.TOO_LARGE)
    for mode in ("bid", "davn"):
        want(place.ran(mode, network, "1", given=b"plan\n"), ("overflow after 53 pivots at -734283692657163\n", 7),
             mode)
    want(place.ran("first", network, "1", given=b"plan\n"), ("line 1 plan\n", 0), "first")


@test
def an_outside_that_fails(place):
    with open("/dev/full", "wb") as full:
        want(place.ran("first", TWO_LEGS, "1", given=b"plan\n", stdout=full)[1], 5, "a full output")
    with open(place.folder + "/out", "wb") as only_written:
        want(place.ran("first", TWO_LEGS, "1", input=None, stdin=only_written)[1], 4, "an input that can't be read")


# Beside the second account, and beside `book` itself


def made_network(draw):
    """A network of a few legs, some with thresholds, and of products over one to three of them."""
    legs = [f"L{it}" for it in range(draw.randint(1, 4))]
    histories, periods = draw.randint(1, 5), draw.randint(1, 3)
    text = f"periods,{histories},{periods},2\n"
    for leg in legs:
        thresholds = sorted(draw.sample(range(1, 400), draw.randint(0, 4)), reverse=True)
        text += ",".join(map(str, ["leg", leg, draw.randint(0, 30), draw.choice([0, 3, 9, 20, 30]), *thresholds]))
        text += "\n"
    products = [f"P{it}" for it in range(draw.randint(1, 7))]
    for name in products:
        over = draw.sample(legs, draw.randint(1, min(3, len(legs))))
        text += ",".join(["product", name, str(draw.randint(1, 500)), *over]) + "\n"
    text += "".join(f"refund,{name},{draw.choice([0, 1, 33, 50, 99])}\n" for name in products if draw.randrange(2))
    for name in products:
        for history in range(1, histories + 1):
            if draw.randrange(4):
                demand = ",".join(str(draw.choice([0, 1, 2, 4, 9])) for _ in range(periods))
                text += f"demand,{name},{history},{demand}\n"
    return text


def made_line(session, draw):
    """A line, most often a request for a few seats."""
    if draw.randrange(5) == 0:
        return reference.made_line(session, draw)
    kind, network = draw.randrange(20), session.network
    if kind < 14:
        return b"book %s %d" % (draw.choice(list(network.products)), draw.choice([1, 1, 1, 2, 2, 3, 5, 12]))
    if kind < 18:
        return b"cancel %d" % draw.randint(1, session.next)
    return b"reoptimise %d" % draw.randint(1, network.periods + draw.randrange(2))


def made_session(seed):
    """A mode, the text of a network, lines, and the account of each by the second account."""
    draw, mode = random.Random(seed), MODES[seed % len(MODES)]
    text = made_network(draw)
    teller = reference.Teller(reference.Session(reference.network_of(text.encode()), mode), 0)
    lines, accounts = [], []
    for _ in range(LINES_OF_A_SESSION):
        lines.append(made_line(teller.session, draw).replace(b"\n", b""))
        accounts.append(teller.account(lines[-1]).decode("latin-1"))
    return mode, text, lines, accounts


def replies_to(place, mode, network, lines):
    """The last replies of `nrm run` to lines, the last of which are requests."""
    done = subprocess.run([*place.program, "run", mode, network], input=b"\n".join(lines) + b"\n",
                          stdout=subprocess.PIPE)
    want(done.returncode, 0, f"the status of run {mode}")
    return done.stdout.decode("latin-1").splitlines(keepends=True)


def want_largest(place, mode, network, lines, account):
    """Has `nrm run` asked for the largest party in the place of the last line, and for one seat more."""
    found = re.search(r"^largest ([0-9]+) then (.*\n)", account, re.MULTILINE)
    if not found:
        return 0
    largest, product = int(found[1]), lines[-1].split(b" ")[1]
    for party, wanted in ((largest, "ok "), (largest + 1, found[2])):
        if party > 0:
            told = replies_to(place, mode, network, [*lines[:-1], b"book %s %d" % (product, party)])[-1]
            if not (told.startswith(wanted) if wanted == "ok " else told == wanted):
                raise Wrong(f"book {product.decode()} {party}: the account says {wanted!r}, the session {told!r}")
    return 1


def compared(place, seed, count):
    """How many lines of a made session were compared, how many differ, and how many parties were asked for."""
    mode, text, lines, accounts = made_session(seed)
    network, differences, parties = place.file(f"made-{seed}.csv", text), 0, 0
    given = b"\n".join(lines) + b"\n"
    for number, wanted in enumerate(accounts[:count], 1):
        found = place.ran(mode, network, str(number), given=given)
        try:
            want(found, (wanted, 0), f"seed {seed}, {mode}, line {number}")
            parties += want_largest(place, mode, network, lines[:number], found[0])
        except Wrong as wrong:
            differences += 1
            print(wrong)
    return len(accounts[:count]), differences, parties


def made_lines_agree(place, count):
    """The made lines beside the second account."""
    sessions = range(-(-count // LINES_OF_A_SESSION))
    with concurrent.futures.ThreadPoolExecutor(os.cpu_count()) as pool:
        found = list(pool.map(lambda seed: compared(place, seed, count - seed * LINES_OF_A_SESSION), sessions))
    done, differences, parties = map(sum, zip(*found))
    print(f"{done} made lines compared, {parties} largest parties asked for, {differences} differences")
    if differences or done != count or not parties:
        raise Wrong(f"{differences} differences in {done} lines")


def main():
    given = checks.words_of(__doc__, {"why": BUILT}, lines=10_000)
    picked = test.picked(given.pattern)
    if given.pattern in made_lines_agree.__name__:
        picked.append(lambda place: made_lines_agree(place, given.lines))
        picked[-1].__name__ = made_lines_agree.__name__
    return checks.tried(picked, lambda folder: Place(folder, given.why, given.program))


if __name__ == "__main__":
    sys.exit(main())
