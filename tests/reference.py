#!/usr/bin/env python3
"""An independent account of the rules: a plain, slow model against which cases are made.

    tests/reference.py run MODE FILE          the replies to standard input on the network of FILE
    tests/reference.py plan MODE FILE         the plan of the network of FILE at period 1, with every authorised seat
                                              left
    tests/reference.py check FILE CERT        what the certificate CERT is for the network of FILE
    tests/reference.py print FILE             the canonical form of FILE
    tests/reference.py gen MODE NUMBER        what becomes of the commands that are made of NUMBER, on the network made
                                              of it
    tests/reference.py cuts FILE LEG GROUPS   the fares of LEG in at most GROUPS groups, at the least cost
    tests/reference.py dp FILE LEG            the dynamic program of LEG alone: its classes, its value and its
                                              protections
    tests/reference.py why MODE FILE NUMBER   the account of line NUMBER of standard input, as `nrm_why` writes it
    tests/reference.py stream MODE FILE SEED N
                                              a made stream of N mixed lines for the network of FILE; a seed gives
                                              one stream

MODE is `first`, `bid` or `davn`. It was written from the rules alone and shares nothing with the program. It keeps no
counters: seats are summed anew from the list of bookings at each line. A certificate is checked on exact fractions,
which are brought to no common denominator. A plan's prices are worked out on the whole tableau, a row at a time, in
whole numbers of any size; only then is it asked whether one is too large. Buckets are worked out anew for each product,
and a protection level by trying one number of seats after the other. Of a leg's fares every division into groups is
tried, and in its dynamic program every number of seats that a class could be sold.

Of an account each number is worked out anew from the session before its line, and the largest party by asking for one
seat more until that isn't sold.

The words but `stream` and `why`, the texts and the statuses are those of the program, so `tests/run.py --program
tests/reference.py` takes it as the program for the cases. The files in tests/streams are streams of `stream` and the
replies of `run`.
"""
import functools
import os
import random
import re
import sys
from fractions import Fraction
from math import gcd, lcm

LONGEST_FILE = 4_194_304
LONGEST_CERTIFICATE = 65_536
LONGEST_STREAM = 2**32
LONGEST_LINE = 22  # of a good one, with its carriage return
PIECE = 65_536
MOST_LEGS, MOST_PRODUCTS = 64, 256
MOST_GROUPS, MOST_CLASSES = 10, 10
MOST_MONEY = 99_999_999
GREATEST = 2**63 - 1  # of a number in a certificate
LIMIT = 2**48  # no number of a tableau's row or of a certificate, over their common denominators, reaches it
LAST_LINE = 2**32  # the last line that can be asked about: a stream has no more bytes

NAME = re.compile(rb"[A-Z0-9-]{1,12}")
WHOLE = re.compile(rb"0|[1-9][0-9]*")
FRACTION = re.compile(rb"(0|[1-9][0-9]*)/([1-9][0-9]*)")


class Ended(Exception):
    """The line that is written at the end, or none, and the status."""

    def __init__(self, line, status):
        self.line, self.status = line, status


class Refused(Ended):
    """A file is refused."""

    def __init__(self, line):
        super().__init__(line, 3)


def bytes_of(path, refusal):
    try:
        with open(path, "rb") as file:
            return file.read(LONGEST_FILE + 1)
    except FileNotFoundError:
        raise Refused(refusal)
    except OSError:
        raise Ended("file fault", 9)


# The network file


def rows_of(data):
    """The records of a file. A blank line is none; a carriage return or a line feed ends one outside quotes."""
    if data.startswith(b"\xef\xbb\xbf"):
        data = data[3:]
    rows, row, field = [], [], bytearray()
    place = "before a row"

    def end_field():
        row.append(bytes(field))
        field.clear()

    for at in range(len(data)):
        byte = data[at:at + 1]
        if place == "in quotes":
            if byte == b'"':
                place = "after quotes"
            else:
                field += byte
        elif place == "after quotes" and byte == b'"':
            field += byte
            place = "in quotes"
        elif place == "before a row" and byte in b"\r\n":
            pass
        elif place in ("before a row", "before a field") and byte == b'"':
            place = "in quotes"
        elif byte == b",":
            end_field()
            place = "before a field"
        elif byte in b"\r\n":
            end_field()
            rows.append(list(row))
            row.clear()
            place = "before a row"
        else:
            field += byte
            place = "in a field"
    if place != "before a row":
        end_field()
        rows.append(row)
    return rows


class Network:
    """What the rows taken so far say."""

    def __init__(self):
        self.rows = 0
        self.version = self.histories = self.periods = 0
        self.seats = {}  # of each leg, in file order
        self.authorised = {}  # of each leg: how many seats may be booked, be it fewer than it has or more
        self.thresholds = {}  # of each leg
        self.products = {}  # name: (fare, leg names), in file order
        self.refunds = {}  # of each product that has a row of it, the percentage of its fare that is given back
        self.demand = {}  # (product, history): demand by period

    def refund(self, product):
        return self.refunds.get(product, 100)

    def first_threshold(self):
        """The number of fields that stand before the thresholds of a leg."""
        return 4 if self.version == 2 else 3

    def allowed_fields(self, kind):
        return {b"periods": [3, 4], b"leg": range(self.first_threshold(), self.first_threshold() + 10),
                b"product": range(4, 8),
                b"refund": [3], b"demand": [3 + self.periods]}[kind]

    def is_full(self, kind):
        return kind == b"leg" and len(self.seats) >= MOST_LEGS or kind == b"product" and len(
            self.products) >= MOST_PRODUCTS

    def limits(self, row):
        """Each number field of a row, with its least and its greatest value."""
        kind, rest = row[0], row[3:]
        if kind == b"periods":
            return [(row[1], 1, 32), (row[2], 1, 16)] + [(field, 2, 2) for field in rest]
        if kind == b"leg":
            first = self.first_threshold()
            return [(field, 0, 999) for field in row[2:first]] + [(field, 1, MOST_MONEY) for field in row[first:]]
        if kind == b"product":
            return [(row[2], 1, MOST_MONEY)]
        if kind == b"refund":
            return [(row[2], 0, 100)]
        return [(row[2], 1, self.histories)] + [(field, 0, 999) for field in rest]

    def is_twice(self, row):
        kind, name, rest = row[0], row[1], row[3:]
        if kind == b"leg":
            return name in self.seats
        if kind == b"product":
            return name in self.products or len(set(rest)) < len(rest)
        if kind == b"refund":
            return name in self.refunds
        return kind == b"demand" and (name, int(row[2])) in self.demand

    def lacks(self, row):
        kind, name, rest = row[0], row[1], row[3:]
        if kind == b"product":
            return any(leg not in self.seats for leg in rest)
        return kind in (b"refund", b"demand") and name not in self.products

    def kinds(self):
        """The first fields that a row may have; refunds are known only behind a first row that says version 2."""
        return (b"periods", b"leg", b"product", b"demand") + ((b"refund",) if self.version == 2 else ())

    def fault(self, row):
        """The first check that a row fails, against the rows before it."""
        kind, rest = row[0], row[3:]
        if kind not in self.kinds():
            return "1 kind"
        if (kind == b"periods") != (self.rows == 0):
            return "2 order"
        if len(row) not in self.allowed_fields(kind):
            return "3 fields"
        if self.is_full(kind):
            return "4 many"
        names = {b"periods": [], b"product": row[1:2] + rest}.get(kind, row[1:2])
        if not all(NAME.fullmatch(name) for name in names):
            return "5 name"
        if not all(WHOLE.fullmatch(field) for field, _, _ in self.limits(row)):
            return "6 number"
        if not all(least <= int(field) <= greatest for field, least, greatest in self.limits(row)):
            return "7 range"
        if self.is_twice(row):
            return "8 twice"
        if self.lacks(row):
            return "9 missing"
        thresholds = [int(field) for field in row[self.first_threshold():]] if kind == b"leg" else []
        if any(high <= low for high, low in zip(thresholds, thresholds[1:])):
            return "10 thresholds"
        if kind == b"demand" and sum(int(field) for field in rest) > 999:
            return "11 sum"
        return None

    def take(self, row):
        kind, name, rest = row[0], row[1], row[3:]
        if kind == b"periods":
            self.histories, self.periods, self.version = int(row[1]), int(row[2]), len(row) - 2
        elif kind == b"leg":
            first = self.first_threshold()
            self.seats[name], self.authorised[name] = int(row[2]), int(row[first - 1])
            self.thresholds[name] = [int(field) for field in row[first:]]
        elif kind == b"product":
            self.products[name] = (int(row[2]), rest)
        elif kind == b"refund":
            self.refunds[name] = int(row[2])
        else:
            self.demand[name, int(row[2])] = [int(field) for field in rest]
        self.rows += 1


def network_of(data):
    """The network of a file's bytes."""
    if len(data) > LONGEST_FILE:
        raise Refused("refused row 0 why 13 size")
    network = Network()
    for number, row in enumerate(rows_of(data), 1):
        why = network.fault(row)
        if why:
            raise Refused(f"refused row {number} why {why}")
        network.take(row)
    if not network.seats or not network.products:
        raise Refused(f"refused row {network.rows + 1} why 12 empty")
    return network


def canonical(network):
    """The canonical file, of version 2: no quotes, one order, no refund of 100, no demand of 0 in all periods."""
    rows = [[b"periods", network.histories, network.periods, 2]]
    rows += [[b"leg", name, seats, network.authorised[name]] + network.thresholds[name]
             for name, seats in network.seats.items()]
    rows += [[b"product", name, fare] + legs for name, (fare, legs) in network.products.items()]
    rows += [[b"refund", name, network.refund(name)] for name in network.products if network.refund(name) != 100]
    for name in network.products:
        for history in range(1, network.histories + 1):
            demand = network.demand.get((name, history), [])
            if sum(demand) > 0:
                rows.append([b"demand", name, history] + demand)
    written = [[field if isinstance(field, bytes) else b"%d" % field for field in row] for row in rows]
    return b"".join(b",".join(row) + b"\n" for row in written)


# The lines of a stream and of a certificate


def lines_of(stream):
    """The bytes cut at each line feed; a last part that isn't empty counts."""
    lines = stream.split(b"\n")
    return lines if lines[-1] else lines[:-1]


def without_return(line):
    return line[:-1] if line.endswith(b"\r") else line


# The linear program of a network, and its certificate


class Program:
    """The seats that may be sold of each leg, and the fare, the legs and the demand of each product."""

    def __init__(self, network, legs, demand):
        self.legs, self.demand = legs, demand
        self.fares = {product: fare for product, (fare, _) in network.products.items()}
        self.uses = {product: legs for product, (_, legs) in network.products.items()}

    @staticmethod
    def to_come(network, left=None, period=1):
        """Over all histories together, with the demand to come."""
        left = left or network.authorised
        return Program(network, {leg: network.histories * left[leg] for leg in network.seats},
                       {product: sum(sum(network.demand.get((product, history + 1), [])[period - 1:])
                                     for history in range(network.histories)) for product in network.products})

    def sold(self, x, leg):
        return sum(x[product] for product in x if leg in self.uses[product])

    def price(self, p, product):
        return sum(p[leg] for leg in self.uses[product])

    def cost(self, p):
        return (sum(self.legs[leg] * p[leg] for leg in p)
                + sum(self.demand[product] * max(0, self.fares[product] - self.price(p, product))
                      for product in self.demand))


class Certificate:
    """The total allocation of each product, the price of each leg, and the total value."""

    def __init__(self, x, p, value):
        self.x, self.p, self.value = x, p, value

    def is_too_fine(self):
        q = lcm(*[x.denominator for x in self.x.values()])
        den = lcm(self.value.denominator, *[p.denominator for p in self.p.values()])
        numbers = [q, den, self.value * den] + [x * q for x in self.x.values()] + [p * den for p in self.p.values()]
        return max(numbers) >= LIMIT


def is_large(digits):
    return len(digits) > 19 or int(digits) > GREATEST


def certificate_of(network, data):
    """The certificate that is read from a file's bytes."""
    if len(data) > LONGEST_CERTIFICATE:
        raise Refused("refused certificate long")
    wanted = [(b"value",)]
    wanted += [(b"product", name) for name in network.products] + [(b"leg", name) for name in network.seats]
    given = {}
    for number, line in enumerate(lines_of(data), 1):
        *words, last = without_return(line).split(b" ")
        what, fraction = tuple(words), FRACTION.fullmatch(last)
        if what not in wanted or what in given or not fraction:
            raise Refused(f"refused certificate line {number}")
        if any(is_large(digits) for digits in fraction.groups()):
            raise Refused(f"refused certificate line {number} large")
        given[what] = Fraction(*[int(digits) for digits in fraction.groups()])
    for what in wanted:
        if what not in given:
            raise Refused(f"refused certificate no {b' '.join(what).decode()}")
    certificate = Certificate({product: network.histories * given[b"product", product] for product in network.products},
                              {leg: given[b"leg", leg] for leg in network.seats}, network.histories * given[b"value",])
    if certificate.is_too_fine():
        raise Refused("refused certificate too fine")
    return certificate


def verdict(program, certificate):
    """The first condition that fails, with its first product or leg, or nothing."""
    x, p = certificate.x, certificate.p
    sold = {leg: program.sold(x, leg) for leg in p}
    price = {product: program.price(p, product) for product in x}
    conditions = [
        (b"product", lambda j: x[j] > program.demand[j]),
        (b"leg", lambda i: sold[i] > program.legs[i]),
        (b"leg", lambda i: p[i] > 0 and sold[i] < program.legs[i]),
        (b"product", lambda j: x[j] < program.demand[j] and program.fares[j] > price[j]),
        (b"product", lambda j: x[j] > 0 and program.fares[j] < price[j]),
    ]
    for kind, fails in conditions:
        for name in x if kind == b"product" else p:
            if fails(name):
                return f"wrong {kind.decode()} {name.decode()}"
    return "" if certificate.value == program.cost(p) else "wrong value"


def certificate_text(network, certificate):
    """The means of a history, and the prices."""
    lines = [(b"value", certificate.value / network.histories)]
    lines += [(b"product " + product, x / network.histories) for product, x in certificate.x.items()]
    lines += [(b"leg " + leg, p) for leg, p in certificate.p.items()]
    return b"".join(b"%s %s\n" % (what, fraction(number)) for what, number in lines)


def fraction(number):
    return b"%d/%d" % (number.numerator, number.denominator)


# The path of the simplex method to a certificate


class Large(Exception):
    """A number that reaches the limit."""


def below_limit(numbers):
    for number in numbers:
        if abs(number) >= LIMIT:
            raise Large(number)


class Row:
    """Whole numbers over one positive denominator, in lowest terms."""

    def __init__(self, numbers, den):
        divisor = gcd(den, *numbers)
        self.numbers, self.den = [number // divisor for number in numbers], den // divisor
        below_limit([self.den] + self.numbers)

    def at(self, column):
        return Fraction(self.numbers[column], self.den)

    def with_one_at(self, column):
        return Row(self.numbers, self.numbers[column])

    def with_nothing_at(self, column, pivot):
        """This row less as many times the pivot row, which has 1 in the column, as this one has there."""
        times = self.numbers[column]
        if times == 0:
            return self
        return Row([a * pivot.den - times * b for a, b in zip(self.numbers, pivot.numbers)], self.den * pivot.den)


class Tableau:
    """The constraint rows, legs first and then bounds, and the value row.

    The columns are the products, the seats left over on each leg, the demand of each product that isn't met, and the
    right side, which is the last.
    """

    def __init__(self, program):
        products, legs = list(program.fares), list(program.legs)
        self.slacks = range(len(products), 2 * len(products) + len(legs))
        right = [program.legs[leg] for leg in legs] + [program.demand[product] for product in products]
        uses = [[int(leg in program.uses[product]) for product in products] for leg in legs]
        uses += [[int(product == other) for other in products] for product in products]
        self.rows = [Row(row + [int(at == other) for other in range(len(right))] + [right[at]], 1)
                     for at, row in enumerate(uses)]
        self.value = Row([-fare for fare in program.fares.values()] + [0] * (len(right) + 1), 1)
        self.basic = list(self.slacks)  # the column of each row

    def entering(self):
        """The first column that the value row is negative in, if there is one."""
        return next((column for column, number in enumerate(self.value.numbers[:-1]) if number < 0), None)

    def leaving(self, column):
        """The row whose right side and then slack columns, over its entry, are the least where they first differ."""
        at_least = [at for at, row in enumerate(self.rows) if row.numbers[column] > 0]
        for other in [-1, *self.slacks]:
            if len(at_least) == 1:
                break
            ratios = [Fraction(self.rows[at].numbers[other], self.rows[at].numbers[column]) for at in at_least]
            at_least = [at for at, ratio in zip(at_least, ratios) if ratio == min(ratios)]
        return at_least[0]

    def pivot(self, column):
        at = self.leaving(column)
        self.rows[at] = pivot = self.rows[at].with_one_at(column)
        self.rows = [row if row is pivot else row.with_nothing_at(column, pivot) for row in self.rows]
        self.value = self.value.with_nothing_at(column, pivot)
        self.basic[at] = column

    def closing(self, program):
        values = {column: row.at(-1) for column, row in zip(self.basic, self.rows)}
        x = [values.get(column, Fraction(0)) for column in range(len(program.fares))]
        common = [lcm(*[it.denominator for it in x[:count]]) for count in range(1, len(x) + 1)]
        below_limit(common + [int(it * common[-1]) for it in x])
        p = [self.value.at(column) for column in self.slacks]
        return Certificate(dict(zip(program.fares, x)), dict(zip(program.legs, p)), self.value.at(-1))


def solved(program):
    """The certificate at the end of the path."""
    tableau, pivots = Tableau(program), 0
    try:
        while (column := tableau.entering()) is not None:
            tableau.pivot(column)
            pivots += 1
        return tableau.closing(program)
    except Large as large:
        raise Ended(f"overflow after {pivots} pivots at {large}", 7)


# Virtual nests


class Nests:
    """What prices make of the legs: the adjusted fares and the buckets of their products, and protection levels."""

    def __init__(self, network, p, period):
        self.network, self.p, self.period = network, p, period
        self.levels = {leg: self.levels_of(leg) for leg in network.seats}

    def adjusted(self, leg, product):
        """What a product brings on one of its legs: its fare, less the prices of its other legs."""
        fare, legs = self.network.products[product]
        return fare - sum(self.p[other] for other in legs if other != leg)

    def bucket(self, leg, product):
        return 1 + sum(1 for threshold in self.network.thresholds[leg] if threshold > self.adjusted(leg, product))

    def products_in(self, leg, buckets):
        return [product for product, (_, legs) in self.network.products.items()
                if leg in legs and self.bucket(leg, product) in buckets]

    def demand(self, products):
        """The demand to come for some products together, in each history."""
        return [sum(sum(self.network.demand.get((product, history + 1), [])[self.period - 1:]) for product in products)
                for history in range(self.network.histories)]

    def fare(self, leg, buckets):
        """The mean of the adjusted fares in some buckets, each as often as there is demand to come for it."""
        weights = {product: sum(self.demand([product])) for product in self.products_in(leg, buckets)}
        thresholds, total = self.network.thresholds[leg], sum(weights.values())
        if total > 0:
            mean = sum(self.adjusted(leg, product) * weight for product, weight in weights.items()) / Fraction(total)
            return max(mean, Fraction(0)) if buckets == [len(thresholds) + 1] else mean
        return Fraction(thresholds[buckets[0] - 1]) if buckets[0] <= len(thresholds) else Fraction(0)

    def computed(self, leg, bucket):
        """The least number of seats that is enough for this bucket and those above it, or the leg's authorised seats if
        it is more."""
        above = list(range(1, bucket + 1))
        demand = self.demand(self.products_in(leg, above))
        if sum(demand) == 0:
            return 0
        fare, next_fare, seats = self.fare(leg, above), self.fare(leg, [bucket + 1]), self.network.authorised[leg]
        for y in range(seats):
            if len([1 for it in demand if it > y]) * fare <= self.network.histories * next_fare:
                return y
        return seats

    def levels_of(self, leg):
        """The seats that are protected for no bucket, for bucket 1, for buckets 1 and 2, and so on but for the last."""
        levels = [0]
        for bucket in range(1, len(self.network.thresholds[leg]) + 1):
            levels.append(max(levels[-1], self.computed(leg, bucket)))
        return levels

    def protected(self, leg, product):
        """The seats of a leg that a product may not have."""
        return self.levels[leg][self.bucket(leg, product) - 1]

    def text(self):
        nests = [b"nest %s %s " % it + b"%s %d\n" % (fraction(Fraction(self.adjusted(*it))), self.bucket(*it))
                 for it in [(leg, product) for leg in self.network.seats
                            for product, (_, legs) in self.network.products.items() if leg in legs]]
        return b"".join(nests + [b" ".join([b"protect", leg] + [b"%d" % level for level in levels[1:]]) + b"\n"
                                 for leg, levels in self.levels.items()])


# The session


class Session:
    """The surviving bookings, the number of the next one, the seats asked for, the sum withheld, and the plan in force.

    The plan is, under `bid`, a certificate, and under `davn` a certificate and the nests of its prices.
    """

    def __init__(self, network, mode):
        self.network, self.mode = network, mode
        self.certificate = self.nests = None
        self.book = []  # (number, product, party), in the order in which they were made
        self.next = 1
        self.asked = {product: 0 for product in network.products}  # the seats that were asked for, sold or not
        self.withheld = 0  # what cancellations didn't give back
        if mode != "first":
            self.optimise(1)

    def optimise(self, period):
        """Makes a plan of the seats left; where it is too large, the one in force stays."""
        left = {leg: self.left(leg) for leg in self.network.seats}
        self.certificate = solved(Program.to_come(self.network, left, period))
        if self.mode == "davn":
            self.nests = Nests(self.network, self.certificate.p, period)

    def sold(self, leg, product=None):
        """The seats sold on a leg, in all or by one product."""
        return sum(party for _, name, party in self.book
                   if leg in self.network.products[name][1] and product in (None, name))

    def left(self, leg):
        return self.network.authorised[leg] - self.sold(leg)

    def request(self, product, party):
        if product not in self.network.products:
            return b"unknown\n"
        self.asked[product] += party
        if refusal := self.refusal(product, party):
            return refusal
        self.book.append((self.next, product, party))
        self.next += 1
        return b"ok %d\n" % (self.next - 1)

    def refusal(self, product, party):
        """What a request is answered that isn't sold, or nothing."""
        for leg in self.network.products[product][1]:
            if self.left(leg) < party + (self.nests.protected(leg, product) if self.mode == "davn" else 0):
                return b"no %s\n" % leg
        return b"no fare\n" if self.mode == "bid" and self.is_too_cheap(product) else b""

    def is_too_cheap(self, product):
        fare, legs = self.network.products[product]
        return fare < sum(self.certificate.p[leg] for leg in legs)

    def cancel(self, number):
        for booking in self.book:
            if booking[0] == number:
                self.book.remove(booking)
                _, product, party = booking
                paid = party * self.network.products[product][0]
                amount = paid * self.network.refund(product) // 100
                self.withheld += paid - amount
                return b"cancelled %d %d\n" % (number, amount)
        return b"unknown\n"

    def reoptimise(self, period):
        if period > self.network.periods:
            return b"unknown\n"
        if self.mode == "first":
            return b"optimised none\n"
        try:
            self.optimise(period)
        except Ended:
            return b"overflow\n"
        return b"optimised %s\n" % fraction(self.certificate.value / self.network.histories)

    def hindsight(self):
        """The most that the requests so far could have earned, were parts of seats sold, and what is earned."""
        seats = self.network.authorised
        tallies = {product: min([asked] + [seats[leg] for leg in self.network.products[product][1]])
                   for product, asked in self.asked.items()}
        try:
            value = solved(Program(self.network, seats, tallies)).value
        except Ended:
            return b"overflow\n"
        return b"hindsight %s revenue %d withheld %d\n" % (fraction(value), self.revenue(), self.withheld)

    def revenue(self):
        return sum(party * self.network.products[product][0] for _, product, party in self.book)

    def plan(self):
        if self.mode == "first":
            return b"first\n"
        return certificate_text(self.network, self.certificate) + (self.nests.text() if self.mode == "davn" else b"")

    def report(self, leg):
        if leg not in self.network.seats:
            return b"unknown\n"
        seats = self.network.seats[leg], self.network.authorised[leg]
        text = b"leg %s seats %d authorised %d sold %d left %d\n" % (leg, *seats, self.sold(leg), self.left(leg))
        for product in self.network.products:
            if self.sold(leg, product) > 0:
                text += b"on %s %s %d\n" % (leg, product, self.sold(leg, product))
        return text

    def reply(self, line):
        """The reply to a line that comes without its line feed."""
        kind, *rest = command_of(line)
        if kind == "bad":
            return b"bad\n"
        return {"book": self.request, "cancel": self.cancel, "reoptimise": self.reoptimise, "plan": self.plan,
                "hindsight": self.hindsight, "leg": self.report}[kind](*rest)


def command_of(line):
    """What a line asks for: the word of its kind, and its names and numbers."""
    words = without_return(line).split(b" ")
    numbers = [int(word) if WHOLE.fullmatch(word) and len(word) <= 12 else -1 for word in words]
    if len(words) == 3 and words[0] == b"book" and NAME.fullmatch(words[1]) and 1 <= numbers[2] <= 999:
        return "book", words[1], numbers[2]
    if len(words) == 2 and words[0] == b"cancel" and numbers[1] >= 0:
        return "cancel", numbers[1]
    if len(words) == 2 and words[0] == b"reoptimise" and 1 <= numbers[1] <= 99:
        return "reoptimise", numbers[1]
    if words in ([b"plan"], [b"hindsight"]):
        return words[0].decode(),
    if len(words) == 2 and words[0] == b"leg" and NAME.fullmatch(words[1]):
        return "leg", words[1]
    return "bad",


def piece_given():
    """What there is of standard input, nothing at its end."""
    try:
        return os.read(0, PIECE)
    except OSError:
        raise Ended("", 4)


def replies(session):
    """The replies to standard input, those to the lines that end in one piece together."""
    taken, line = 0, b""  # of a line that is too long, enough is kept to see that
    while piece := piece_given():
        *whole, line = (line + piece[:LONGEST_STREAM - taken]).split(b"\n")
        line = line[:LONGEST_LINE + 1]
        taken += len(piece)
        yield b"".join(session.reply(it) for it in whole)
        if taken > LONGEST_STREAM:
            raise Ended("", 8)
    if line:
        yield session.reply(line)


# The account of a line


def line_of(*words):
    """The words of a line; a number or a fraction is a word too."""
    return b" ".join(it if isinstance(it, bytes) else fraction(it) if isinstance(it, Fraction) else b"%d" % it
                     for it in words) + b"\n"


class Teller:
    """A session whose lines are accounted for: each from what stands before it, and from its reply.

    Beside the session it knows which line is asked for, how many have come, and which line made the plan in force.
    """

    def __init__(self, session, asked):
        self.session, self.network, self.asked = session, session.network, asked
        self.lines, self.planned, self.period = 0, [b"opening"], 1

    def reply(self, line):
        """What is written as a line is answered: the account of the line that is asked for, and of others nothing."""
        if self.lines + 1 == self.asked:
            return self.account(line)
        self.pass_on(command_of(line), self.session.reply(line))
        return b""

    def pass_on(self, command, reply):
        """The next line is the one behind this."""
        self.lines += 1
        if reply.startswith(b"optimised "):
            self.planned, self.period = [b"line", self.lines], command[1]

    def account(self, line):
        """The account of the next line, which is answered."""
        command = command_of(line)
        words = [it.encode() if isinstance(it, str) else it for it in command]
        text = line_of(b"line", self.lines + 1, *words) + self.reasons(*command)
        reply = self.session.reply(line)
        self.pass_on(command, reply)
        told = command[0] in ("leg", "plan") and reply != b"unknown\n"
        return text + (b"" if told else b"answer " + reply)

    def reasons(self, kind, *rest):
        """What a line is answered for."""
        if kind == "book" and rest[0] in self.network.products:
            return self.of_request(*rest)
        if kind == "cancel":
            return b"".join(self.of_cancellation(*it) for it in self.session.book if it[0] == rest[0])
        if kind == "reoptimise" and rest[0] <= self.network.periods:
            return b"".join(line_of(b"left", leg, self.session.left(leg)) for leg in self.network.seats)
        return b""

    def of_cancellation(self, number, product, party):
        fare, refund = self.network.products[product][0], self.network.refund(product)
        back = party * fare * refund // 100
        return (line_of(b"booking", number, b"product", product, b"party", party, b"fare", fare, b"worth", party * fare,
                        b"refund", refund)
                + line_of(b"back", back, b"withheld", party * fare - back))

    def of_request(self, product, party):
        fare, legs = self.network.products[product]
        text = line_of(b"plan", self.session.mode.encode(), *self.planned, b"period", self.period)
        text += line_of(b"product", product, b"fare", fare, b"refund", self.network.refund(product))
        text += b"".join(self.of_nest(leg, product) + self.of_leg(leg, product, party) for leg in legs)
        if self.session.mode == "bid" and all(self.session.left(leg) >= party for leg in legs):
            text += self.of_fare(fare, legs)
        largest = 0
        while largest < 999 and not self.session.refusal(product, largest + 1):
            largest += 1
        beyond = self.session.refusal(product, largest + 1) if largest < 999 else b"bad\n"
        return text + b"largest %d then " % largest + beyond

    def of_fare(self, fare, legs):
        prices = [Fraction(self.session.certificate.p[leg]) for leg in legs]
        below = sum(prices) - fare
        return (b"".join(line_of(b"price", *it) for it in zip(legs, prices))
                + line_of(b"sum", sum(prices), b"fare", fare, *([b"below", below] if below > 0 else [b"reaches"])))

    def of_leg(self, leg, product, party):
        left = self.session.left(leg)
        protected = self.session.nests.protected(leg, product) if self.session.mode == "davn" else 0
        short = party + protected - left
        return line_of(b"leg", leg, b"authorised", self.network.authorised[leg], b"sold", self.session.sold(leg),
                       b"left", left, b"protected", protected, b"needs", party,
                       *([b"short", short] if short > 0 else [b"covers"]))

    def of_nest(self, leg, product):
        """Under `davn` the bucket with its bounds, and what the seats that are protected from it come from."""
        if self.session.mode != "davn":
            return b""
        nests, thresholds = self.session.nests, self.network.thresholds[leg]
        bucket = nests.bucket(leg, product)
        text = line_of(b"nest", leg, b"fare", Fraction(nests.adjusted(leg, product)), b"bucket", bucket, b"of",
                       len(thresholds) + 1,
                       *([b"from", thresholds[bucket - 1]] if bucket <= len(thresholds) else []),
                       *([b"below", thresholds[bucket - 2]] if bucket > 1 else []))
        level = nests.protected(leg, product)
        if level == 0:
            return text
        count = nests.levels[leg].index(level)  # the least number of buckets for which as many are protected
        above = list(range(1, count + 1))
        demand = nests.demand(nests.products_in(leg, above))
        return (text + line_of(b"enough", leg, b"seats", level, b"buckets", count,
                               b"mean", Fraction(nests.fare(leg, above)),
                               b"next", Fraction(nests.fare(leg, [count + 1])), b"histories", self.network.histories,
                               b"over", len([1 for it in demand if it > level]))
                + line_of(b"demand", leg, *demand))


def accounts(mode, path, number):
    """The account of a line of standard input."""
    teller = Teller(Session(network_in(path), mode), int(number))
    yield from replies(teller)
    if teller.lines < teller.asked:
        raise Ended(f"absent line {number}", 10)


# A made network, and the commands after it


class Draws:
    """Numbers one after another; a network and its commands share one row of them."""

    def __init__(self, number):
        self.state = number % 2**31

    def below(self, limit):
        self.state = (self.state * 1_103_515_245 + 12_345) % 2**31
        return self.state // 65_536 % limit


def made_network(draws):
    """A hub of six legs in and six out, with a dear and a cheap product on each and from each leg in to each out."""
    network = Network()
    network.version, network.histories, network.periods = 2, 8, 4
    legs = [b"%s%d" % (side, number) for side in (b"I", b"O") for number in range(1, 7)]
    for leg in legs:
        network.seats[leg] = network.authorised[leg] = 40 + draws.below(40)
        network.thresholds[leg] = [400, 200, 100]
    for leg in legs:
        network.products[leg + b"-H"] = (300 + draws.below(200), [leg])
        network.products[leg + b"-L"] = (100 + draws.below(100), [leg])
    for inbound in range(1, 7):
        for outbound in range(1, 7):
            name, over = b"T%d-%d" % (inbound, outbound), [b"I%d" % inbound, b"O%d" % outbound]
            network.products[name] = (350 + draws.below(300), over)
    for product in network.products:
        for history in range(1, network.histories + 1):
            network.demand[product, history] = [draws.below(6) for _ in range(network.periods)]
    return network


def made_lines(network, draws):
    """The 10,000 lines: most are requests, and the last one is `hindsight`."""
    products, legs = list(network.products), list(network.seats)
    for number in range(1, 10_001):
        if number == 10_000:
            yield b"hindsight"
        elif number % 2_500 == 0:
            yield b"reoptimise %d" % (number // 2_500 + 1)
        elif (lot := draws.below(20)) < 15:
            product = products[draws.below(60)]
            yield b"book %s %d" % (product, 1 + draws.below(3))
        elif lot < 19:
            yield b"cancel %d" % (1 + draws.below(400))
        else:
            yield b"leg %s" % legs[draws.below(12)]


def summary(mode, number):
    """How often each kind of reply came, and what is earned and could have been."""
    draws = Draws(number)
    network = made_network(draws)
    session = Session(network, mode)
    *rest, last = [session.reply(line) for line in made_lines(network, draws)]
    kinds = {b"ok": 0, b"no": 0, b"fare": 0, b"cancelled": 0, b"unknown": 0, b"leg": 0, b"optimised": 0, b"overflow": 0}
    for reply in rest:
        words = reply.split()
        kinds[b"fare" if words[:2] == [b"no", b"fare"] else words[0]] += 1
    named = b" ".join(b"%s %d" % (b"legs" if kind == b"leg" else kind, count) for kind, count in kinds.items())
    value = last.split()[1] if last.startswith(b"hindsight") else b"overflow"
    return b"made lines %d %s revenue %d hindsight %s\n" % (len(rest) + 1, named, session.revenue(), value)


def is_number(word):
    """Whether a word is a whole number from which a network is made."""
    return bool(WHOLE.fullmatch(word.encode())) and len(word) <= 10 and int(word) < 2**32


# The fares of a leg in groups


class Fares:
    """The fares of a leg, each once and falling, and how many seats were asked for at each."""

    def __init__(self, network, leg):
        on_leg = {product: fare for product, (fare, legs) in network.products.items() if leg in legs}
        self.values = sorted(set(on_leg.values()), reverse=True)
        asked = {product: sum(sum(demand) for (name, _), demand in network.demand.items() if name == product)
                 for product in on_leg}
        self.weights = [sum(asked[product] for product in on_leg if on_leg[product] == value) for value in self.values]
        self.best = functools.cache(self.best)
        self.cost = functools.cache(self.cost)

    def centre(self, first, last):
        """The first value of a piece, from one place to before another, at which half of its weight has come."""
        whole = sum(self.weights[first:last])
        return next(self.values[at] for at in range(first, last) if 2 * sum(self.weights[first:at + 1]) >= whole)

    def cost(self, first, last):
        """What a piece costs: the distance to its centre for each seat that was asked for."""
        centre = self.centre(first, last)
        return sum(self.weights[at] * abs(self.values[at] - centre) for at in range(first, last))

    def best(self, first, groups):
        """The least of the divisions of the values from a place on into at most so many pieces: by its cost, then by
        the number of its pieces, then by their lengths."""
        if first == len(self.values):
            return 0, 0, []
        if groups == 0:
            return None
        found = [(last, self.best(last, groups - 1)) for last in range(first + 1, len(self.values) + 1)]
        return min((self.cost(first, last) + rest[0], 1 + rest[1], [last - first] + rest[2])
                   for last, rest in found if rest)


def cuts_text(network, leg, groups):
    """The last fares of all groups but the last, the centres of the groups, and what they cost."""
    fares = Fares(network, leg)
    if not fares.values:
        raise Ended("no leg", 10)
    cost, _, lengths = fares.best(0, groups)
    ends = [sum(lengths[:count]) for count in range(len(lengths) + 1)]
    cuts = [fares.values[end - 1] for end in ends[1:-1]]
    centres = [fares.centre(first, last) for first, last in zip(ends, ends[1:])]
    lines = [[b"cuts", leg] + [b"%d" % it for it in cuts], [b"centres", leg] + [b"%d" % it for it in centres],
             [b"cost", leg, b"%d" % cost]]
    return b"".join(b" ".join(line) + b"\n" for line in lines)


# The dynamic program of a leg


class Classes:
    """The products whose only leg is this one, the dearest first; each class's demand is one of its histories, by
    chance and whatever the others are, and the cheapest comes first."""

    def __init__(self, network, leg):
        self.seats = network.authorised.get(leg, 0)
        alone = [product for product, (_, legs) in network.products.items() if legs == [leg]]
        self.products = sorted(alone, key=lambda product: -network.products[product][0])
        self.fares = [network.products[product][0] for product in self.products]
        self.demands = [[sum(network.demand.get((product, history + 1), [])) for history in range(network.histories)]
                        for product in self.products]
        self.value = functools.cache(self.value)

    def value(self, count, seats):
        """The most that the first so many classes bring on the mean with so many seats."""
        if count == 0:
            return Fraction(0)
        fare, demands = self.fares[count - 1], self.demands[count - 1]
        return sum(max(fare * sold + self.value(count - 1, seats - sold) for sold in range(min(demand, seats) + 1))
                   for demand in demands) / Fraction(len(demands))

    def protection(self, count):
        """The most seats of which the last is worth more to the first so many classes than to the one behind them."""
        worth = [y for y in range(1, self.seats + 1)
                 if self.fares[count] < self.value(count, y) - self.value(count, y - 1)]
        return max(worth, default=0)


def dp_text(network, leg):
    classes = Classes(network, leg)
    if not 1 <= len(classes.products) <= MOST_CLASSES:
        raise Ended(f"classes {len(classes.products)}", 11)
    text = b"".join(b"class %s %d\n" % it for it in zip(classes.products, classes.fares))
    text += b"value %s %s\n" % (leg, fraction(classes.value(len(classes.products), classes.seats)))
    protections = [b"%d" % classes.protection(count) for count in range(1, len(classes.products))]
    return text + b" ".join([b"protect", leg] + protections) + b"\n"


# A made stream

BAD = [b"", b" ", b"book", b"cancel", b"leg", b"reoptimise", b"reoptimise 0", b"reoptimise 01",
       b"reoptimise 100", b"plan 1",
       b"reoptimise %s", b"PLAN", b"\r\r", b"book %s", b"book %s ", b"book %s 0", b"book %s 1000", b"book %s 01",
       b"book  %s 1", b"book %s  1", b" book %s 1", b"book %s 1 ", b"book %s 1 1", b"BOOK %s 1", b"Book %s 1",
       b"book %s +1",
       b"book %s -1", b"book %s 1.0", b"book %s one", b"book %s 18446744073709551617", b"book\t%s\t1", b"book %s\r 1",
       b"book %s\x00 1", b"book %s\xff 1", b"book %sABCDEFGHIJKL 1", b"books %s 1", b"book,%s,1", b"leg %s ",
       b"leg %s 1",
       b"LEG %s", b"cancel %s", b"cancel 00", b"cancel 07", b"cancel -1", b"cancel 1 1", b"cancel 1000000000000",
       b"cancel  1", b"\xef\xbb\xbfbook %s 1", b"# %s", b"%s", b"xxxxxxxxxxxxxxxxxxxxxxxxxxxxxxxxxxxxxxxxxxxxxxxxxx"]


def made_line(session, draw):
    """A line; `draw` is the source of chance, and the session knows which numbers are live."""
    products, legs = list(session.network.products), list(session.network.seats)
    kind = draw.randrange(100)
    if kind < 48:
        party = draw.choice([draw.randint(1, 4), draw.randint(1, 4), draw.randint(1, 30), draw.randint(1, 999)])
        return b"book %s %d" % (draw.choice(products), party)
    if kind < 52:
        return b"book %s %d" % (draw.choice(legs + [b"NONE", b"ABCDEFGHIJKL", b"-", b"0"]), draw.randint(1, 999))
    if kind < 70:
        live = [number for number, _, _ in session.book]
        return b"cancel %d" % (draw.choice(live) if live else 1)
    if kind < 78:
        dead = draw.choice([draw.randint(0, session.next), session.next, draw.randint(0, 999_999_999_999), 0])
        return b"cancel %d" % dead
    if kind < 88:
        return b"leg %s" % draw.choice(legs)
    if kind < 90:
        return b"leg %s" % draw.choice(products + [b"NONE"])
    if kind < 92:
        return b"reoptimise %d" % draw.choice([draw.randint(1, session.network.periods), draw.randint(1, 99)])
    if draw.randrange(10) == 0:
        return draw.choice([b"plan", b"hindsight"])
    line = draw.choice(BAD)
    return line % draw.choice(products) if b"%s" in line else line


def made_stream(session, seed, count):
    """Lines of all kinds; some end with a carriage return, and the last one isn't ended."""
    draw, lines = random.Random(seed), []
    while len(lines) < count:
        line = made_line(session, draw) + (b"\r" if draw.randrange(20) == 0 else b"")
        session.reply(line)
        lines.append(line)
    return b"\n".join(lines[:-1] + [b"book %s 1" % next(iter(session.network.products))])


USAGE = ("usage: nrm run MODE FILE, plan MODE FILE, check FILE CERT, print FILE, gen MODE NUMBER, cuts FILE LEG "
         "GROUPS, dp FILE LEG")
USAGE_OF_WHY = "usage: nrm_why MODE FILE NUMBER"


def is_name(word):
    return bool(NAME.fullmatch(word.encode()))


def is_groups(word):
    """Whether a word is a number of groups."""
    return bool(WHOLE.fullmatch(word.encode())) and len(word) <= 2 and 1 <= int(word) <= MOST_GROUPS


def is_line(word):
    """Whether a word is the number of a line."""
    return bool(WHOLE.fullmatch(word.encode())) and len(word) <= 10 and 1 <= int(word) <= LAST_LINE


def is_mode(word):
    return word in ("first", "bid", "davn")


def is_any(_):
    return True


def checked(path, certificate):
    """The texts of a check."""
    network = network_in(path)
    certificate = certificate_of(network, bytes_of(certificate, "refused certificate no file"))
    if wrong := verdict(Program.to_come(network), certificate):
        raise Ended(wrong, 1)
    return [b"optimal\n"]


COMMANDS = {  # by the first word: what each of the others must be, and the texts that are written
    "run": ([is_mode, is_any], lambda mode, path: replies(Session(network_in(path), mode))),
    "plan": ([is_mode, is_any], lambda mode, path: [Session(network_in(path), mode).plan()]),
    "check": ([is_any, is_any], checked),
    "print": ([is_any], lambda path: [canonical(network_in(path))]),
    "gen": ([is_mode, is_number], lambda mode, number: [summary(mode, int(number))]),
    "cuts": ([is_any, is_name, is_groups],
             lambda path, leg, groups: [cuts_text(network_in(path), leg.encode(), int(groups))]),
    "dp": ([is_any, is_name], lambda path, leg: [dp_text(network_in(path), leg.encode())]),
    "why": ([is_mode, is_any, is_line], accounts),
    "stream": ([is_mode, is_any, is_any, is_any],
               lambda mode, path, seed, count: [made_stream(Session(network_in(path), mode), int(seed), int(count))])}


def told(words):
    """The texts that are written, one after the other, where all is done."""
    verb, *rest = words or [""]
    wanted, texts = COMMANDS.get(verb, ([], None))
    if not texts or len(rest) != len(wanted) or not all(fits(word) for fits, word in zip(wanted, rest)):
        raise Ended(USAGE_OF_WHY if verb == "why" else USAGE, 2)
    return texts(*rest)


def words_given():
    """The words of the command line, or none where one is no text."""
    try:
        b"".join(word.encode() for word in sys.argv[1:])
    except UnicodeEncodeError:
        return []
    return sys.argv[1:]


def network_in(path):
    return network_of(bytes_of(path, "refused no file"))


def put(text):
    """Writes a text; where that fails, nothing more is written."""
    try:
        while text:
            text = text[os.write(1, text):]
    except OSError:
        sys.exit(5)


def main():
    if hasattr(sys, "set_int_max_str_digits"):
        sys.set_int_max_str_digits(0)  # a field may have more digits than Python reads of its own accord
    try:
        for text in told(words_given()):
            put(text)
    except Ended as ended:
        put(f"{ended.line}\n".encode() if ended.line else b"")
        sys.exit(ended.status)


if __name__ == "__main__":
    main()
