"""Audits a certificate, or a plan with its nests, against a network. It solves nothing: it reads files and compares.

    nrm-tools audit NETWORK CERTIFICATE [--opened OPENED]

The files are those of docs/network-file.md and docs/certificate.md, and the network file must be one that `nrm print`
accepts. For each condition the output says whether it holds; then it has what the allocation gains and what the prices
cost, in a history on average. A leg can give its authorised seats, which in a file of version 1 are its seats. The last
line and the status are those of `nrm check`: `optimal` and 0, the first condition that fails and 1, or why a file is
refused and 3. It uses nothing of the program or of its tools. All numbers are exact fractions, and all are means of a
history, where the program counts in whole numbers over all histories.

CERTIFICATE may be what `nrm plan davn` writes, or the reply to the line `plan` under davn: if it has a line `nest` or
`protect`, which `nrm check` refuses, it must have one for each leg and product, and conditions 8 to 10 are checked too.
They are computed again, as docs/nesting.md says, from the network and the bid prices in the file. Of each difference
the output says what is printed and what it should be. The plan of a line `reoptimise` is that of a network with the
seats left as the authorised ones. For it OPENED is the network that the session was opened with: a leg protects no more
than its authorised seats in OPENED.

This file shares nothing with the other tools, on purpose: so its findings don't depend on what they read, and it can be
read, copied and run by itself, as `python3 audit.py NETWORK CERTIFICATE`.
"""
from __future__ import annotations

import argparse
import csv
import os
import re
import sys
from collections import Counter
from dataclasses import dataclass
from fractions import Fraction
from math import lcm
from typing import Sequence

LONGEST_CERTIFICATE = 65_536
LONGEST_PLAN = 4 * LONGEST_CERTIFICATE  # with nests
GREATEST = 2**63 - 1  # of a number as it is written in a certificate
LIMIT = 2**48  # no number of a certificate over its common denominators reaches it
GREATEST_OF_NESTS = 2**127 - 1  # an adjusted fare may be over the denominators of several prices
MOST_DIGITS = 19  # of a number in the network file
WHOLE = rb"(?:0|[1-9][0-9]*)"
FRACTION = rb"%b/[1-9][0-9]*" % WHOLE
FORMS = [re.compile(it) for it in (  # of a line: what it is of, and its numbers
    rb"(value|(?:product|leg) [^ ]+) (%b)" % FRACTION, rb"(nest [^ ]+ [^ ]+) (-?%b %b)" % (FRACTION, WHOLE),
    rb"(protect [^ ]+)((?: %b)*)" % WHOLE)]
OF_NESTS = re.compile(rb"^(?:nest|protect) ", re.MULTILINE)


class Refused(Exception):
    """The line that says why a file is refused."""


def number_of(field: str) -> int:
    """The number of a field; a ValueError where it is none, or longer than any may be."""
    if len(field) > MOST_DIGITS:
        raise ValueError
    return int(field)


class Network:
    """Seats, authorised seats and thresholds of each leg; fare, legs, refund percentage and demand of each product: how
    many seats are asked for in each history in which there are any, in all periods together."""

    def __init__(self, path: str) -> None:
        self.histories = self.periods = self.version = 0
        self.seats: dict[str, int] = {}
        self.authorised: dict[str, int] = {}
        self.thresholds: dict[str, list[int]] = {}
        self.fare: dict[str, int] = {}
        self.legs: dict[str, list[str]] = {}
        self.refund: dict[str, int] = {}
        self.demand: dict[str, Counter[int]] = {}
        with open(path, encoding="utf-8-sig", newline="") as file:  # a mark at the start is skipped, line ends are kept
            try:
                for row in filter(None, csv.reader(file)):  # a blank line is an empty row, and counts for nothing
                    self.take(row[0], row[1], row[2:])
                if not (self.histories and self.seats and self.fare
                        and set().union(*self.legs.values()) <= self.seats.keys()):
                    raise ValueError
            except (ValueError, TypeError, LookupError, csv.Error):
                raise Refused("refused: `nrm print` says why")

    def on(self, leg: str) -> list[str]:
        """The products on a leg."""
        return [it for it, legs in self.legs.items() if leg in legs]

    def take(self, kind: str, name: str, rest: list[str]) -> None:
        """Takes a row: its kind, the field behind it and the rest."""
        if kind == "periods":
            self.histories, self.periods, self.version = number_of(name), number_of(rest[0]), len(rest)
        elif kind == "leg":
            seats, *thresholds = map(number_of, rest)
            self.seats[name] = seats
            self.authorised[name] = thresholds.pop(0) if self.version == 2 else seats
            self.thresholds[name] = thresholds
        elif kind == "product":
            self.fare[name], self.legs[name] = number_of(rest[0]), rest[1:]
            self.refund[name], self.demand[name] = 100, Counter()
        elif kind == "refund" and self.version == 2 and name in self.fare:
            [self.refund[name]] = map(number_of, rest)
        elif kind == "demand":
            history, *seats_asked = map(number_of, rest)
            if any(seats_asked):
                self.demand[name][history] = sum(seats_asked)
        else:
            raise ValueError


def bytes_of(path: str) -> bytes:
    """The bytes of a certificate file."""
    with open(path, "rb") as file:
        data = file.read(LONGEST_PLAN + 1)
    if len(data) > (LONGEST_PLAN if OF_NESTS.search(data) else LONGEST_CERTIFICATE):
        raise Refused("refused certificate long")
    return data


def is_large(digits: bytes, greatest: int) -> bool:
    """Whether a number is beyond the greatest that it may be."""
    return len(digits) > len(str(greatest)) or int(digits) > greatest


@dataclass(frozen=True)
class Nest:
    """Of each product on a leg its adjusted fare and its bucket, and the leg's protections: the seats that are
    protected for bucket 1, for buckets 1 and 2, and so on to the last but one."""
    fares: dict[str, Fraction]
    buckets: dict[str, int]
    protections: list[int]


class Certificate:
    """The value, the seats of each product, the price of each leg, and, if there is a line of them, the nest of each
    leg, all as they are written."""

    def __init__(self, path: str, network: Network) -> None:
        data, given = bytes_of(path), dict[str, list[Fraction]]()
        wanted = {"value": 1, **{f"product {it}": 1 for it in network.fare}, **{f"leg {it}": 1 for it in network.seats}}
        if OF_NESTS.search(data):
            wanted |= {f"nest {leg} {it}": 2 for leg in network.seats for it in network.on(leg)}
            wanted |= {f"protect {leg}": len(thresholds) for leg, thresholds in network.thresholds.items()}
        lines = data.split(b"\n")
        for number, line in enumerate(lines if lines[-1] else lines[:-1], 1):
            found = next(filter(None, (it.fullmatch(line.removesuffix(b"\r")) for it in FORMS)), None)
            what, numbers = (found[1].decode("latin-1"), found[2].split()) if found else ("", [])
            if what not in wanted or what in given or len(numbers) != wanted[what]:
                raise Refused(f"refused certificate line {number}")
            greatest = GREATEST_OF_NESTS if OF_NESTS.match(line) else GREATEST
            if any(is_large(it, greatest) for it in re.findall(rb"[0-9]+", b" ".join(numbers))):
                raise Refused(f"refused certificate line {number} large")
            given[what] = [Fraction(it.decode()) for it in numbers]
        for what in wanted:
            if what not in given:
                raise Refused(f"refused certificate no {what}")
        [self.value] = given["value"]
        self.seats = {it: given[f"product {it}"][0] for it in network.fare}
        self.price = {it: given[f"leg {it}"][0] for it in network.seats}
        self.nests = {leg: Nest({it: given[f"nest {leg} {it}"][0] for it in network.on(leg)},
                                {it: int(given[f"nest {leg} {it}"][1]) for it in network.on(leg)},
                                [int(it) for it in given[f"protect {leg}"]])
                      for leg in network.seats if OF_NESTS.search(data)}
        self.refuse_too_fine(network.histories)

    def refuse_too_fine(self, histories: int) -> None:
        """Sees that the numbers have common denominators that the program takes."""
        totals = [histories * it for it in self.seats.values()]
        for numbers in (totals, [histories * self.value, *self.price.values()]):
            common = lcm(*[it.denominator for it in numbers])
            if max(Fraction(common), *[it * common for it in numbers]) >= LIMIT:
                raise Refused("refused certificate too fine")


def mean_fare(network: Network, fares: dict[str, Fraction]) -> Fraction | None:
    """The mean of some adjusted fares, each as often as there is demand for its product; None if there is no demand."""
    demand = {it: sum(network.demand[it].values()) for it in fares}
    total = sum(demand.values())
    return sum((fare * demand[it] for it, fare in fares.items()), Fraction(0)) / total if total else None


def seats_enough(network: Network, fares: dict[str, Fraction], next_fare: Fraction, most: int) -> int:
    """The least number of seats, at most so many, that is enough for some products before those of the next bucket: the
    histories in which more are asked for, times their mean fare, are at most all histories times the next fare."""
    mean = mean_fare(network, fares)
    if mean is None:
        return 0
    asked = sum((network.demand[it] for it in fares), Counter[int]()).values()
    return next((seats for seats in range(most)
                 if sum(it > seats for it in asked) * mean <= network.histories * next_fare), most)


def nest_of(network: Network, leg: str, price: dict[str, Fraction], most: int) -> Nest:
    """What the nest of a leg should be by the prices; at most so many seats are protected."""
    thresholds = network.thresholds[leg]
    fares = {it: network.fare[it] - sum((price[other] for other in network.legs[it] if other != leg), Fraction(0))
             for it in network.on(leg)}
    buckets = {it: 1 + sum(threshold > fare for threshold in thresholds) for it, fare in fares.items()}
    protections = [0]
    for bucket in range(1, len(thresholds) + 1):
        above = {it: fare for it, fare in fares.items() if buckets[it] <= bucket}
        next_fare = mean_fare(network, {it: fare for it, fare in fares.items() if buckets[it] == bucket + 1})
        if bucket == len(thresholds):  # the next is the last: its fare is 0 without demand, and never below 0
            next_fare = max(next_fare or Fraction(0), Fraction(0))
        elif next_fare is None:  # without demand it is the threshold of that bucket
            next_fare = Fraction(thresholds[bucket])
        protections.append(max(protections[-1], seats_enough(network, above, next_fare, most)))
    return Nest(fares, buckets, protections[1:])


def written(number: Fraction) -> str:
    """A fraction as the program writes it."""
    return f"{number.numerator}/{number.denominator}"


def of_nests(network: Network, certificate: Certificate, most: dict[str, int]) -> dict[str, list[str]]:
    """The conditions of nests, each with what fails it: what is printed of it, and what it should be."""
    failing: dict[str, list[str]] = {
        "8 each adjusted fare is the fare less the prices of the other legs": [],
        "9 each bucket is that of the adjusted fare": [],
        "10 each protection is that of the adjusted fares, the demand and the seats": []}
    fares, buckets, protections = failing.values()
    for leg, printed in certificate.nests.items():
        right = nest_of(network, leg, certificate.price, most[leg])
        fares += [f"nest {leg} {it}: printed {written(printed.fares[it])}, should be {written(fare)}"
                  for it, fare in right.fares.items() if printed.fares[it] != fare]
        buckets += [f"nest {leg} {it}: printed bucket {printed.buckets[it]}, should be {bucket}"
                    for it, bucket in right.buckets.items() if printed.buckets[it] != bucket]
        protections += [f"protect {leg}: printed {seats} for buckets 1 to {bucket}, should be {enough}"
                        for bucket, (seats, enough) in enumerate(zip(printed.protections, right.protections), 1)
                        if seats != enough]
    return failing


def audit(network: Network, certificate: Certificate, most: dict[str, int]) -> str:
    """Tells each condition, and gives the last line; of each leg at most so many seats are protected."""
    bound = {it: Fraction(sum(demand.values()), network.histories) for it, demand in network.demand.items()}
    worth = {it: sum(certificate.price[leg] for leg in legs) for it, legs in network.legs.items()}
    seats, price, fare, authorised = certificate.seats, certificate.price, network.fare, network.authorised
    sold = {leg: sum(seats[it] for it in network.on(leg)) for leg in network.seats}
    gain = sum((fare[it] * seats[it] for it in seats), Fraction(0))
    cost = sum((authorised[leg] * price[leg] for leg in price), Fraction(0))
    cost += sum(bound[it] * max(fare[it] - worth[it], Fraction(0)) for it in bound)
    conditions = {
        "2 no product has more seats than its demand":
            [f"product {it}" for it in seats if seats[it] > bound[it]],
        "3 no leg gives more seats than are authorised":
            [f"leg {leg}" for leg in sold if sold[leg] > authorised[leg]],
        "4 each leg with a price is full":
            [f"leg {leg}" for leg in price if price[leg] > 0 and sold[leg] < authorised[leg]],
        "5 each product that is worth more than its legs has all its demand":
            [f"product {it}" for it in seats if seats[it] < bound[it] and fare[it] > worth[it]],
        "6 each product that has seats is worth its legs":
            [f"product {it}" for it in seats if seats[it] > 0 and fare[it] < worth[it]],
        "7 the value is the cost":
            ["value"] if certificate.value != cost else [],
    }
    for text, failing in conditions.items():
        print(f"{text}: {f'fails at {failing[0]}' if failing else 'holds'}")
    for text, failing in (of_nests(network, certificate, most) if certificate.nests else {}).items():
        print(f"{text}: {'fails' if failing else 'holds'}", *failing, sep="\n    ")
        conditions[text] = [it.partition(":")[0] for it in failing]
    print(f"gain {written(gain)}\ncost {written(cost)}")
    return next((f"wrong {failing[0]}" for failing in conditions.values() if failing), "optimal")


def ended(network_path: str, certificate_path: str, opened_path: str | None) -> tuple[str, int]:
    """The last line and the status, for the paths of the files."""
    missing = "refused no file"
    try:
        network = Network(network_path)
        opened = Network(opened_path) if opened_path else network
        same = "histories", "thresholds", "fare", "legs"
        if any(vars(opened)[it] != vars(network)[it] for it in same):
            raise Refused("refused: OPENED is another network")
        missing = "refused certificate no file"
        last = audit(network, Certificate(certificate_path, network), opened.authorised)
        return last, 0 if last == "optimal" else 1
    except FileNotFoundError:
        return missing, 3
    except OSError:
        return "file fault", 9
    except Refused as refusal:
        return str(refusal), 3


def run(words: Sequence[str]) -> int:
    """Tells the audit of the files that the words name, and gives the status."""
    usage = "nrm-tools audit NETWORK CERTIFICATE [--opened OPENED]"
    parser = argparse.ArgumentParser("nrm-tools audit", usage, __doc__,
                                     formatter_class=argparse.RawDescriptionHelpFormatter)
    parser.add_argument("network")
    parser.add_argument("certificate")
    parser.add_argument("--opened")
    given = parser.parse_args(words)
    try:
        last, status = ended(given.network, given.certificate, given.opened)
        print(last, flush=True)
    except OSError as fault:
        os.dup2(os.open(os.devnull, os.O_WRONLY), 1)  # nothing more is written, lest it be told once again
        if isinstance(fault, BrokenPipeError):
            return 141  # as where a signal ends who writes when nobody reads
        print(f"nrm-tools audit: {fault.strerror}", file=sys.stderr)
        return 5
    except KeyboardInterrupt:
        return 130
    return status


if __name__ == "__main__":
    sys.exit(run(sys.argv[1:]))
