"""The course of one season in the three modes: a stream with looks put in, what each mode answers, tables and page.

How the replies to the lines put in are told apart is said by the manual of the command `season`.
"""
from __future__ import annotations

import re
from dataclasses import dataclass, field
from fractions import Fraction
from typing import Iterator, Mapping, Sequence

from nrm import Stop, bytes_in
from nrm.legs.joined_legs import said_of_joined
from nrm.network import Network, whole
from nrm.pages.heads import Made
from nrm.pages.page import Page
from nrm.pages.tables import Cell, Table, with_text
from nrm.program import Program
from nrm.replies import MODES, Cancelled, Hindsight, Leg, NoAnswer, NoFare, NoLeg, Plan, Sold, answer_of
from nrm.seasons.results import per_cent

UNFIT = "the replies don't fit the lines"


@dataclass(frozen=True)
class SessionLine:
    """A line that the program is given, the number of the stream's line that it is or follows, and if it was put in."""
    number: int
    line: str
    is_put_in: bool


class StreamWithLooks:
    """The lines of a stream, and the lines with what is put in."""

    def __init__(self, data: bytes, network: Network) -> None:
        lines = data.split(b"\n")
        self.lines = [it.removesuffix(b"\r").decode("latin-1") for it in (lines if lines[-1] else lines[:-1])]
        looks = ["plan", *[f"leg {leg}" for leg in network.legs], "hindsight"]
        self.points, self.asked = [(0, "opening")], [SessionLine(0, look, True) for look in looks]
        for number, line in enumerate(self.lines, 1):
            self.asked.append(SessionLine(number, line, False))
            found = re.fullmatch(r"reoptimise ([1-9][0-9]?)", line)
            if found and int(found[1]) <= network.periods or number == len(self.lines):
                self.points.append((number, f"period {found[1]}" if found else "end"))
                self.asked += [SessionLine(number, look, True) for look in looks]

    def data(self) -> bytes:
        """The stream with the lines put in."""
        return b"".join(it.line.encode("latin-1") + b"\n" for it in self.asked)

    def names(self) -> list[str]:
        """The names of the points."""
        return [name for _, name in self.points]


@dataclass
class Point:
    """What is told at one place of a season, behind a line of the stream: the plan in force, the seats sold, and the
    bound with the revenue and what was withheld, or None of these three where the bound's program is too large."""
    number: int
    plan: Plan
    sold: dict[str, int] = field(default_factory=dict)
    bound: Fraction | None = None
    revenue: int | None = None
    withheld: int | None = None


class ModeCourse:
    """What one mode answers: the points, the seats sold on one leg behind each line, and what was asked and refused."""

    def __init__(self, mode: str, network: Network, stream: StreamWithLooks, leg: str, told: Sequence[bytes]) -> None:
        self.mode, self.network, self.leg = mode, network, leg
        self.points: list[Point] = []
        self.bookings: dict[int, tuple[str, int]] = {}
        self.asked, self.refused = dict.fromkeys(network.products, 0), dict.fromkeys(network.products, 0)
        self.sold, self.course = dict.fromkeys(network.legs, 0), [0]
        if len(told) != len(stream.asked):
            raise Stop(f"there are {len(told)} replies to {len(stream.asked)} lines")
        try:
            for asked, reply in zip(stream.asked, told):
                (self.look if asked.is_put_in else self.follow)(asked, reply)
        except (LookupError, ValueError):
            raise Stop(UNFIT)

    def look(self, asked: SessionLine, reply: bytes) -> None:
        """Takes the reply to a line that was put in."""
        answer = answer_of(reply)
        if asked.line == "plan" and isinstance(answer, Plan):
            self.points.append(Point(asked.number, answer))
        elif asked.line == "hindsight":
            point = self.points[-1]
            if isinstance(answer, Hindsight):
                point.bound, point.revenue, point.withheld = answer.bound, answer.revenue, answer.withheld
            if point.sold != self.sold:
                raise NoAnswer(UNFIT)
        elif isinstance(answer, Leg):
            self.points[-1].sold[answer.name] = answer.sold
        else:
            raise NoAnswer(UNFIT)

    def follow(self, asked: SessionLine, reply: bytes) -> None:
        """Counts a line of the stream and its reply."""
        verb, *words = asked.line.split(" ")
        if verb in ("book", "cancel") and reply not in (b"bad\n", b"bad"):
            self.count(words, answer_of(reply))
        self.course.append(self.sold[self.leg])

    def count(self, words: Sequence[str], answer: object) -> None:
        """Counts the answer to a request or a cancellation."""
        if isinstance(answer, (Sold, NoLeg, NoFare)):
            self.asked[words[0]] += 1
            self.refused[words[0]] += not isinstance(answer, Sold)
        if isinstance(answer, Sold):
            self.bookings[answer.number] = words[0], whole(words[1])
            self.sell(words[0], whole(words[1]))
        elif isinstance(answer, Cancelled):
            product, party = self.bookings.pop(answer.number)
            self.sell(product, -party)

    def sell(self, product: str, party: int) -> None:
        """Counts seats of a product on its legs."""
        for leg in self.network.products[product].legs:
            self.sold[leg] += party


@dataclass(frozen=True)
class Season:
    """A season of a network: its stream, the leg whose seats are looked at, and its course in each mode."""
    network: Network
    stream: StreamWithLooks
    leg: str
    courses: list[ModeCourse]
    texts: Mapping[str, str] = field(default_factory=dict)  # that names stand for

    @classmethod
    def played(cls, path: str, stream_path: str, leg: str | None, program: Program,
               texts: Mapping[str, str] | None = None) -> Season:
        """The season of the files at two paths, on one leg, or on the one of which most seats were asked for."""
        network = Network.read(path)
        stream = StreamWithLooks(bytes_in(stream_path), network)
        leg = leg or leg_most_asked_for(network, stream)
        if leg not in network.legs:
            raise Stop(f"there is no leg {leg}")
        data = stream.data()
        courses = [ModeCourse(mode, network, stream, leg, program.replies(mode, path, data)) for mode in MODES]
        return cls(network, stream, leg, courses, texts or {})


def leg_most_asked_for(network: Network, stream: StreamWithLooks) -> str:
    """The leg of which most seats were asked for, sold or not."""
    seats = seats_asked_for(network, stream)
    return max(seats, key=lambda it: seats[it])


def seats_asked_for(network: Network, stream: StreamWithLooks) -> dict[str, int]:
    """The seats of each leg that were asked for, sold or not."""
    seats = dict.fromkeys(network.legs, 0)
    for line in stream.lines:
        found = re.fullmatch(r"book (\S+) ([1-9][0-9]{0,2})", line)
        product = network.products.get(found[1]) if found else None
        for leg in product.legs if product else ():
            seats[leg] += int(found[2]) if found else 0
    return seats


# Tables


def tables(season: Season, decimal: bool = False) -> Iterator[Table]:
    """The tables of a season."""
    courses, names, network = season.courses, season.stream.names(), season.network
    points = list(zip(names, *[it.points for it in courses]))  # a row of them for each name
    revenues: list[list[Cell]] = [[name, *[it.revenue for it in some], some[0].bound] for name, *some in points]
    yield Table("Revenue of the bookings that stand, and the bound of hindsight, in currency units",
                ["", *MODES, "bound"], revenues, decimal)
    if min(it.refund for it in network.products.values()) < 100:
        withheld: list[list[Cell]] = [[name, *[it.withheld for it in some]] for name, *some in points]
        yield Table("Withheld of the bookings that were cancelled, in currency units", ["", *MODES], withheld, decimal)
    for it in courses[1:]:
        prices: list[list[Cell]] = [[leg, *[point.plan.prices[leg] for point in it.points]] for leg in network.legs]
        yield Table(f"Bid prices under {it.mode}, in currency units", ["leg", *names], prices, decimal)
    for it in courses:
        yield seats_table(season, it, decimal)
    requests: list[list[Cell]] = [[name, asked, *[it.refused[name] for it in courses]]
                                  for name, asked in courses[0].asked.items() if asked]
    yield Table("Requests for each product, and how many of them were refused",
                ["product", "requests", *MODES], requests, decimal)


def seats_table(season: Season, course: ModeCourse, decimal: bool) -> Table:
    """The seats of the leg that are sold, left and protected in a mode."""
    leg = season.network.legs[season.leg]
    authorised = "" if leg.authorised == leg.seats else f", {leg.seats_in_words()},"
    rows: list[list[Cell]] = [
        [name, point.sold[leg.name], leg.authorised - point.sold[leg.name], *point.plan.protections.get(leg.name, ())]
        for name, point in zip(season.stream.names(), course.points)]
    levels = [f"for 1 to {b}" if b > 1 else "for 1" for b in range(1, len(rows[0]) - 2)]
    return Table(f"Seats of {with_text(leg.name, season.texts)}{authorised} under {course.mode}: sold, "
                 f"left{', and protected for buckets' if levels else ''}",
                 ["", "sold", "left", *levels], rows, decimal)


# The verdict and the page


def verdict(season: Season) -> str:
    """What the season says first, and of a network whose joined legs make it one of another train."""
    wanted = [seats_asked_for(season.network, season.stream)]
    return of_modes(season) + said_of_joined(season.network, season.texts, wanted, "season")


def of_modes(season: Season) -> str:
    """What each mode earns, and its share of the bound, the most first."""
    ends = [(it.mode, it.points[-1]) for it in season.courses]
    if any(point.revenue is None or point.bound is None for _, point in ends):
        return ("The bound's linear program is too large for this season, so neither it nor revenues are shown. One "
                "season says little of others.")
    ranked = sorted(((point.revenue or 0, mode, point.bound or 0) for mode, point in ends), key=lambda it: -it[0])
    (most, best, bound), *others = ranked
    share = f", {per_cent(most, float(bound))} of the bound" if bound else ""
    texts = [f"{mode} {revenue:,}{f', {per_cent(revenue, float(of))}' if of else ''}" for revenue, mode, of in others]
    return (f"{best} earns {most:,} in this season{share}; {'; '.join(texts)}. One season says little of others: "
            "`nrm-tools simulate` plays many.")


def abouts(season: Season) -> dict[str, tuple[str, str]]:
    """What each picture shows, in words, for those who can't see it."""
    courses, leg = season.courses, with_text(season.leg, season.texts)
    sold = ", ".join(f"{it.mode} {it.course[-1]}" for it in courses)
    last = ", ".join(f"{it.mode} {it.points[-1].revenue:,}" for it in courses if it.points[-1].revenue is not None)
    refused = ", ".join(f"{it.mode} {sum(it.refused.values()):,}" for it in courses)
    return {
        "bid-prices": ("Bid prices", "The bid price of each leg over the season, under bid and under davn; the tables "
                       "have each number."),
        "seats": (f"The seats of {leg}", "In each mode the seats sold, those left, and those protected by bucket, "
                  f"after each line. Sold at the end: {sold}."),
        "revenue": ("Revenue", f"The revenue of each mode beside the bound of hindsight. At the end: {last}."),
        "refused": ("Refusals", "The share of the requests for each product that was refused. In all were refused: "
                    f"{refused}, of {sum(courses[0].asked.values()):,}.")}


def page(season: Season, made_of: Made, told: Sequence[Table], left_out: Sequence[str],
         pictures: Mapping[str, str]) -> str:
    """The page of a season, with what it was made of, its pictures if there are some, the texts of SVG files by their
    names, its tables, and which tables are left out."""
    made = Page("A season in three modes", verdict(season), made_of)
    if pictures:
        made.heading("Pictures")
    for name, svg in pictures.items():
        made.picture(svg, *abouts(season)[name], is_large=True)
    made.heading("Tables")
    made.text("Each point of the season comes after a line of the stream: "
              + ", ".join(f"{name} {number:,}" for number, name in season.stream.points) + ".")
    for text in left_out:
        made.text(text)
    for table in told:
        made.table(table)
    return made.html()
