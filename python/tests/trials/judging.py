"""What must hold of a journal and of its copies, whatever happened: judged from their rows, the replies that clients
got, and `nrm run`. A journal is what its queries give, whichever database it is in."""
from __future__ import annotations

import bisect
import re
from collections import Counter, defaultdict
from dataclasses import dataclass, field
from pathlib import Path
from typing import Callable, Iterator, Mapping, NamedTuple, Sequence, Tuple

from nrm.network import Network
from nrm.program import Program

Row = Tuple[int, str, int, str, str]  # number, desk, sequence, line, reply
CLOCK = "CLOCK"  # the server's own desk
Journal = Callable[[str], Sequence[Tuple[object, ...]]]  # what a query of it gives
LOOKS = ("leg ", "ask ", "hindsight")
LEG = re.compile(r"leg (\S+) seats \d+ authorised \d+ sold (\d+) left \d+")
ASK = re.compile(r"ask (\S+) (\d+) (leg \S+|fare|most)")
HINDSIGHT = re.compile(r"hindsight \d+/\d+ revenue (\d+) withheld (\d+)")
ROWS = "SELECT name, number, desk, sequence, line, reply FROM line JOIN network USING (network) ORDER BY name, number"


@dataclass(frozen=True)
class Told:
    """A reply that a client got: when it asked and when it was told, under which number, to which line."""
    asked: float
    told: float
    sequence: int
    line: str
    reply: str


@dataclass(frozen=True)
class Heard:
    """What a desk of a network was told, and what it has sent by number."""
    network: str
    desk: str
    replies: list[Told] = field(default_factory=list)
    looks: list[Told] = field(default_factory=list)
    sent: dict[int, str] = field(default_factory=dict)


class Case(NamedTuple):
    """A network as it was opened: its name, mode and file."""
    name: str
    mode: str
    path: Path


class Copied(NamedTuple):
    """A copy of the journal, and when that began."""
    name: str
    journal: Journal
    began: float


def rows_by_network(journal: Journal) -> dict[str, list[Row]]:
    """The rows of each network."""
    rows: dict[str, list[Row]] = defaultdict(list)
    for name, *row in journal(ROWS):
        rows[str(name)].append(tuple(row))  # type: ignore[arg-type]
    return rows


def faults_of(journal: Journal, cases: Sequence[Case], heard: Sequence[Heard], program: Program) -> list[str]:
    """What doesn't hold of a journal."""
    rows = rows_by_network(journal)
    heads = {name: lines for name, lines in journal("SELECT name, lines FROM head JOIN network USING (network)")}
    files = {name: file for name, file in journal("SELECT name, file FROM network")}
    faults = [f"halted: {it}" for it in journal("SELECT name, halted FROM network WHERE halted IS NOT NULL")]
    for case in cases:
        if files[case.name] != case.path.read_bytes():
            faults.append(f"{case.name}: its file isn't the one that was opened")
        own = [it for it in heard if it.network == case.name]
        faults += judged(case, rows[case.name], heads[case.name], own, program)
    return faults


def faults_of_copies(journal: Journal, copies: Sequence[Copied], cases: Sequence[Case], heard: Sequence[Heard],
                     program: Program) -> list[str]:
    """What doesn't hold of copies: each is a whole journal, has the first lines of the other, and all that was answered
    before it was begun."""
    faults = []
    whole = rows_by_network(journal)
    for copy, of_copy, began in copies:
        if of_copy("PRAGMA integrity_check") != [("ok",)]:
            faults.append(f"{copy} is damaged")
            continue
        before = [Heard(it.network, it.desk, [told for told in it.replies if told.told < began], sent=it.sent)
                  for it in heard]
        faults += [f"{copy}: {it}" for it in faults_of(of_copy, cases, before, program)]
        for name, rows in rows_by_network(of_copy).items():
            if rows != whole[name][:len(rows)]:
                faults.append(f"{copy} hasn't the first {len(rows)} lines of {name}")
    return faults


def judged(case: Case, rows: list[Row], head: object, heard: Sequence[Heard], program: Program) -> Iterator[str]:
    """What doesn't hold of a network."""
    network = Network.read(str(case.path))
    yield from (f"{case.name}: {it}" for it in [
        *order(rows, head), *plans(rows), *replies(case, rows, program), *oversold(rows, network),
        *acknowledged(rows, heard), *unsent(rows, heard), *looks(case, rows, network, heard)])


def order(rows: list[Row], head: object) -> Iterator[str]:
    """The numbers have no gap, and each desk's rise."""
    if [it[0] for it in rows] != list(range(1, len(rows) + 1)) or head != len(rows):
        yield f"the numbers have gaps, or aren't the {head} of its head"
    last: dict[str, int] = {}
    for number, desk, sequence, _, _ in rows:
        if sequence <= last.get(desk, 0):
            yield f"line {number}: {desk} {sequence} after {last[desk]}"
        last[desk] = sequence


def plans(rows: list[Row]) -> Iterator[str]:
    """The server's own desk asks for each period once, and for none behind a later one."""
    last = 0
    for number, desk, _, line, _ in rows:
        if desk == CLOCK:
            period = int(line.split(" ")[1])
            if period <= last:
                yield f"line {number}: {CLOCK} asks for period {period} after {last}"
            last = period


def replies(case: Case, rows: list[Row], program: Program) -> Iterator[str]:
    """`nrm run` over the lines gives the replies."""
    stream = "".join(f"{it[3]}\n" for it in rows).encode()
    told = program.replies_of_a_line(case.mode, str(case.path), stream)
    for row, reply in zip(rows, told):
        if row[4].encode() != reply:
            yield f"line {row[0]}, {row[3]!r}, has the reply {row[4]!r}, and `nrm run` answers {reply!r}"
            return
    if len(told) != len(rows):
        yield f"{len(told)} replies by `nrm run`, and {len(rows)} lines"


def moments(rows: list[Row], network: Network) -> Iterator[tuple[Counter[str], int]]:
    """The seats sold of each leg, and the revenue, before the first line and after each, counted anew."""
    sold: Counter[str] = Counter()
    revenue = 0
    standing: dict[str, tuple[tuple[str, ...], int, int]] = {}
    yield sold, revenue
    for _, _, _, line, reply in rows:
        words, answer = line.split(" "), reply.split(" ")
        if answer[0] == "ok":
            product, party = network.products[words[1]], int(words[2])
            standing[answer[1]] = product.legs, party, party * product.fare
            sold.update({leg: party for leg in product.legs})
            revenue += party * product.fare
        elif answer[0] == "cancelled":
            legs, party, amount = standing.pop(answer[1], ((), 0, 0))
            sold.subtract({leg: party for leg in legs})
            revenue -= amount
        yield sold, revenue


def oversold(rows: list[Row], network: Network) -> Iterator[str]:
    """No leg has more seats sold than are authorised."""
    for number, (sold, _) in enumerate(moments(rows, network)):
        for leg, count in sold.items():
            if count > network.legs[leg].authorised:
                yield f"line {number}: {leg} is oversold"


def acknowledged(rows: list[Row], heard: Sequence[Heard]) -> Iterator[str]:
    """Each reply that a client got is in the journal, under its number."""
    stored = {(desk, sequence): (line, reply) for _, desk, sequence, line, reply in rows}
    for desk in heard:
        for it in desk.replies:
            found = stored.get((desk.desk, it.sequence))
            if found != (it.line, it.reply):
                yield f"{desk.desk} {it.sequence} was told {it.reply!r} to {it.line!r}, and the journal has {found}"


def unsent(rows: list[Row], heard: Sequence[Heard]) -> Iterator[str]:
    """Each line but the server's own was sent by its desk, under its number."""
    sent = {(it.desk, sequence): line for it in heard for sequence, line in it.sent.items()}
    for number, desk, sequence, line, _ in rows:
        if desk != CLOCK and sent.get((desk, sequence)) != line:
            yield f"line {number}: {desk} {sequence} didn't send {line!r}"


def looks(case: Case, rows: list[Row], network: Network, heard: Sequence[Heard]) -> Iterator[str]:
    """Each look is true of a moment after all that was answered before it was asked, and before all that was asked
    after it was answered."""
    if not any(it.looks for it in heard):
        return
    whole = [(dict(sold), revenue) for sold, revenue in moments(rows, network)]
    number_of = {(desk, sequence): number for number, desk, sequence, _, _ in rows}
    spans = [(it.asked, it.told, number_of.get((desk.desk, it.sequence), 0)) for desk in heard for it in desk.replies]
    ends, best = rising([(told, number) for _, told, number in spans])
    starts, least = rising([(-asked, -number) for asked, _, number in spans if number])
    for desk in heard:
        own = [(it.sequence, number_of.get((desk.desk, it.sequence), 0)) for it in desk.replies]
        for look in desk.looks:
            at = bisect.bisect_left(ends, look.asked)
            low = best[at - 1] if at else 0
            at = bisect.bisect_left(starts, -look.told)
            high = -least[at - 1] - 1 if at else len(rows)
            at = bisect.bisect_left(own, (look.sequence, 0))  # its own lines before, which it may have been asked with
            low = max(low, own[at - 1][1]) if at else low
            if not any(is_true(look.reply, case.mode, network, *whole[it]) for it in range(low, high + 1)):
                yield f"{desk.desk} was told {look.reply!r}, true of no moment from line {low} to {high}"


def is_true(reply: str, mode: str, network: Network, sold: Mapping[str, int], revenue: int) -> bool:
    """Whether a look tells what is sold; of `ask` no more is known here than what is left, but where a leg bounds
    it."""
    if found := LEG.fullmatch(reply):
        return int(found[2]) == sold.get(found[1], 0)
    if found := HINDSIGHT.fullmatch(reply):
        return int(found[1]) + int(found[2]) == revenue
    asked = ASK.fullmatch(reply)
    if not asked:
        return False
    left = min(network.legs[it].authorised - sold.get(it, 0) for it in network.products[asked[1]].legs)
    is_exact = asked[3].startswith("leg") and mode != "davn"
    return int(asked[2]) == left if is_exact else int(asked[2]) <= left


def rising(pairs: list[tuple[float, int]]) -> tuple[list[float], list[int]]:
    """The first parts in their order, and of the second the greatest so far at each."""
    firsts: list[float] = []
    greatest: list[int] = []
    for first, second in sorted(pairs):
        firsts.append(first)
        greatest.append(max(second, greatest[-1]) if greatest else second)
    return firsts, greatest
