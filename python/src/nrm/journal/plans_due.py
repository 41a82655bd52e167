"""Where networks stand by their times: the period that has begun, and the one that a plan was asked for.

Each query is answered by indexes, however many lines a network has.
"""
from __future__ import annotations

from dataclasses import dataclass

from nrm.journal.stores import LineConditions, Tables

LAST = "FROM line {of.by_number} WHERE line.network = departure.network AND {of.asks_for_a_plan} " \
       "ORDER BY number DESC LIMIT 1"
STANDINGS = """SELECT departure.network, name, lines,
    (SELECT period FROM period WHERE period.network = departure.network AND begins <= :now
        ORDER BY period DESC LIMIT 1),
    (SELECT begins FROM period WHERE period.network = departure.network AND begins > :now ORDER BY period LIMIT 1),
    (SELECT {of.period} FROM line {of.by_period} WHERE line.network = departure.network AND {of.asks_for_a_plan}
        ORDER BY {of.period} DESC LIMIT 1),
    CASE WHEN :every > 0 THEN coalesce((SELECT at {last}), begun) END,
    CASE WHEN :every > 0 THEN (SELECT number {last}) END
    FROM departure {of.join} network USING (network) {of.join} head USING (network)
    WHERE departs > :now AND mode <> 'first'"""


@dataclass(frozen=True)
class Standing:
    """Where a network of a plan stands that hasn't departed.

    begun    the latest period that has begun
    next_at  when the next one begins
    planned  the latest period for which a plan was asked for, by whomever
    last_at  when the last such line was written, or if there is none the network was opened; and its number, or 0
    """
    network: int
    name: str
    lines: int
    begun: int
    next_at: int | None
    planned: int
    last_at: int
    last: int

    @property
    def period(self) -> int:
        """The period whose plan is wanted."""
        return max(self.begun, self.planned)

    def due_at(self, every: int) -> int | None:
        """When a plan is to be made next: at once for a period that none was made for; else as the next one begins, or
        so many milliseconds behind the last, if lines were written since and that isn't 0."""
        if self.begun > self.planned:
            return 0
        again = [self.last_at + every] if every and self.lines > self.last else []
        return min([*again, *([self.next_at] if self.next_at is not None else [])], default=None)


def standings_by(lines: LineConditions) -> str:
    """The query for where networks stand, as lines are told apart."""
    return STANDINGS.format(of=lines, last=LAST.format(of=lines))


def standings(connection: Tables, now: int, every: int, network: int | None = None) -> list[Standing]:
    """Where each network stands that has times, or one of them."""
    one = "" if network is None else " AND departure.network = :network"
    rows = connection.execute(standings_by(connection.lines) + one, {"now": now, "every": every, "network": network})
    return [Standing(number, name, lines, begun or 1, next_at, planned or 1, last_at or 0, last or 0)
            for number, name, lines, begun, next_at, planned, last_at, last in rows]


def missed(connection: Tables, standing: Standing, now: int) -> list[int]:
    """The periods between that of the last plan and the latest that have begun and are left out."""
    rows = connection.execute("SELECT period FROM period WHERE network = ? AND period > ? AND period < ? AND "
                              "begins <= ? ORDER BY period", [standing.network, standing.planned, standing.begun, now])
    return [period for period, in rows]
