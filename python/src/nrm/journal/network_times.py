"""The times of a network: when its periods begin and when it departs, as they are written, kept and told."""
from __future__ import annotations

import datetime
import re
from dataclasses import dataclass
from typing import Iterator, Sequence

from nrm import Stop
from nrm.journal.stores import Tables
from nrm.network import rows_of, whole

WRITTEN = re.compile(r"([0-9]{4}-[0-9]{2}-[0-9]{2}T[0-9]{2}:[0-9]{2})(:[0-9]{2})?(Z|[+-][0-9]{2}:[0-9]{2})?")
BEGINS = re.compile(r"([1-9][0-9]?)=(.*)", re.DOTALL)
START = datetime.datetime(1970, 1, 1, tzinfo=datetime.timezone.utc)
MILLISECOND = datetime.timedelta(milliseconds=1)
MOST = 253_402_300_800_000  # the year 10,000 begins
EXAMPLE = "2026-12-31T10:00+01:00, or 2026-12-31T09:00Z"


# As they are written and told


@dataclass(frozen=True)
class Times:
    """When a network departs, and of some of its periods, from the second on, when each begins: they rise, and lie
    before that. In milliseconds since 1970 began."""
    departs: int
    begins: tuple[tuple[int, int], ...] = ()


def moment_of(text: str) -> int:
    """The milliseconds since 1970 began of a time with its offset; a Stop for another text."""
    found = WRITTEN.fullmatch(text)
    if not found:
        raise Stop(f"{text!r} isn't a time such as {EXAMPLE}", 2)
    minute, second, offset = found.groups()
    if not offset:
        raise Stop(f"{text!r} has no offset from UTC, such as those of {EXAMPLE}", 2)
    try:
        read = datetime.datetime.fromisoformat(minute + (second or ":00") + offset.replace("Z", "+00:00"))
    except ValueError as why:
        raise Stop(f"{text!r} isn't a time: {why}", 2)
    moment = (read - START) // MILLISECOND
    if not 0 <= moment < MOST:
        raise Stop(f"{text!r} isn't a time of the years 1970 to 9999", 2)
    return moment


def text_of(moment: int) -> str:
    """A time as it is read, in UTC, to the second."""
    return (START + moment * MILLISECOND).strftime("%Y-%m-%dT%H:%M:%SZ")


def times_in(departure: str, begins: Sequence[str]) -> Times:
    """The times that words say: that of the departure, and of periods as K=TIME. A Stop where they can't be."""
    departs, found = moment_of(departure), {}
    for word in begins:
        parts = BEGINS.fullmatch(word)
        if not parts:
            raise Stop(f"{word!r} isn't a period and its time, such as 2={EXAMPLE.partition(',')[0]}", 2)
        period = int(parts[1])
        if period == 1:
            raise Stop("period 1 begins when the network is opened, and can't be given a time", 2)
        if period in found:
            raise Stop(f"the time of period {period} is given twice", 2)
        found[period] = moment_of(parts[2])
    times = Times(departs, tuple(sorted(found.items())))
    see_that_they_rise(times)
    return times


def see_that_they_rise(times: Times) -> None:
    """A Stop for a period that doesn't begin later than the one before it, or doesn't before the departure."""
    for (period, begins), (later, then) in zip(times.begins, times.begins[1:]):
        if then <= begins:
            raise Stop(f"period {later} begins at {text_of(then)}, and period {period} before it at {text_of(begins)}: "
                       "times must rise with the periods", 2)
    for period, begins in times.begins[-1:]:
        if begins >= times.departs:
            raise Stop(f"period {period} begins at {text_of(begins)}, and the departure is at "
                       f"{text_of(times.departs)}: each period must begin before it", 2)


def see_that_it_has(file: bytes, times: Times) -> None:
    """A Stop if a network file, which a program opens, hasn't all the periods for which times are said."""
    count = whole(next(rows_of(file)).fields[2])
    for period, _ in times.begins[-1:]:
        if period > count:
            raise Stop(f"the network has {count} period{'' if count == 1 else 's'}, and no period {period}")


# As the journal has them


def set_times(connection: Tables, network: int, times: Times) -> None:
    """Sets the times of a network anew, within a change."""
    connection.execute("DELETE FROM period WHERE network = ?", [network])
    connection.execute("INSERT INTO departure VALUES (?, ?) ON CONFLICT (network) DO UPDATE SET "
                       "departs = excluded.departs", [network, times.departs])
    for period, begins in times.begins:
        connection.execute("INSERT INTO period VALUES (?, ?, ?)", [network, period, begins])


def times_of(connection: Tables, network: int) -> Times | None:
    """The times of a network, if it has some."""
    if not connection.has("departure"):
        return None  # of an earlier release
    departure = connection.execute("SELECT departs FROM departure WHERE network = ?", [network]).fetchone()
    begins = connection.execute("SELECT period, begins FROM period WHERE network = ? ORDER BY period", [network])
    return Times(departure[0], tuple(begins)) if departure else None


def lines_of_times(times: Times | None) -> Iterator[str]:
    """What is told of the times of a network."""
    if not times:
        yield "there are no times"
        return
    for period, begins in times.begins:
        yield f"period {period} begins {text_of(begins)}"
    yield f"departure {text_of(times.departs)}"
