"""The log of the server: each event a line on standard error, none of a kind more than once a second.

The first of a kind is told at once, and those that come within a second of it are counted: when the second is over one
line tells of them, with the fields of the last, and how many they were as `times`. Lines are `key=value` in the form
`text`, and objects in the form `json`. The form `systemd` is `text` with the level before each line, as `<4>` for a
warning: by that the journal of systemd knows it, for units, which read it unless they have `SyslogLevelPrefix=no`, and
for `systemd-cat`; `journalctl -p warning` then shows warnings and errors alone. Nothing here waits: where nobody reads
standard error, or nothing more can be written there, the server goes on, and tells as `untold` how many lines it left
out as soon as it can.
"""
from __future__ import annotations

import json
import os
import re
import select
import sys
import time
from dataclasses import dataclass, field
from datetime import datetime, timezone
from typing import Callable, Dict, Mapping, Protocol, Tuple

TOOL = "nrm-tools-serve"
LEVELS = ERROR, WARNING, INFO, DEBUG = "error", "warning", "info", "debug"
OF_SYSLOG = {ERROR: 3, WARNING: 4, INFO: 6, DEBUG: 7}
LEVEL_OF = {
    "started": INFO, "listening": INFO, "stopping": INFO, "stopped": INFO, "begun": INFO, "ended": INFO,
    "program-ended": WARNING, "silent": ERROR, "halted": ERROR, "version": WARNING, "journal-fault": ERROR,
    "journal-held": WARNING, "lost": ERROR, "closed": WARNING, "unread": WARNING, "turned-away": WARNING,
    "waiting": WARNING, "memory": WARNING, "untold": WARNING, "token-refused": WARNING, "desks-read": INFO,
    "desks-fault": ERROR, "certificate-read": INFO, "certificate-fault": ERROR, "clock": INFO, "clock-missed": WARNING,
    "clock-failed": WARNING, "time-jumped": WARNING, "taken": INFO, "followed": INFO, "not-followed": WARNING,
    "leaving": INFO, "unknown": WARNING, "database": WARNING,
}
EXPECTED = ("gone", "elsewhere", "stopping")  # why a client was closed of which nobody needs to hear
OF_A_KIND = ("network", "reason", "on")  # fields that tell events of one name apart; each has few values
SECOND = 1.0
MOST_SHOWN = 300  # characters of a value
PLAIN = re.compile('[!#-<>-~]+')  # no space, quote, equals sign or control character, and nothing beyond ASCII
Fields = Mapping[str, object]
Kind = Tuple[object, ...]


@dataclass(frozen=True)
class LogForm:
    """How the log is written, and the least level that is told."""
    form: str = "text"
    level: str = INFO


@dataclass
class Since:
    """What came of a kind since it was told: how many events, and the fields of the last."""
    times: int = 0
    fields: Fields = field(default_factory=dict)


class SecondsClock(Protocol):
    """The clock that says when a second is over."""
    now: float

    def call_at(self, when: float, call: Callable[[], None]) -> None:
        """Has something called at a time."""


class Events:
    """Tells events, as often as they may be told."""

    def __init__(self, clock: SecondsClock, log: LogForm = LogForm(), put: Callable[[str], bool] | None = None,
                 wall: Callable[[], int] = time.time_ns) -> None:
        self.clock, self.form, self.wall = clock, FORMS[log.form], wall
        self.most = LEVELS.index(log.level)
        self.put = put or LogOutput().put
        self.told: Dict[Kind, Since] = {}  # within the last second
        self.untold = 0

    def tell(self, event: str, **fields: object) -> None:
        """Tells an event now, or when the second is over in which one of its kind was told. None is no field."""
        if LEVELS.index(level_of(event, fields)) > self.most:
            return
        kind = (event, *(fields.get(it) for it in OF_A_KIND))
        since = self.told.get(kind)
        if since:
            since.times, since.fields = since.times + 1, fields
        else:
            self.tell_now(kind, fields)

    def tell_now(self, kind: Kind, fields: Fields) -> None:
        """Tells an event, and begins the second in which others of its kind are counted."""
        self.told[kind] = Since()
        self.clock.call_at(self.clock.now + SECOND, lambda: self.tell_since(kind))
        self.write(str(kind[0]), fields)

    def tell_since(self, kind: Kind) -> None:
        """A second is over: tells how many of a kind came in it, if some did."""
        since = self.told.pop(kind, None)
        if since and since.times:
            self.tell_now(kind, {**since.fields, "times": since.times})

    def close(self) -> None:
        """Tells what was counted, since no second will be over any more."""
        for kind, since in [*self.told.items()]:
            del self.told[kind]
            if since.times:
                self.write(str(kind[0]), {**since.fields, "times": since.times})

    def write(self, event: str, fields: Fields) -> None:
        """Writes the line of an event, behind one of those that couldn't be written."""
        if self.untold and self.put(self.line("untold", {"times": self.untold})):
            self.untold = 0
        if self.untold or not self.put(self.line(event, fields)):
            self.untold += 1

    def line(self, event: str, fields: Fields) -> str:
        """The line of an event, with its line feed."""
        told = {"time": time_text(self.wall() // 1_000_000), "level": level_of(event, fields), "tool": TOOL,
                "event": event}
        return self.form({**told, **{name: shown(it) for name, it in fields.items() if it is not None}}) + "\n"


def level_of(event: str, fields: Fields) -> str:
    """The level of an event."""
    if event == "lost" and "network" in fields:
        return WARNING  # of one network, which another server has now
    return DEBUG if event == "closed" and fields.get("reason") in EXPECTED else LEVEL_OF.get(event, WARNING)


def time_text(milliseconds: int) -> str:
    """A time since 1970 began, in UTC."""
    seconds, rest = divmod(milliseconds, 1000)
    return f"{datetime.fromtimestamp(seconds, timezone.utc):%Y-%m-%dT%H:%M:%S}.{rest:03}Z"


def shown(value: object) -> object:
    """What is written of a value: seconds to the thousandth, and of a long text the front."""
    if isinstance(value, float):
        return round(value, 3)
    if isinstance(value, str) and len(value) > MOST_SHOWN:
        return f"{value[:MOST_SHOWN]}.."
    return value


def text_of(told: Fields) -> str:
    """An event as `key=value`."""
    return " ".join(f"{name}={quoted(str(value))}" for name, value in told.items())


def quoted(value: str) -> str:
    """A value as it is, or as a string of JSON where it would be taken for something else."""
    return value if PLAIN.fullmatch(value) else json.dumps(value)


def systemd_text_of(told: Fields) -> str:
    """An event as `key=value`, with its level before it."""
    return f"<{OF_SYSLOG[str(told['level'])]}>{text_of(told)}"


FORMS: Mapping[str, Callable[[Fields], str]] = {"text": text_of, "json": json.dumps, "systemd": systemd_text_of}


class LogOutput:
    """Standard error, if this process has one, written without waiting for who reads it."""

    def __init__(self) -> None:
        self.poll = select.poll()
        try:
            self.file = sys.stderr.fileno()
        except (AttributeError, OSError, ValueError):  # there is none: its number may be that of another file
            self.file = -1
        else:
            self.poll.register(self.file, select.POLLOUT)

    def put(self, line: str) -> bool:
        """Writes a line; gives whether it was."""
        data = line.encode()
        try:
            return self.file >= 0 and bool(self.poll.poll(0)) and os.write(self.file, data) == len(data)
        except OSError:
            return False
