"""The log: its lines in each form, what is told of many events of a kind, and that nothing waits for who reads it."""
from __future__ import annotations

import ast
import json
import os
import re
import unittest
from typing import Callable
from unittest import mock

from harness import SOURCES, TOP
from nrm.server.event_log import LEVELS, LEVEL_OF, Events, LogForm, LogOutput

MOMENT = 1_796_117_400_123_456_789  # nanoseconds since 1970 began
FRONT = "time=2026-12-01T09:30:00.123Z level={} tool=nrm-tools-serve event="


class Clock:
    """A clock that goes when it is told to."""

    def __init__(self) -> None:
        self.now = 100.0
        self.later: list[tuple[float, Callable[[], None]]] = []

    def call_at(self, when: float, call: Callable[[], None]) -> None:
        self.later.append((when, call))

    def go(self, seconds: float) -> None:
        """Lets some time pass."""
        self.now += seconds
        due = [it for it in self.later if it[0] <= self.now]
        self.later = [it for it in self.later if it[0] > self.now]
        for _, call in due:
            call()


class Written(unittest.TestCase):
    def setUp(self) -> None:
        self.clock, self.lines, self.can_be_written = Clock(), [], True

    def put(self, line: str) -> bool:
        if self.can_be_written:
            self.lines.append(line)
        return self.can_be_written

    def events(self, form: str = "text", level: str = "debug") -> Events:
        return Events(self.clock, LogForm(form, level), self.put, lambda: MOMENT)

    def told(self) -> list[str]:
        """What was told since this was asked last, without what stands before the event."""
        lines, self.lines = self.lines, []
        return [it.partition("event=")[2].rstrip("\n") for it in lines]

    def test_a_line_in_each_form(self) -> None:
        fields = {"network": "hub", "row": 2, "why": 'a "b"', "none": None, "seconds": 0.12345}
        text = FRONT.format("error") + 'halted network=hub row=2 why="a \\"b\\"" seconds=0.123\n'
        for form, wanted in (("text", text), ("systemd", f"<3>{text}")):
            self.events(form).tell("halted", **fields)
            self.assertEqual(self.lines.pop(), wanted, form)
        self.events("json").tell("halted", **fields)
        line = self.lines.pop()
        self.assertEqual((json.loads(line), line.count("\n")), ({
            "time": "2026-12-01T09:30:00.123Z", "level": "error", "tool": "nrm-tools-serve", "event": "halted",
            "network": "hub", "row": 2, "why": 'a "b"', "seconds": 0.123}, 1))

    def test_what_is_quoted(self) -> None:
        """Each value is read back as it was, and a line stays one."""
        for value, wanted in (("mine/desks", "mine/desks"), ("", '""'), ("a b", '"a b"'), ("a=b", '"a=b"'),
                              ('a"b', '"a\\"b"'), ("a\nb", '"a\\nb"'), ("\x1b[2J", '"\\u001b[2J"'),
                              ("\x7f", '"\\u007f"'),
                              ("ü", '"\\u00fc"'), ("\udcff", '"\\udcff"'), ("a\\b", "a\\b"), ("it's<>", "it's<>")):
            self.events().tell("listening", on=value)
            self.assertEqual(self.told(), [f"listening on={wanted}"], repr(value))
            self.assertEqual(json.loads(wanted) if wanted[0] == '"' else wanted, value)
        self.events().tell("program-ended", told="x" * 1000)
        self.assertEqual(self.told(), ["program-ended told=" + "x" * 300 + ".."])

    def test_levels(self) -> None:
        """The least that is told, by the level of each event; of a client that is closed by the reason."""
        for at, level in enumerate(LEVELS):
            events = self.events(level=level)
            for event in ("lost", "version", "started"):
                events.tell(event)
            events.tell("closed", reason="gone")
            events.tell("closed", reason="idle")
            wanted = [("lost", 0), ("version", 1), ("started", 2), ("closed reason=gone", 3), ("closed reason=idle", 1)]
            self.assertEqual(self.told(), [event for event, of in wanted if of <= at], level)
        for reason, wanted in (("stopping", "<7>"), ("elsewhere", "<7>"), ("program 6", "<4>"), ("sequence", "<4>")):
            self.events("systemd").tell("closed", reason=reason)
            self.assertEqual(self.lines.pop()[:3], wanted, reason)
        self.events("systemd").tell("stopping")
        self.assertEqual(self.lines.pop()[:3], "<6>")

    def test_a_kind_is_told_once_a_second(self) -> None:
        """What comes in between is counted, and told once when the second is over, with what the last had."""
        events = self.events()
        for count in range(5):
            events.tell("turned-away", most=count)
            self.clock.go(0.1)
        self.assertEqual(self.told(), ["turned-away most=0"])
        self.clock.go(0.4)
        self.assertEqual(self.told(), [])
        self.clock.go(0.2)
        self.assertEqual(self.told(), ["turned-away most=4 times=4"])
        events.tell("turned-away", most=7)
        self.assertEqual(self.told(), [], "a second after what was counted was told")
        self.clock.go(1)
        self.assertEqual(self.told(), ["turned-away most=7 times=1"])
        self.clock.go(1)
        events.tell("turned-away", most=8)
        self.assertEqual(self.told(), ["turned-away most=8"], "a second in which nothing came is over")
        self.clock.go(1)
        self.assertEqual((self.told(), events.told, self.clock.later), ([], {}, []), "nothing is left")

    def test_other_kinds_are_told_at_once(self) -> None:
        events = self.events()
        told = [("closed", {"reason": "idle", "network": "one"}), ("closed", {"reason": "half", "network": "one"}),
                ("closed", {"reason": "idle", "network": "two"}), ("ended", {"network": "one"}),
                ("listening", {"on": "mine/desks"}), ("listening", {"on": "127.0.0.1:7"})]
        for event, fields in told:
            events.tell(event, **fields)
        self.assertEqual(len(self.told()), len(told))
        for event, fields in told:
            events.tell(event, **fields)
        self.assertEqual(self.told(), [])

    def test_what_was_counted_is_told_at_the_end(self) -> None:
        events = self.events()
        for _ in range(3):
            events.tell("unread")
        events.tell("memory", network="hub")
        self.told()
        events.close()
        self.assertEqual(self.told(), ["unread times=2"])
        self.clock.go(2)
        self.assertEqual(self.told(), [])

    def test_what_couldnt_be_written_is_told(self) -> None:
        """As how many lines they were, before the next."""
        events, self.can_be_written = self.events(), False
        for network in "one", "two":
            events.tell("ended", network=network)
        self.can_be_written = True
        self.assertEqual(self.told(), [])
        events.tell("ended", network="three")
        events.tell("ended", network="four")
        self.assertEqual(self.told(), ["untold times=2", "ended network=three", "ended network=four"])

    def test_each_event_has_its_level(self) -> None:
        """In the table of the code, and in that of the page."""
        told = {it.args[0].value for path in (SOURCES / "nrm" / "server").glob("*.py")
                for it in ast.walk(ast.parse(path.read_text()))
                if isinstance(it, ast.Call) and isinstance(it.func, ast.Attribute) and it.func.attr == "tell"
                and it.args and isinstance(it.args[0], ast.Constant)}
        told |= {f"{name}-{end}" for name in ("desks", "certificate") for end in ("read", "fault")}
        self.assertEqual(told | {"untold"}, set(LEVEL_OF))
        page = (TOP / "docs" / "operator" / "serving.md").read_text()
        rows = re.findall(r"^\| `([a-z-]+)` \| (error|warning|info)\b", page, re.MULTILINE)
        self.assertEqual(dict(rows), LEVEL_OF)


class StandardError(unittest.TestCase):
    def put_to(self, file: int) -> Callable[[str], bool]:
        """How a line is written where standard error is a file."""
        stream = os.fdopen(file, "w")
        self.addCleanup(stream.close)
        with mock.patch("sys.stderr", stream):
            return LogOutput().put

    def test_nobody_is_waited_for(self) -> None:
        """A pipe that is full takes nothing, until somebody reads; one that nobody reads any more takes nothing."""
        read, written = os.pipe()
        put, count = self.put_to(written), 0
        while put("x" * 99 + "\n"):
            count += 1
        self.assertGreater(count, 100)
        self.assertFalse(put("y\n"))
        self.assertEqual(os.read(read, 100_000).count(b"\n"), count)
        self.assertTrue(put("z\n"))
        os.close(read)
        self.assertFalse(put("z\n"))

    def test_there_may_be_none(self) -> None:
        """Then its number is that of another file, which gets nothing."""
        with mock.patch("sys.stderr", None):
            self.assertFalse(LogOutput().put("x\n"))
        with open(os.devnull, "w") as closed:
            pass
        with mock.patch("sys.stderr", closed):
            self.assertFalse(LogOutput().put("x\n"))
        full = os.open("/dev/full", os.O_WRONLY)
        self.assertFalse(self.put_to(full)("x\n"), "a full disk")
