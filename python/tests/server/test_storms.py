"""Crowds at the door: who is there is answered, who may not come is told, and who has to wait comes in time.

A test that takes long is run by its name alone: `python3 -m unittest
server.test_storms.Crowds.long_storm_of_new_clients_keeps_nobody_waiting`.
"""
from __future__ import annotations

import contextlib
import os
import resource
import subprocess
import sys
import time
from collections import Counter
from pathlib import Path

from harness import SECONDS, SOURCES
from server import storms
from server.servers import TESTS, answers
from server.serves import ONE, ServeTest, all_told
from server.storms import allow_connections, answered_soon, told_now_and_then, waits_of

FEW_FILES = """import resource
resource.setrlimit(resource.RLIMIT_NOFILE, (84, resource.getrlimit(resource.RLIMIT_NOFILE)[1]))
"""
LOOK, REPLY = b"ask LOC\n", b"ask LOC 300 leg AB\n"


class Crowds(ServeTest):
    def one(self) -> Path:
        """A journal with a network of one leg."""
        return self.journal(file=ONE.encode())

    def test_a_crowd_at_the_door_keeps_nobody_waiting(self) -> None:
        """Many more than may come: who is there is answered, each other is told. Then there is room again."""
        count, begun = allow_connections(1500), time.monotonic()
        served = self.served(self.one(), "--clients", "20", variables=self.patched(FEW_FILES))
        with served as serve, contextlib.ExitStack() as all_:
            first = all_.enter_context(serve.connect())
            answers(first, LOOK, 1)
            others = [all_.enter_context(serve.connect()) for _ in range(count)]
            answered_soon(waits_of(first, 2))
            told = Counter(all_told(it) for it in others[19:])
            self.assertEqual(told, {b"closed clients\n": count - 19}, "what the others are told")
            for it in others:
                it.close()
            answered_soon(waits_of(first, 1))
            with serve.connect() as last:
                self.assertEqual(answers(last, LOOK, 1), [REPLY], "a new one")
            told_now_and_then(serve, begun)
            self.want_in(serve.told(), "event=turned-away most=20")

    def test_as_many_as_may_come_at_once_are_answered(self) -> None:
        """And as many again, once these have left."""
        count = allow_connections(1000)
        with self.served(self.one(), variables=self.patched(FEW_FILES)) as serve:
            for _ in range(2):
                with contextlib.ExitStack() as all_:
                    crowd = [all_.enter_context(serve.connect()) for _ in range(count)]
                    told = Counter(answers(it, LOOK, 1)[0] for it in crowd)
                    self.assertEqual(told, {REPLY: count}, "the replies")
                time.sleep(1)

    def test_no_file_for_one_more_is_told_now_and_then(self) -> None:
        """As when the machine has no more: those that come wait until there are files again."""
        with self.served(self.one()) as serve, contextlib.ExitStack() as all_:
            first, begun = all_.enter_context(serve.connect()), time.monotonic()
            answers(first, LOOK, 1)
            process, files = serve.process.pid, len(os.listdir(f"/proc/{serve.process.pid}/fd"))
            before = resource.prlimit(process, resource.RLIMIT_NOFILE)
            resource.prlimit(process, resource.RLIMIT_NOFILE, (files + 2, before[1]))
            others = [all_.enter_context(serve.connect()) for _ in range(6)]
            answered_soon(waits_of(first, 3.5))
            told_now_and_then(serve, begun)
            self.want_in(serve.told(), 'event=waiting why="Too many open files"')
            resource.prlimit(process, resource.RLIMIT_NOFILE, before)
            for it in others:
                self.assertEqual(answers(it, LOOK, 1), [REPLY], "who had to wait")

    def in_a_storm(self, count: int, seconds: float) -> None:
        """So many clients come anew as soon as they are cut off, while one that is there asks."""
        allow_connections(count)
        begun = time.monotonic()
        with self.served(self.one(), "--clients", "50") as serve, serve.connect() as first:
            answers(first, LOOK, 1)
            words = [sys.executable, "-m", storms.__name__, str(serve.path), str(count // 2), str(seconds)]
            variables = {**os.environ, "PYTHONPATH": f"{SOURCES}:{TESTS.parents[1] / 'tests'}"}
            two = [subprocess.Popen(words, cwd=TESTS, env=variables) for _ in range(2)]
            answered_soon(waits_of(first, seconds))
            self.assertEqual([it.wait(SECONDS) for it in two], [0, 0], "storms in which somebody was cut off")
            told_now_and_then(serve, begun)

    def test_a_storm_of_new_clients_keeps_nobody_waiting(self) -> None:
        self.in_a_storm(2000, 4)

    def long_storm_of_new_clients_keeps_nobody_waiting(self) -> None:
        self.in_a_storm(4000, 30)
