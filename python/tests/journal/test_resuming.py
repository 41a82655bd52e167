"""A session goes on after a cut, to the replies of one that was not cut."""
from __future__ import annotations

import os
import sys

from harness import EXAMPLES, SOURCES, PlaceTest
from made import OF_REFUNDS, SECOND, reference_replies
from nrm.replies import MODES


class Resuming(PlaceTest):
    def test_goes_on_to_the_same_sum_withheld(self) -> None:
        network, stream = self.file("second.csv", SECOND), [*OF_REFUNDS, "hindsight", "leg AB"]
        for mode in MODES:
            answers = reference_replies(mode, SECOND, stream)
            for count in (1, 3, 7, len(stream) - 1):
                words = ["resume", network, mode, self.file("stream", "".join(f"{it}\n" for it in stream[:count])),
                         self.file("kept", "".join(answers[:count])), "--go-on", *self.with_program]
                out = self.told(*words, input="".join(f"{it}\n" for it in stream[count:]).encode())
                self.assertEqual(out, "".join(answers[count:]), f"{mode} from line {count + 1}")

    def test_goes_on_with_a_live_sender(self) -> None:
        """The commands of `docs/operator/operating.md`, after a cut at each of some bytes of the replies."""
        hub = EXAMPLES / "hub"
        lines = (hub / "commands.txt").read_bytes().splitlines(keepends=True)
        replies = (hub / "replies.txt").read_bytes()
        script = """
            told=$("$PYTHON" "$TOOLS" resume "$HUB" first stream replies --program "$@")
            line=$(echo "$told" | sed 's/.*line \\([0-9]*\\);.*/\\1/')
            size=$(echo "$told" | sed 's/.*; \\([0-9]*\\) bytes.*/\\1/')
            head -c "$size" replies > whole
            { tail -n +"$line" stream; cat later | tee -a stream; } |
                "$PYTHON" "$TOOLS" resume "$HUB" first stream replies --go-on --program "$@" >> whole 2> told
        """
        for at in (0, 100, len(replies) // 2):
            self.file("stream", b"".join(lines[:-5]))
            self.file("later", b"".join(lines[-5:]))
            self.file("replies", replies[:at])
            names = {"PYTHON": sys.executable, "TOOLS": str(SOURCES), "HUB": str(hub / "network.csv")}
            done = self.finished("bash", "-c", script, "bash", *self.program.words, env={**os.environ, **names})
            found = [(self.folder / it).read_bytes() for it in ("whole", "stream")]
            self.assertEqual((done.status, *found), (0, replies, b"".join(lines)), f"cut at {at}")

    def test_a_fifo_is_refused(self) -> None:
        """It would wait for who writes into it, and can't be read again."""
        hub, fifo = EXAMPLES / "hub", self.folder / "fifo"
        os.mkfifo(fifo)
        for words in ([fifo, hub / "commands.txt"], [hub / "commands.txt", fifo]):
            told = self.stopped("resume", hub / "network.csv", "first", *words, "--program", "true")
            self.assertEqual(told, f"nrm-tools resume: {fifo} isn't a plain file\n")
