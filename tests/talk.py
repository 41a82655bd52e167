#!/usr/bin/env python3
"""Talks with the program: is each line answered before the next one is sent?

    tests/talk.py [PATTERN] [--program WORD...]

The talks go through pipes and through a terminal, in the three modes, on the network of examples/hub. What is wanted
comes from the documents or from tests/reference.py, never from the program. The pipes keep pieces apart: one read takes
what one write gave. On the terminal, the key for the end of the input is pressed where a piece ends inside a line.
Nothing waits for a time to pass; where the program is silent, a talk fails after some seconds.

The last talks cut a session in each way that it can be cut, go on with `nrm-tools resume`, and want the replies of the
whole stream.

PATTERN picks the talks that have it in their name. With no --program it is the script `nrm` at the top of the
repository. Each talk that fails is told; the last line is `N passed, M failed`.
"""
import functools
import os
import pty
import select
import signal
import socket
import subprocess
import sys
import tempfile
import termios
import time

HERE = os.path.dirname(os.path.realpath(__file__))
TOP = os.path.dirname(HERE)
sys.dont_write_bytecode = True
import checks
import reference
from checks import Wrong

HUB = os.path.join(TOP, "examples", "hub", "network.csv")
RESUME = [sys.executable, os.path.join(TOP, "python", "src"), "resume"]
MODES = ["first", "bid", "davn"]
SECONDS = 10
END_KEY = b"\x04"


def hub_session(mode):
    """The reference, whose `reply` says what is wanted of the next line."""
    return reference.Session(reference.network_in(HUB), mode)


def lines_on_the_hub():
    """Lines of all kinds, and at the end those that show the state."""
    with open(os.path.join(TOP, "examples", "hub", "commands.txt"), "rb") as file:
        lines = file.read().splitlines()
    lines[7:7] = [b"reoptimise 2", b"plan", b"book HN-Y 3\r", b"", b"hindsight"]
    lines[16:16] = [b"leg FRA-JFK", b"reoptimise 4", b"plan", b"reoptimise 5", b"cancel 999999999999"]
    return lines + [b"leg HAM-FRA", b"leg MUC-FRA", b"leg FRA-JFK", b"leg FRA-NRT", b"plan", b"hindsight"]


def joined(lines):
    return b"".join(line + b"\n" for line in lines)


# The ends of a talk: the program's standard input and output, then ours


def pipes():
    (given, say), (hear, out) = os.pipe2(os.O_DIRECT), os.pipe2(os.O_DIRECT)
    return given, out, say, hear


def terminal():
    """A terminal that leaves the bytes as they are, and gives them line by line."""
    ours, theirs = pty.openpty()
    mode = termios.tcgetattr(theirs)
    mode[0], mode[1], mode[3] = mode[0] & ~(termios.ICRNL | termios.IXON), mode[1] & ~termios.OPOST, termios.ICANON
    termios.tcsetattr(theirs, termios.TCSANOW, mode)
    return theirs, os.dup(theirs), ours, os.dup(ours)


def terminal_with_echo():
    """A terminal as a person has it."""
    ours, theirs = pty.openpty()
    return theirs, os.dup(theirs), ours, os.dup(ours)


def breaking_input():
    """Where we say no more, reading fails: a socket closed with unread bytes breaks the other one, after its bytes."""
    near, far = socket.socketpair()
    far.sendall(b"never read")
    hear, out = os.pipe2(os.O_DIRECT)
    return far.detach(), out, near.detach(), hear


def hasty_input():
    """Reading fails where nothing is there yet."""
    given, out, say, hear = pipes()
    os.set_blocking(given, False)
    return given, out, say, hear


def folder_input():
    """What we say goes nowhere: the input is a folder."""
    unheard, say = os.pipe()
    os.close(unheard)
    hear, out = os.pipe2(os.O_DIRECT)
    return os.open(HERE, os.O_RDONLY), out, say, hear


def full_output():
    given, say = os.pipe2(os.O_DIRECT)
    return given, os.open("/dev/full", os.O_WRONLY), say, None


class Talk:
    """A run of the program, to which pieces are said and whose replies are heard."""

    def __init__(self, words, ends):
        given, out, self.say_end, self.hear_end = ends
        self.has_keys = os.isatty(given)
        self.process = subprocess.Popen(words, stdin=given, stdout=out, stderr=subprocess.PIPE)
        os.close(given)
        os.close(out)
        os.set_blocking(self.say_end, False)

    def __enter__(self):
        return self

    def __exit__(self, *_):
        self.process.kill()
        self.process.wait()
        self.process.stderr.close()
        for end in (self.say_end, self.hear_end):
            if end is not None:
                os.close(end)

    def say(self, piece):
        if self.has_keys and not piece.endswith(b"\n"):
            piece += END_KEY
        while piece:
            if not select.select([], [self.say_end], [], SECONDS)[1]:
                raise Wrong("to be listened to")
            piece = piece[os.write(self.say_end, piece):]

    def heard(self, deadline=None):
        """What comes next, and nothing at the end."""
        seconds = SECONDS if deadline is None else max(0, deadline - time.monotonic())
        if not select.select([self.hear_end], [], [], seconds)[0]:
            raise Wrong("to hear something")
        try:
            return os.read(self.hear_end, 65_536)
        except OSError:
            return b""  # the other end of the terminal is closed

    def hear(self, wanted):
        """Hears exactly this."""
        deadline, got = time.monotonic() + SECONDS, b""
        while len(got) < len(wanted):
            piece = self.heard(deadline)
            got += piece
            if not piece or not wanted.startswith(got):
                raise Wrong(f"{wanted[:300]!r}, and not {got[-300:]!r}")

    def stop_saying(self):
        if self.has_keys:
            os.write(self.say_end, END_KEY)
        else:
            os.close(self.say_end)
            self.say_end = None

    def stop_hearing(self):
        os.close(self.hear_end)
        self.hear_end = None

    def end(self, status=0, told=b""):
        """The program says no more, and ends with a status, and with this on standard error."""
        if self.hear_end is not None and (more := self.heard()):
            raise Wrong(f"nothing more, and not {more[:300]!r}")
        try:
            _, errors = self.process.communicate(timeout=SECONDS)
        except subprocess.TimeoutExpired:
            raise Wrong(f"an end with status {status}")
        if (self.process.returncode, errors) != (status, told):
            raise Wrong(f"status {status} and {told!r}, and not {self.process.returncode} and {errors[-300:]!r}")

    def end_input(self):
        self.stop_saying()
        self.end()


# Talks with the program; the session is the reference, whose `reply` is what is wanted of a line


def every_line_is_answered_before_the_next(talk, session):
    for line in lines_on_the_hub():
        talk.say(line + b"\n")
        talk.hear(session.reply(line))
    talk.end_input()


def nothing_is_said(talk, session):
    talk.end_input()


def in_two_pieces(talk, session, lines):
    """Says each line as often as it can be cut in two."""
    for line in lines:
        for at in range(1, len(line) + 1):
            talk.say(line[:at])
            talk.say(line[at:] + b"\n")
            talk.hear(session.reply(line))
    talk.end_input()


def lines_come_in_two_pieces(talk, session):
    in_two_pieces(talk, session, lines_on_the_hub())


def lines_come_in_single_bytes(talk, session):
    for line in lines_on_the_hub():
        for byte in line + b"\n":
            talk.say(bytes([byte]))
        talk.hear(session.reply(line))
    talk.end_input()


def lines_are_cut_before_their_line_feed(talk, session):
    for line in lines_on_the_hub():
        talk.say(line + b"\r")
        talk.say(b"\n")
        talk.hear(session.reply(line + b"\r"))
    talk.end_input()


def lines_are_about_as_long_as_good_ones(talk, session):
    """The longest good one has 22 bytes, with its carriage return."""
    in_two_pieces(talk, session, [
        b"book ABCDEFGHIJKL 999\r", b"book ABCDEFGHIJKL 999\r\r", b"book ABCDEFGHIJKL 9999", b"book ABCDEFGHIJKLM 999",
        b"book ABCDEFGHIJKL 999 \r", b"cancel 999999999999\r", b"cancel 9999999999999\r"])


def a_megabyte_is_one_bad_line(talk, session):
    """That a piece of it is a good line doesn't count."""
    for _ in range(500):
        talk.say(b"x" * 2000)
    talk.say(b"book HJ-Q 40\n")
    talk.hear(b"bad\n")
    talk.say(b"book HJ-Q 40\n")
    talk.hear(session.reply(b"book HJ-Q 40"))
    talk.end_input()


def the_plan_is_made_anew(talk, session):
    """The lines of docs/bid-prices.md, with what they are answered in two of the modes."""
    for line, *replies in [("book HJ-Q 40", "ok 1", "ok 1"), ("reoptimise 2", "optimised none", "optimised 137585/3"),
                           ("book HJ-Q 20", "ok 2", "no fare"), ("book HJ-Y 5", "no HAM-FRA", "ok 2")]:
        wanted = dict(zip(MODES, [reply.encode() + b"\n" for reply in replies]), davn=session.reply(line.encode()))
        talk.say(line.encode() + b"\n")
        talk.hear(wanted[session.mode])
    talk.end_input()


def the_input_ends_inside_a_line(talk, session):
    talk.say(b"book HJ-Q 40\n")
    talk.hear(session.reply(b"book HJ-Q 40"))
    talk.say(b"leg FRA")
    talk.say(b"-JFK")
    talk.stop_saying()
    talk.hear(session.reply(b"leg FRA-JFK"))
    talk.end()


def lines_are_echoed(talk, session):
    """What a person sees: their own lines, and the replies."""
    for line in [line for line in lines_on_the_hub() if b"\r" not in line]:
        talk.say(line + b"\n")
        talk.hear((line + b"\n" + session.reply(line)).replace(b"\n", b"\r\n"))
    talk.end_input()


def one_piece_is_answered_in_one_write(talk, session):
    for lines in [[b"book HJ-Q 40", b"leg HAM-FRA"], lines_on_the_hub()]:
        talk.say(joined(lines))
        wanted = b"".join(map(session.reply, lines))
        if (got := talk.heard()) != wanted[:4096]:  # a pipe that keeps pieces apart has none above 4,096 bytes
            raise Wrong(f"{wanted[:4096]!r} at once, and not {got!r}")
        talk.hear(wanted[4096:])
    talk.end_input()


def one_piece_has_many_replies(talk, session):
    """More bytes of them than are gathered, or than a pipe holds."""
    lines = [b"book HJ-Q 40", b"book HF-Y 1", b"book HN-Y 1"] + 300 * [b"leg HAM-FRA", b"leg FRA-JFK", b"plan"]
    talk.say(joined(lines))
    talk.hear(b"".join(map(session.reply, lines)))
    talk.end_input()


def the_output_is_closed_early(talk, session):
    """The input stays open, and yet the program ends."""
    talk.say(b"book HJ-Q 40\n")
    talk.hear(session.reply(b"book HJ-Q 40"))
    talk.stop_hearing()
    talk.say(b"book HJ-Q 1\n")
    talk.end(status=5)


def the_output_is_full(talk, session):
    """The input stays open here too."""
    talk.say(b"book HJ-Q 40\n")
    talk.end(status=5)


def the_program_is_stopped_and_continued(talk, session):
    for line in lines_on_the_hub()[:10]:
        talk.say(line[:3])
        talk.process.send_signal(signal.SIGSTOP)
        os.waitpid(talk.process.pid, os.WUNTRACED)
        talk.process.send_signal(signal.SIGCONT)
        talk.say(line[3:] + b"\n")
        talk.hear(session.reply(line))
    talk.end_input()


def the_input_does_not_wait(talk, session):
    talk.end(status=4)


def the_input_is_a_folder(talk, session):
    talk.end(status=4)


def the_input_fails_after_lines(talk, session):
    for line in lines_on_the_hub():
        talk.say(line + b"\n")
        talk.hear(session.reply(line))
    talk.stop_saying()
    talk.end(status=4)


def the_input_fails_inside_a_line(talk, session):
    talk.say(b"book HJ-Q 40\nbook HJ-Y 1\nleg FRA-JFK")
    talk.hear(session.reply(b"book HJ-Q 40") + session.reply(b"book HJ-Y 1"))
    talk.stop_saying()
    talk.end(status=4)


TALKS = {
    every_line_is_answered_before_the_next: [pipes, terminal],
    nothing_is_said: [pipes, terminal],
    lines_come_in_two_pieces: [pipes, terminal],
    lines_come_in_single_bytes: [pipes, terminal],
    lines_are_cut_before_their_line_feed: [pipes, terminal],
    lines_are_about_as_long_as_good_ones: [pipes, terminal],
    a_megabyte_is_one_bad_line: [pipes, terminal],
    the_plan_is_made_anew: [pipes, terminal],
    the_input_ends_inside_a_line: [pipes, terminal],
    lines_are_echoed: [terminal_with_echo],
    one_piece_is_answered_in_one_write: [pipes],
    one_piece_has_many_replies: [pipes],
    the_program_is_stopped_and_continued: [pipes, terminal],
    the_output_is_closed_early: [pipes],
    the_output_is_full: [full_output],
    the_input_does_not_wait: [hasty_input],
    the_input_is_a_folder: [folder_input],
    the_input_fails_after_lines: [breaking_input],
    the_input_fails_inside_a_line: [breaking_input],
}


# Runs on files, and what follows a cut


class Cut:
    """A stream on the hub with its replies, and what was kept of them."""

    def __init__(self, program, mode, folder):
        self.program, self.mode, self.folder = program, mode, folder
        self.lines = lines_on_the_hub()
        self.replies = list(map(hub_session(mode).reply, self.lines))

    def file(self, name, content):
        path = os.path.join(self.folder, name)
        with open(path, "wb") as file:
            file.write(content)
        return path

    def talk(self, ends):
        return Talk([*self.program, "run", self.mode, HUB], ends())

    def words(self, kept, *more):
        """Those of `nrm-tools resume`."""
        files = self.file("stream", joined(self.lines)), self.file("replies", kept)
        return [*RESUME, HUB, self.mode, *files, *more, "--program", *self.program]

    def place(self, kept):
        """How many lines have a whole reply in what was kept, and the bytes of these replies."""
        count = max(at for at in range(len(self.replies) + 1) if len(b"".join(self.replies[:at])) <= len(kept))
        return count, len(b"".join(self.replies[:count]))

    def told(self, kept):
        count, size = self.place(kept)
        return f"continue at line {count + 1}; {size} bytes of whole replies come before it\n".encode()

    def goes_on(self, kept):
        """Where the rest of the stream is given, the rest of the replies comes."""
        count, size = self.place(kept)
        rest = joined(self.lines[count:])
        done = subprocess.run(self.words(kept, "--go-on"), input=rest, capture_output=True, timeout=SECONDS)
        wanted = b"".join(self.replies)[size:]
        if (done.returncode, done.stderr, done.stdout) != (0, self.told(kept), wanted):
            raise Wrong(f"{self.told(kept)!r} and {wanted[:300]!r}, and not status {done.returncode}, "
                        f"{done.stderr[-300:]!r} and {done.stdout[:300]!r}")


def the_stream_is_a_file(cut):
    """Read in pieces of 65,536 bytes or any other, wherever the lines end."""
    for before in [65_522, 65_523, 65_530, 65_535, 65_536, 131_059]:
        lines = [b"x" * before, b"book HJ-Q 1\r", b"leg HAM-FRA\r"] + cut.lines
        wanted = b"".join(map(hub_session(cut.mode).reply, lines))
        with open(cut.file("stream", joined(lines)[:-1]), "rb") as stream:
            done = subprocess.run([*cut.program, "run", cut.mode, HUB], stdin=stream, capture_output=True,
                                  timeout=SECONDS)
        if (done.returncode, done.stderr, done.stdout) != (0, b"", wanted):
            raise Wrong(f"{wanted[:300]!r}, and not status {done.returncode} and {done.stdout[:300]!r}")


def goes_on_after_any_cut(cut):
    """Before a reply, in one line, between two lines of a plan or of a leg, and after all."""
    whole = b"".join(cut.replies)
    plan, leg = whole.rindex(cut.replies[cut.lines.index(b"plan")]), whole.rindex(b"leg FRA-JFK")
    for at in [0, 1, 5, plan, whole.index(b"\n", plan) + 1, leg + 20, whole.index(b"\n", leg) + 1, len(whole) - 1,
               len(whole)]:
        cut.goes_on(whole[:at])


def goes_on_after_the_reader_left(cut):
    with cut.talk(pipes) as talk:
        talk.say(joined(cut.lines[:20]))
        kept = talk.heard()
        talk.stop_hearing()
        talk.say(joined(cut.lines[20:]))
        talk.end(status=5)
    cut.goes_on(kept)


def goes_on_after_the_input_failed(cut):
    with cut.talk(breaking_input) as talk:
        talk.say(joined(cut.lines[:20]) + cut.lines[20][:-1])
        kept = b"".join(cut.replies[:20])
        talk.hear(kept)
        talk.stop_saying()
        talk.end(status=4)
    cut.goes_on(kept)


def goes_on_after_the_program_was_killed(cut):
    with cut.talk(pipes) as talk:
        for line in cut.lines[:10]:
            talk.say(line + b"\n")
        kept = talk.heard()
        talk.say(joined(cut.lines[10:]))
        talk.process.kill()
        while piece := talk.heard():
            kept += piece
    cut.goes_on(kept)


def goes_on_in_talk(cut):
    kept = b"".join(cut.replies[:20])
    with Talk(cut.words(kept, "--go-on"), pipes()) as talk:
        for line, reply in list(zip(cut.lines, cut.replies))[20:]:
            talk.say(line + b"\n")
            talk.hear(reply)
        talk.stop_saying()
        talk.end(told=cut.told(kept))


def goes_on_without_lines_that_wanted_memory(cut):
    """They are no part of the session that goes on."""
    lines = [b"hindsight"] + [b"reoptimise 4"] * (cut.mode != "first")
    for count in [13, 22, 30]:
        session = hub_session(cut.mode)
        cut.replies = [b"memory\n" if line in lines and at < count else session.reply(line)
                       for at, line in enumerate(cut.lines)]
        cut.goes_on(b"".join(cut.replies[:count]))


def goes_on_after_a_cut_inside_memory(cut):
    """The line ran out of memory, and its reply was cut: it is given again."""
    at = cut.lines.index(b"hindsight")
    for end in range(1, len(b"memory\n")):
        cut.goes_on(b"".join(cut.replies[:at]) + b"memory\n"[:end])


def goes_on_after_too_long_a_stream(cut):
    """With a lower limit, which the reference can have: what went beyond it was a bad line, and isn't given again."""
    code = "import reference; reference.LONGEST_STREAM = 1000; reference.main()"
    cut.program = ["env", f"PYTHONPATH={HERE}", sys.executable, cut.file("limited.py", code.encode())]
    cut.lines[10:10] = [b"x" * 800]
    cut.replies[10:10] = [b"bad\n"]
    with cut.talk(pipes) as talk:
        talk.say(joined(cut.lines))
        kept = b"".join(reply for at, reply in enumerate(cut.replies) if len(joined(cut.lines[:at + 1])) <= 1000)
        talk.hear(kept)
        talk.end(status=8)
    cut.goes_on(kept)


def replies_that_are_no_front_are_told(cut):
    for at, other in [(2, b"ok 4\n"), (8, b"unknown\n"), (11, b"memo"), (len(cut.replies), b"ok 99\n")]:
        kept = b"".join(cut.replies[:at] + [other] + cut.replies[at + 1:])
        done = subprocess.run(cut.words(kept), capture_output=True, timeout=SECONDS)
        if done.returncode != 1 or done.stdout or not done.stderr.startswith(b"nrm-tools resume: line %d: " % (at + 1)):
            raise Wrong(f"line {at + 1} told, and not status {done.returncode}, {done.stdout!r} and "
                        f"{done.stderr[-300:]!r}")


CUTS = [the_stream_is_a_file, goes_on_after_any_cut, goes_on_after_the_reader_left, goes_on_after_the_input_failed,
        goes_on_after_the_program_was_killed, goes_on_after_a_cut_inside_memory, goes_on_after_too_long_a_stream,
        goes_on_in_talk,
        goes_on_without_lines_that_wanted_memory, replies_that_are_no_front_are_told]


def talk_through(talk_of, ends, mode, program):
    with Talk([*program, "run", mode, HUB], ends()) as talk:
        talk_of(talk, hub_session(mode))


def cut_in_a_folder(cut_of, mode, program):
    with tempfile.TemporaryDirectory() as folder:
        cut_of(Cut(program, mode, folder))


def all_talks():
    """The name of each, and how it is held with a program."""
    for mode in MODES:
        for talk_of, ways in TALKS.items():
            for ends in ways:
                yield f"{talk_of.__name__} {ends.__name__} {mode}", functools.partial(talk_through, talk_of, ends, mode)
        for cut_of in CUTS:
            yield f"{cut_of.__name__} {mode}", functools.partial(cut_in_a_folder, cut_of, mode)


def main():
    given = checks.words_of(__doc__)
    talks = [(name, held) for name, held in all_talks() if given.pattern in name]
    if not checks.is_built(given.program):
        checks.ended(0, len(talks))
        return checks.NOT_BUILT
    passed = failed = 0
    for name, held in talks:
        try:
            held(given.program)
            passed += 1
        except (Wrong, OSError, subprocess.TimeoutExpired) as wrong:
            failed += 1
            print(f"{name}: {'wanted ' if isinstance(wrong, Wrong) else ''}{wrong}")
    return checks.ended(passed, failed)


if __name__ == "__main__":
    sys.exit(main())
