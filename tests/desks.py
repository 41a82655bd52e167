#!/usr/bin/env python3
r"""Many desks at one controller: what `nrm_desks` writes to frames, by hand, and crowds beside the second account.

    tests/desks.py [PATTERN] [--desks WORD...] [--program WORD...] [--tries N] [--seed N]

PATTERN picks the tests with it in their names. The program is that of --desks, else the words of NRM_DESKS, else the
script `nrm_desks` at the top; `nrm`, which answers the lines of a journal, is that of --program, else the script `nrm`.
The head of tests/crowds.py says what a crowd is: --tries says how many there are and --seed the number of the first,
so `tests/desks.py crowds --seed N --tries 1` is the one that was told. What fails is told; the last line is
`N passed, M failed`.

A talk by hand has a line for each frame, and its numbers of bytes are counted here. Frames that stand one after the
other are given at once; of those that are wanted those of each place must come in this order, and no others:

    in FRAME              `in came 1 TEXT`, `in again TEXT` and `in again` have the bytes of TEXT
    in raw TEXT           bytes that may be no frame
    out FRAME             `out keep TEXT`, `out keep` and `out send 1 USED TEXT` have the bytes of TEXT
    still                 nothing comes for a while
    status N              the input ends, nothing more is written, and this is the status

In TEXT `\n` is a line feed, `\t` a tab, `\r` a carriage return and `\xNN` a byte. A line that ends in `\` goes on in
the next, behind its blanks.
"""
import os
import re
import subprocess
import sys

sys.dont_write_bytecode = True
import checks
import crowds
import frames
from checks import TOP, want

EMPTY = "in again\nout ready 0\n"
TWO_LEGS, BID_PRICES, CERTIFICATE = (
    os.path.join(TOP, "examples", it, "network.csv") for it in ("two-legs", "bid-prices", "certificate"))
USAGE = b"usage: nrm_desks MODE FILE\n"
BAD, X = r"bad\n", r"x\n"
ALL = "look,book,cancel-own,cancel-any,plan,greet"
GREATEST = 999_999_999_999_999
test = checks.Tests()


class Place:
    """A folder with files, and the programs that are run."""

    def __init__(self, folder, given):
        self.folder, self.given = folder, given

    def file(self, name, text):
        path = os.path.join(self.folder, name)
        with open(path, "w") as file:
            file.write(text)
        return path

    def ran(self, *words, **more):
        """What the program writes, and its status."""
        more = {"stdin": subprocess.DEVNULL, "stdout": subprocess.PIPE, **more}
        done = subprocess.run([*self.given.desks, *words], cwd=self.folder, stderr=subprocess.PIPE, **more)
        want(done.stderr, b"", f"standard error of {words}")
        return done.stdout, done.returncode

    def nrm(self, *words, **more):
        """What `nrm` writes, and its status."""
        done = subprocess.run([*self.given.program, *words], cwd=self.folder, stdout=subprocess.PIPE,
                              **{"stdin": subprocess.DEVNULL, **more})
        return done.stdout, done.returncode

    def replies(self, mode, network, lines, after):
        """The replies of `nrm run` to the lines after others; behind each comes an empty line, which is `bad`."""
        given = "".join(f"{it}\n" for it in lines) + "\n" + "".join(f"{it}\n\n" for it in after)
        told, status = self.nrm("run", mode, network, stdin=None, input=given.encode())
        want(status, 0, "the status of nrm run")
        return told.decode().split("bad\n")[1:-1]

    def talk(self, script, mode="first", network=TWO_LEGS):
        with frames.Running([*self.given.desks, mode, network], cwd=self.folder) as running:
            Talk(running).go_through(script)


ESCAPE = re.compile(r"\\(n|t|r|\\|x[0-9a-f]{2})")
SENT = re.compile(r"([0-9]+ [0-9]+) ?(.*)")
GOES_ON = re.compile(r"\\\n *")
ESCAPED = {"n": "\n", "t": "\t", "r": "\r", "\\": "\\"}


def bytes_of(text):
    return ESCAPE.sub(lambda it: ESCAPED.get(it[1]) or chr(int(it[1][1:], 16)), text).encode("latin-1")


def frame_of(words):
    """The bytes of a frame that is given."""
    word, _, rest = words.partition(" ")
    if word == "came":
        place, _, text = rest.partition(" ")
        return frames.came(int(place), bytes_of(text))
    if word in ("again", "raw"):
        return frames.again(bytes_of(rest)) if word == "again" else bytes_of(rest)
    return words.encode() + b"\n"


def wanted_of(words):
    """The line and the bytes of a frame that is wanted."""
    word, _, rest = words.partition(" ")
    if word not in ("keep", "send"):
        return words.encode(), b""
    *numbers, text = [rest] if word == "keep" else SENT.fullmatch(rest).groups()
    data = bytes_of(text)
    return " ".join([word, *numbers, str(len(data))]).encode(), data


class Talk:
    """A talk by hand with a program that runs."""

    def __init__(self, running):
        self.running, self.given, self.wanted = running, b"", []

    def go_through(self, script):
        for line in GOES_ON.sub("", script).strip("\n").split("\n"):
            verb, _, words = line.lstrip().partition(" ")
            if verb == "out":
                self.wanted.append(wanted_of(words))
                continue
            self.want()
            if verb == "in":
                self.given += frame_of(words)
            elif verb:
                self.give()
                getattr(self, f"want_{verb}")(words)
        want((self.given, self.wanted), (b"", []), "what stands behind the last line")

    def give(self):
        """Gives what was gathered, before which nothing but what was wanted may have come."""
        if self.given:
            self.running.want_still()
            self.running.give(self.given)
        self.given = b""

    def want(self):
        """Wants the frames that were gathered."""
        if self.wanted:
            self.give()
            found = [self.running.next(it) for it in self.wanted]
            want(frames.in_order(found), frames.in_order(self.wanted), "what was written")
        self.wanted = []

    def want_still(self, _):
        self.running.want_still(frames.STILL)

    def want_status(self, words):
        want(self.running.end(), ([], b"", int(words)), "the end")


# Greetings


@test
def a_greeting_with_a_number(place):
    place.talk(EMPTY + r"""
        in open 0 A book
        in came 0 desk A 41\nbook LOC 1\nbook X 1\r\n
        out keep 1\tA\t41\tbook LOC 1\tok 1\n2\tA\t42\tbook X 1\tunknown\n
        in kept
        out send 0 31 at 41\nok 1\nunknown\n
        status 0""")


@test
def a_greeting_without_a_number(place):
    """1 where the desk has no row, else the number behind its last row, of the journal or of this run."""
    place.talk(r"""
        in again 1\tA\t7\tbook LOC 1\tok 1\n
        in again
        out ready 1
        in open 1 A book
        in open 2 NEW none
        in came 1 desk A\nbook LOC 1\n
        in came 2 desk NEW\n
        out keep 2\tA\t8\tbook LOC 1\tok 2\n
        in kept
        out send 1 18 at 8\nok 2\n
        out send 2 9 at 1\n
        in open 3 A none
        in came 3 desk A\n
        out keep
        in kept
        out send 3 7 at 9\n
        out close 1 elsewhere
        status 0""")


@test
def no_greeting(place):
    """The desk of the relay's name, with the number behind its last row."""
    place.talk(r"""
        in again 1\tA\t7\tbook LOC 1\tok 1\n
        in again
        out ready 1
        in open 1 A book
        in open 2 NEW book,look
        in came 1 book LOC 1\n
        in came 2 hindsight\nbook LOC 1\n
        out keep 2\tA\t8\tbook LOC 1\tok 2\n
        in kept
        out send 1 11 ok 2\n
        out send 2 10 hindsight 400/1 revenue 400 withheld 0\n
        out keep 3\tNEW\t2\tbook LOC 1\tok 3\n
        in kept
        out send 2 11 ok 3\n
        status 0""")


@test
def lines_that_are_no_greeting(place):
    """They are `bad`, as is a greeting that isn't the first line, and each has a number."""
    for line in ("desk", "desk ", "desk A 0", "desk A 01", "desk A 1000000000000000", "desk a 1", "desk A-_ 1",
                 "desk ABCDEFGHIJKLM", "desk A 1 ", " desk A", "desk  A", "Desk A", "desk A 1 1", "desk A -1", ""):
        place.talk(EMPTY + rf"""
            in open 1 R {ALL}
            in came 1 {line}\nbook LOC 1\ndesk A 9\nbook LOC 1\n
            out keep 1\tR\t2\tbook LOC 1\tok 1\n2\tR\t4\tbook LOC 1\tok 2\n
            in kept
            out send 1 {len(line) + 32} bad\nok 1\nbad\nok 2\n
            status 0""")


@test
def the_greatest_number(place):
    place.talk(EMPTY + rf"""
        in open 1 A book,look
        in came 1 desk A {GREATEST}\nbook LOC 1\nbook LOC 1\nbook LOC 1\n
        out keep 1\tA\t{GREATEST}\tbook LOC 1\tok 1\n
        in kept
        out send 1 45 at {GREATEST}\nok 1\n
        out close 1 sequence
        in open 1 A book,look
        in came 1 desk A {GREATEST}\r\nbook LOC 1\nleg AB\n
        out keep
        in kept
        out send 1 42 at {GREATEST}\nok 1\n
        out close 1 sequence
        status 0""")


# Looks


@test
def what_bounds_a_party(place):
    """Under `first` a leg, the most that a line may ask for, and no such product."""
    network = place.file("wide.csv", "periods,1,1\nleg,AB,999\nleg,BC,2\nproduct,P,1,AB\nproduct,Q,1,AB,BC\n")
    place.talk(EMPTY + r"""
        in open 1 A look,book
        in came 1 ask P\nask Q\nask X\nask\nask P 1\nask p\nASK P\nask Q\r\nbook P 1\nask P\nbook Q 2\nask Q\n
        out keep 1\tA\t9\tbook P 1\tok 1\n2\tA\t11\tbook Q 2\tok 2\n
        in kept
        out send 1 79 ask P 999 most\nask Q 2 leg BC\nask X unknown\nbad\nbad\nbad\nbad\nask Q 2 leg BC\n\
            ok 1\nask P 998 leg AB\nok 2\nask Q 0 leg BC\n
        status 0""", network=network)


@test
def what_bounds_a_party_by_prices(place):
    """The page of bid prices: THRU is below by 10, LOW just reaches, and a leg without a seat is told first."""
    place.talk(EMPTY + r"""
        in open 1 A look,book
        in came 1 ask THRU\nask LOW\nbook LOC 4\nask THRU\nask LOW\n
        out keep 1\tA\t3\tbook LOC 4\tok 1\n
        in kept
        out send 1 45 ask THRU 0 fare\nask LOW 4 leg AB\nok 1\nask THRU 0 leg BC\nask LOW 4 leg AB\n
        status 0""", "bid", BID_PRICES)


@test
def what_bounds_a_party_by_nests(place):
    """The page of nests: 7 of the 10 seats are protected from ABL and none from ABH."""
    place.talk(EMPTY + r"""
        in open 1 A look,book
        in came 1 ask ABL\nask ABH\nbook ABL 3\nask ABL\nask ABH\n
        out keep 1\tA\t3\tbook ABL 3\tok 1\n
        in kept
        out send 1 43 ask ABL 3 leg AB\nask ABH 10 leg AB\nok 1\nask ABL 0 leg AB\nask ABH 7 leg AB\n
        status 0""", "davn", CERTIFICATE)


@test
def an_empty_line_behind_several(place):
    """It stands behind every text of a leg or of a plan, be it of one line or of several, and behind no other reply."""
    place.talk(EMPTY + r"""
        in open 1 A look,book
        in came 1 leg AB\nbook LOC 1\nleg AB\nleg X\nplan\n
        out keep
        in kept
        out send 1 7 leg AB seats 3 authorised 3 sold 0 left 3\n\n
        out keep 1\tA\t2\tbook LOC 1\tok 1\n
        in kept
        out send 1 18 ok 1\nleg AB seats 3 authorised 3 sold 1 left 2\non AB LOC 1\n\n
        out keep
        in kept
        out send 1 6 unknown\n
        out keep
        in kept
        out send 1 5 first\n\n
        status 0""")
    with open(os.path.join(os.path.dirname(BID_PRICES), "plan.txt")) as file:
        plan = escaped(file.read())
    place.talk(EMPTY + rf"""
        in open 1 A look
        in came 1 plan\nask X\n
        out keep
        in kept
        out send 1 5 {plan}\n
        out keep
        in kept
        out send 1 6 ask X unknown\n
        status 0""", "bid", BID_PRICES)


@test
def a_plan_under_first(place):
    """One line, and an empty one; neither what is denied nor what is no command has that."""
    place.talk(EMPTY + r"""
        in open 1 A look,plan
        in open 2 B plan
        in came 1 plan\nreoptimise 1\nplan\r\nplan 1\n
        in came 2 plan\n
        out keep
        in kept
        out send 1 5 first\n\n
        out send 2 5 denied\n
        out keep 1\tA\t2\treoptimise 1\toptimised none\n
        in kept
        out send 1 13 optimised none\n
        out keep
        in kept
        out send 1 6 first\n\n
        out keep
        in kept
        out send 1 7 bad\n
        status 0""")


@test
def nothing_before_kept(place):
    """Neither a reply to a look, nor the end of a client, and no further line is taken."""
    place.talk(EMPTY + r"""
        in open 1 A look
        in open 2 B look,book
        in open 3 C book
        in came 1 leg AB\n
        out keep
        still
        in came 2 book LOC 1\n
        in came 3 book LOC
        still
        in gone 1
        still
        in kept
        out send 1 7 leg AB seats 3 authorised 3 sold 0 left 3\n\n
        out close 1 gone
        out keep 1\tB\t1\tbook LOC 1\tok 1\n
        still
        in kept
        out send 2 11 ok 1\n
        still
        status 0""")


# Numbers that were used


@test
def the_same_line_again(place):
    """It gets the reply that it had, also the one that would be another now; looks are answered anew."""
    place.talk(EMPTY + rf"""
        in open 1 A {ALL}
        in came 1 desk A 1\nbook LOC 2\ncancel 1\nask LOC\nbook LOC 3\nreoptimise 1\nbook LOC 1\n
        out keep 1\tA\t1\tbook LOC 2\tok 1\n2\tA\t2\tcancel 1\tcancelled 1 400\n3\tA\t4\tbook LOC 3\tok 2\n\
            4\tA\t5\treoptimise 1\toptimised none\n
        in kept
        out send 1 61 at 1\nok 1\ncancelled 1 400\nask LOC 3 leg AB\nok 2\noptimised none\n
        out keep 5\tA\t6\tbook LOC 1\tno AB\n
        in kept
        out send 1 11 no AB\n
        in open 2 A {ALL}
        in came 2 desk A 1\r\nbook LOC 2\r\ncancel 1\nask LOC\nbook LOC 3\nreoptimise 1\nbook LOC 1\nbook LOC 1\n
        out keep
        in kept
        out close 1 elsewhere
        out send 2 63 at 1\nok 1\ncancelled 1 400\nask LOC 0 leg AB\nok 2\noptimised none\n
        out keep 6\tA\t7\tbook LOC 1\tno AB\n
        in kept
        out send 2 22 no AB\nno AB\n
        status 0""")


@test
def another_line_under_a_number(place):
    """The client is closed, behind the replies before it, and what it sent behind that isn't taken."""
    for line in ("book LOC 2", "book THRU 1", "cancel 1", "reoptimise 1"):
        place.talk(EMPTY + rf"""
            in open 1 A {ALL}
            in open 2 B book
            in came 1 desk A 5\nbook LOC 1\n
            out keep 1\tA\t5\tbook LOC 1\tok 1\n
            in kept
            out send 1 20 at 5\nok 1\n
            in open 3 A {ALL}
            in came 3 desk A 5\n{line}\nbook LOC 1\n
            in came 2 book LOC 1\n
            out keep 2\tB\t1\tbook LOC 1\tok 2\n
            in kept
            out send 3 {10 + len(line)} at 5\n
            out close 3 sequence
            out send 2 11 ok 2\n
            out close 1 elsewhere
            status 0""")


@test
def a_number_that_was_left_out(place):
    """It is used once a row has a higher one, and older than what is held below the first; what changes nothing is
    answered under each."""
    for greeting, why in (("desk A 6", "sequence"), ("desk A 2", "old")):
        place.talk(EMPTY + rf"""
            in open 1 A look,book
            in came 1 desk A 5\nbook LOC 1\nask X\nbook\nask X\nbook LOC 1\n
            out keep 1\tA\t5\tbook LOC 1\tok 1\n2\tA\t9\tbook LOC 1\tok 2\n
            in kept
            out send 1 48 at 5\nok 1\nask X unknown\nbad\nask X unknown\nok 2\n
            in open 2 A look,book
            in came 2 {greeting}\nask X\nbook\nbook LOC 1\nask X\n
            out keep
            in kept
            out send 2 31 at {greeting[-1]}\nask X unknown\nbad\n
            out close 2 {why}
            out close 1 elsewhere
            status 0""")


def many_rows(count):
    return "".join(rf"{it}\tA\t{it}\tbook X {it % 999 + 1}\tunknown\n" for it in range(1, count + 1))


@test
def older_than_held(place):
    """The last hundred rows of a desk are held, and the first of 1,200 isn't, whether it comes again as it was."""
    place.talk(rf"""
        in again {many_rows(1200)}
        in again
        out ready 1200
        in open 1 A book
        in came 1 desk A 1101\nbook X {1101 % 999 + 1}\n
        out keep
        in kept
        out send 1 23 at 1101\nunknown\n
        in open 2 A book
        in came 2 desk A 1\nbook X 2\n
        out keep
        in kept
        out send 2 18 at 1\n
        out close 2 old
        out close 1 elsewhere
        status 0""")


# One connection a desk


@test
def a_later_connection(place):
    """Once its first line is taken, and in one round: what the earlier one sent before is answered, and no more."""
    place.talk(EMPTY + rf"""
        in open 1 A look,book
        in open 2 R {ALL}
        in came 2 desk A 1
        in came 1 book LOC 1\nask LOC\nleg BC\nbook LOC 1\n
        out keep 1\tA\t1\tbook LOC 1\tok 1\n
        still
        in came 2 \n
        in kept
        out send 1 26 ok 1\nask LOC 2 leg AB\nleg BC seats 2 authorised 2 sold 0 left 2\n\n
        out keep 2\tA\t4\tbook LOC 1\tok 2\n
        in kept
        out send 1 11 ok 2\n
        out send 2 9 at 1\n
        out close 1 elsewhere
        in open 1 A look
        in came 1 ask LOC\n
        out keep
        in kept
        out send 1 8 ask LOC 1 leg AB\n
        out close 2 elsewhere
        status 0""")


@test
def the_next_at_a_place(place):
    """Neither the bytes of the one before it wait, nor is its name, its number or what it used remembered."""
    place.talk(EMPTY + r"""
        in open 1 A book,look
        in open 2 B book
        in came 1 desk A 77\nbook LOC 1\nbook LO
        in came 2 book LOC 1\n
        out keep 1\tA\t77\tbook LOC 1\tok 1\n2\tB\t1\tbook LOC 1\tok 2\n
        in gone 1
        in kept
        out send 1 21 at 77\nok 1\n
        out send 2 11 ok 2\n
        out close 1 gone
        in open 1 C book
        in came 1 C 1\nbook LOC 1\n
        in came 2 book X 1\n
        out keep 3\tC\t2\tbook LOC 1\tok 3\n4\tB\t2\tbook X 1\tunknown\n
        in kept
        out send 1 15 bad\nok 3\n
        out send 2 9 unknown\n
        in gone 1
        out keep
        in kept
        out close 1 gone
        in open 1 A book
        in came 1 desk A\n
        out keep
        in kept
        out send 1 7 at 78\n
        status 0""")


# Rights

LINES = ["leg BC", "plan", "hindsight", "ask LOC", "book LOC 1", "cancel 1", "cancel 2", "cancel 3", "cancel 0",
         "reoptimise 1", "LEG"]
ANSWERS = {
    "look": [r"leg BC seats 2 authorised 2 sold 0 left 2\n", r"first\n", "hindsight 400/1 revenue 400 withheld 0",
             "ask LOC 1 leg AB", *["denied"] * 6, "bad"],
    "book": [*["denied"] * 4, "ok 3", *["denied"] * 5, "bad"],
    "cancel-own": [*["denied"] * 5, "cancelled 1 200", *["denied"] * 4, "bad"],
    "cancel-any": [*["denied"] * 5, "cancelled 1 200", "cancelled 2 200", "unknown", "unknown", "denied", "bad"],
    "plan": [*["denied"] * 9, "optimised none", "bad"],
    "greet": [*["denied"] * 10, "bad"],
    "none": [*["denied"] * 10, "bad"]}
STANDING = r"1\tA\t1\tbook LOC 1\tok 1\n2\tB\t1\tbook LOC 1\tok 2\n"


@test
def each_right(place):
    """Desk A, which booked 1, sends each line by each right; B booked 2, and nobody 3."""
    for rights, answers in ANSWERS.items():
        for number, (line, answer) in enumerate(zip(LINES, answers), 2):
            is_change = line.split()[0] in ("book", "cancel", "reoptimise") and answer != "denied"
            row = rf"3\tA\t{number}\t{line}\t{answer}\n" if is_change else ""
            place.talk(rf"""
                in again {STANDING}
                in again
                out ready 2
                in open 7 A {rights}
                in came 7 desk A {number}\n{line}\n
                out keep {row}
                in kept
                out send 7 {len(f"desk A {number}") + len(line) + 2} at {number}\n{answer}\n
                status 0""")


@test
def none_beside_other_rights(place):
    """It is nothing there, and takes nothing away."""
    for rights in ("look,none", "none,look", "none,look,none"):
        place.talk(EMPTY + rf"""
            in open 1 A {rights}
            in came 1 ask LOC\nbook LOC 1\n
            out keep
            in kept
            out send 1 19 ask LOC 3 leg AB\ndenied\n
            status 0""")


@test
def a_denied_line_counts_up(place):
    """And isn't remembered: of the 3 seats of AB that were denied none is in hindsight."""
    place.talk(EMPTY + r"""
        in open 1 A look,cancel-own
        in open 2 B look,book
        in came 1 book LOC 3\ncancel 1\nreoptimise 1\n
        in came 2 book LOC 1\nhindsight\n
        out keep 1\tB\t1\tbook LOC 1\tok 1\n
        in kept
        out send 1 33 denied\ndenied\ndenied\n
        out send 2 21 ok 1\nhindsight 200/1 revenue 200 withheld 0\n
        in open 3 R book,greet
        in came 3 desk A 4\nbook X 1\n
        out keep 2\tA\t4\tbook X 1\tunknown\n
        in kept
        out send 3 18 at 4\nunknown\n
        out close 1 elsewhere
        status 0""")


@test
def a_greeting_as_another(place):
    """By `greet` alone; denied, the client is no desk yet and nothing counts up. Its own name is no other."""
    place.talk(EMPTY + r"""
        in open 1 R book,look
        in open 2 S greet,book
        in open 3 T book
        in came 1 desk A 9\nbook LOC 1\n
        in came 2 desk A 9\nbook LOC 1\n
        in came 3 desk T 9\nbook LOC 1\n
        out keep 1\tR\t1\tbook LOC 1\tok 1\n2\tA\t9\tbook LOC 1\tok 2\n3\tT\t9\tbook LOC 1\tok 3\n
        in kept
        out send 1 20 denied\nok 1\n
        out send 2 20 at 9\nok 2\n
        out send 3 20 at 9\nok 3\n
        status 0""")


@test
def a_greeting_behind_one_that_was_denied(place):
    """It is the first line, so it counts from the desk's last row, and a connection ends by it and not before."""
    place.talk(EMPTY + r"""
        in open 1 A book
        in open 2 R book
        in came 1 book LOC 1\n
        in came 2 book LOC 1\n
        out keep 1\tA\t1\tbook LOC 1\tok 1\n2\tR\t1\tbook LOC 1\tok 2\n
        in kept
        out send 1 11 ok 1\n
        out send 2 11 ok 2\n
        in open 3 R book
        in came 3 desk A 1\ndesk B\r\n
        out keep
        in kept
        out send 3 17 denied\ndenied\n
        still
        in came 3 desk R\nbook LOC 1\ndesk A 1\nbook X 1\n
        out keep 3\tR\t2\tbook LOC 1\tok 3\n4\tR\t4\tbook X 1\tunknown\n
        in kept
        out send 3 36 at 2\nok 3\nbad\nunknown\n
        out close 2 elsewhere
        in came 1 book X 1\n
        out keep 5\tA\t2\tbook X 1\tunknown\n
        in kept
        out send 1 9 unknown\n
        status 0""")


@test
def own_bookings_after_a_restart(place):
    """As the journal knows them, also one that was cancelled; those of others and of nobody are denied."""
    place.talk(r"""
        in again 1\tA\t1\tbook LOC 1\tok 1\n2\tB\t1\tbook THRU 1\tok 2\n
        in again 3\tA\t2\tbook X 1\tunknown\n4\tA\t3\tbook LOC 1\tok 3\n5\tB\t2\tcancel 3\tcancelled 3 200\n
        in again
        out ready 5
        in open 1 A cancel-own
        in open 2 B cancel-own
        in came 1 cancel 2\ncancel 3\ncancel 4\n
        in came 2 cancel 1\ncancel 2\ncancel 2\n
        out keep 6\tA\t5\tcancel 3\tunknown\n7\tB\t4\tcancel 2\tcancelled 2 500\n8\tB\t5\tcancel 2\tunknown\n
        in kept
        out send 1 27 denied\nunknown\ndenied\n
        out send 2 27 denied\ncancelled 2 500\nunknown\n
        status 0""")


# Why a client is closed


@test
def long_lines(place):
    """999 bytes are a line, 1,000 are too many, ended or not; what was sent before is answered, what behind isn't."""
    most = "x" * 999
    place.talk(EMPTY + rf"""
        in open 1 A book
        in open 2 B book
        in open 3 C book
        in came 1 {most}\nbook LOC 1\n
        in came 2 book LOC 1\n{most}x\nbook LOC 1\n
        in came 3 book LOC 1\n{most}
        out keep 1\tA\t2\tbook LOC 1\tok 1\n2\tB\t1\tbook LOC 1\tok 2\n3\tC\t1\tbook LOC 1\tok 3\n
        in kept
        out send 1 1011 bad\nok 1\n
        out send 2 11 ok 2\n
        out close 2 long
        out send 3 11 ok 3\n
        in came 3 x
        out keep
        in kept
        out close 3 long
        status 0""")


@test
def too_many_desks(place):
    """There are 100,000, and clients that are one of them are heard; one that would be another is closed."""
    script = ""
    for first in range(1, 100_001, 1000):
        rows = "".join(rf"{it}\tD{it}\t1\tbook X 1\tunknown\n" for it in range(first, first + 1000))
        script += f"in again {rows}\n"
    place.talk(script + r"""
        in again
        out ready 100000
        in open 1 R greet,book
        in open 2 S greet,book
        in open 3 D100001 greet,book
        in came 1 desk D100000\nbook X 1\n
        in came 2 desk S 2\nbook X 1\n
        in came 3 book X 1\n
        out keep 100001\tD100000\t2\tbook X 1\tunknown\n
        in kept
        out send 1 22 at 2\nunknown\n
        out send 2 9
        out close 2 desks
        out send 3 9
        out close 3 desks
        status 0""")


@test
def the_window(place):
    """131,072 bytes may wait, and one more is too many; the others are heard."""
    full = (r"x" * 899 + r"\n") * 72
    place.talk(EMPTY + rf"""
        in open 1 A book
        in open 2 B book
        in open 3 C book
        in came 1 book LOC 1\n
        out keep 1\tA\t1\tbook LOC 1\tok 1\n
        in came 2 {full}
        in came 2 {full}
        in came 2 {"x" * 900}
        in came 3 {full}
        in came 3 {full}
        in came 3 {"x" * 900}
        in came 2 {"x" * 572}
        in came 3 {"x" * 573}
        in kept
        out send 1 11 ok 1\n
        out close 3 window
        out keep
        in kept
        out send 2 90000 {BAD * 100}
        out keep
        in kept
        out send 2 39600 {BAD * 44}
        out close 2 long
        status 0""")


@test
def gone(place):
    """It is closed in a round, behind the reply to what was taken. What waits isn't taken."""
    place.talk(EMPTY + r"""
        in open 1 A book
        in gone 1
        out keep
        in kept
        out close 1 gone
        in gone 1
        in gone 2
        in came 1 book LOC 1\n
        in came 9999 book LOC 1\n
        still
        in open 1 B book,look
        in came 1 leg AB\nbook LOC 1\n
        out keep
        in gone 1
        in came 1 book LOC 1\n
        in gone 1
        in kept
        out send 1 7 leg AB seats 3 authorised 3 sold 0 left 3\n\n
        out close 1 gone
        in open 1 C book
        in came 1 book LOC 1\n
        in gone 1
        out keep
        in kept
        out close 1 gone
        in open 1 D book
        in came 1 book LOC 3\n
        out keep 1\tD\t1\tbook LOC 3\tok 1\n
        status 0""")


# Frames


@test
def what_is_no_frame(place):
    opened = EMPTY + "in open 1 A book\n"
    for given in (r"x\n", r"\n", r"again\n", r"again 1\nx", r"again 0\n", r"open 1 B book\n", r"open 10000 A book\n",
                  r"open 02 A book\n",
                  r"open 2 a book\n", r"open 2 ABCDEFGHIJKLM book\n", r"open 2 A books\n", r"open 2 A book,\n",
                  r"open 2 A none,\n", r"open 2 A None\n",
                  r"open 2 A\n", r"open 2 A book look\n", r"came 1\n", r"came 1 65537\n", r"came 1 01\nx",
                  r"came 1 -1\n",
                  r"came 1  1\nx", r"came 10000 1\nx", r"gone\n", r"gone 10000\n", r"kept\n", r"kept 1\n", r"ended\n",
                  r"END\n", r"end 1\n", r"end\r\n", "x" * 128, "came 1 " + "1" * 121, r"gone 1\x00\n"):
        place.talk(opened + f"in raw {given}\nstatus 10")
    for given in (r"came 1 3\nab", "came 1 3", "e", "end", r"came 1 1\n", r"kep"):
        place.talk(opened + f"in raw {given}\nstill\nstatus 10")


@test
def what_may_not_come_before_ready(place):
    for frame in ("open 1 A book", "came 1 x", "gone 1", "kept"):
        place.talk(f"in {frame}\nstatus 10")
        place.talk(rf"in again 1\tA\t1\tbook LOC 1\tok 1\n" + f"\nin {frame}\nstatus 10")


@test
def how_it_ends(place):
    """By `end` or the end of the input, also before it is ready, and without what is awaited."""
    for script in ("status 0", "in end\nstatus 0", EMPTY + "status 0", EMPTY + "in end\nstatus 0",
                   r"in again 1\tA\t1\tbook LOC 1\tok 1\n" + "\nstatus 0"):
        place.talk(script)
    for end in ("", "in end\n", "in end\nin raw x\n"):
        place.talk(EMPTY + r"""
            in open 1 A book
            in came 1 book LOC 1\n
            out keep 1\tA\t1\tbook LOC 1\tok 1\n
            """ + end + "status 0")


@test
def frames_in_pieces(place):
    """Each byte by itself, and as much as a frame may have."""
    given = (b"again 0\nopen 1 A book\n" + frames.came(1, b"") + frames.came(1, b"book LOC 1") + frames.came(1, b"\n"))
    with frames.Running([*place.given.desks, "first", TWO_LEGS]) as running:
        for at in range(len(given)):
            running.give(given[at:at + 1])
        want(running.next("a frame"), (b"ready 0", b""), "each byte by itself")
        want(running.next("a frame"), (b"keep 22", b"1\tA\t1\tbook LOC 1\tok 1\n"), "each byte by itself")
        want(running.end(), ([], b"", 0), "each byte by itself")
    line = "x" * 655 + r"\n"
    place.talk(EMPTY + rf"""
        in open 9999 ABCDEFGHI-12 none
        in came 9999 {line * 99}{"x" * 591}\n
        in open 0 Z {ALL}
        out keep
        in kept
        out send 9999 65536 {BAD * 100}
        status 0""")


# Rounds


@test
def a_hundred_lines_a_round(place):
    place.talk(EMPTY + rf"""
        in open 1 A book
        in open 2 B book
        in came 1 {X * 250}
        in came 2 book LOC 1\n
        out keep 1\tB\t1\tbook LOC 1\tok 1\n
        in came 2 book LOC 1\n
        in kept
        out send 1 200 {BAD * 100}
        out send 2 11 ok 1\n
        out keep 2\tB\t2\tbook LOC 1\tok 2\n
        in kept
        out send 1 200 {BAD * 100}
        out send 2 11 ok 2\n
        out keep
        in kept
        out send 1 100 {BAD * 50}
        still
        status 0""")


@test
def one_long_line_a_round(place):
    """Nothing is taken behind `leg`, `plan`, `hindsight` and `reoptimise`, and the others are heard in between."""
    place.talk(EMPTY + rf"""
        in open 1 A {ALL}
        in open 2 B book
        in came 1 ask LOC\nplan\nhindsight\nreoptimise 1\nreoptimise 2\nleg X\nx\nx\n
        in came 2 x\n
        out keep
        in came 2 x\n
        in kept
        out send 1 13 ask LOC 3 leg AB\nfirst\n\n
        out send 2 2 bad\n
        out keep
        in kept
        out send 1 10 hindsight 0/1 revenue 0 withheld 0\n
        out send 2 2 bad\n
        out keep 1\tA\t4\treoptimise 1\toptimised none\n
        in kept
        out send 1 13 optimised none\n
        out keep 2\tA\t5\treoptimise 2\tunknown\n
        in kept
        out send 1 13 unknown\n
        out keep
        in kept
        out send 1 6 unknown\n
        out keep
        in kept
        out send 1 4 bad\nbad\n
        status 0""")


@test
def turns_in_their_order(place):
    """That in which their lines came, whichever their places, be it at once or while rows are awaited."""
    place.talk(EMPTY + r"""
        in open 1 A book
        in open 2 B book
        in open 3 C book
        in came 3 book LOC 1\n
        in came 1 book LOC 1\n
        in came 2 book LOC 1\n
        out keep 1\tC\t1\tbook LOC 1\tok 1\n2\tA\t1\tbook LOC 1\tok 2\n3\tB\t1\tbook LOC 1\tok 3\n
        in came 2 book X 1\n
        in came 1 book X
        in came 3 book X 1\n
        in kept
        out send 3 11 ok 1\n
        out send 1 11 ok 2\n
        out send 2 11 ok 3\n
        out keep 4\tB\t2\tbook X 1\tunknown\n5\tC\t2\tbook X 1\tunknown\n
        in kept
        out send 2 9 unknown\n
        out send 3 9 unknown\n
        status 0""")


@test
def no_turn_is_left_to_the_next_at_a_place(place):
    """A client is closed while it has a turn to come; who is opened at its place has none before its own lines come."""
    place.talk(EMPTY + rf"""
        in open 1 A book
        in open 2 B book
        in came 1 {X * 101}
        out keep
        in gone 1
        in kept
        in open 1 C book
        in came 2 book LOC 1\n
        in came 1 book LOC 1\n
        out send 1 200 {BAD * 100}
        out close 1 gone
        out keep 1\tB\t1\tbook LOC 1\tok 1\n2\tC\t1\tbook LOC 1\tok 2\n
        in kept
        out send 2 11 ok 1\n
        out send 1 11 ok 2\n
        status 0""")


@test
def a_slow_client(place):
    """One that never ends its line, and one that has much waiting, hold nobody up."""
    script = EMPTY + rf"""
        in open 1 A book
        in open 2 B none
        in open 3 C book
        in came 1 book LOC
        in came 2 {X * 9999}
        in came 3 book X 1\n"""
    for number in range(1, 9):
        script += rf"""
            out keep {number}\tC\t{number}\tbook X {number}\tunknown\n
            in came 3 book X {number + 1}\n
            in kept
            out send 2 200 {BAD * 100}
            out send 3 9 unknown\n"""
    place.talk(script + "\n" + r"out keep 9\tC\t9\tbook X 9\tunknown\n" + "\nstatus 0")


# Rows that are given again

JOURNAL = [r"1\tA\t1\tbook THRU 1\tok 1\n", r"2\tB\t5\tbook LOC 2\tok 2\n", r"3\tA\t4\tcancel 1\tcancelled 1 500\n",
           r"4\tB\t6\treoptimise 1\toptimised none\n", r"5\tC\t1\tbook LOC 1\tok 3\n", r"6\tC\t2\tbook LOC 1\tno AB\n"]


@test
def rows_cut_anywhere(place):
    """The state is that of a run over the lines of the rows that are left, whichever frames they come in."""
    after = ["leg AB", "hindsight", "book THRU 1", "cancel 2", "hindsight", "plan"]
    for count in range(len(JOURNAL) + 1):
        lines = [it.split(r"\t")[3] for it in JOURNAL[:count]]
        replies = place.replies("first", TWO_LEGS, lines, after)
        for each in (1, 2, 6):
            parts = ["".join(JOURNAL[at:min(at + each, count)]) for at in range(0, count, each)]
            script = "".join(f"in again {it}\n" for it in parts) + f"in again\nout ready {count}\n"
            place.talk(script + f"in open 1 Z {ALL}\n" + goes_on(count, after, replies) + "status 0")


def goes_on(rows, lines, replies):
    """A talk in which a desk at place 1 without a row sends lines one by one."""
    script = ""
    for number, (line, reply) in enumerate(zip(lines, replies), 1):
        row, behind = "", r"\n" if line in ("leg AB", "plan") else ""
        if line.split()[0] in ("book", "cancel"):
            rows += 1
            row = rf"{rows}\tZ\t{number}\t{line}\t" + reply
        script += rf"""
            in came 1 {line}\n
            out keep {escaped(row)}
            in kept
            out send 1 {len(line) + 1} {escaped(reply)}{behind}
            """
    return script


def escaped(text):
    return text.replace("\n", r"\n")


@test
def rows_that_are_none(place):
    """Status 11, and the number of the row."""
    first = JOURNAL[0]
    for row in (r"2\tA\t1\tbook LOC 1\tok 1\n", r"x\n", r"\n", r"01\tA\t1\tbook LOC 1\tok 1\n",
                r"1\ta\t1\tbook LOC 1\tok 1\n", r"1\tA\t0\tbook LOC 1\tok 1\n", r"1\tA\t01\tbook LOC 1\tok 1\n",
                r"1\tA\t1000000000000000\tbook LOC 1\tok 1\n", r"1\tA\t1\tbook LOC 1\n", r"1\t\t1\tbook LOC 1\tok 1\n"):
        place.talk(rf"""
            in again {row}
            out no row 1
            status 11""")
    for row in (r"1\tA\t2\tbook LOC 1\tok 2\n", r"3\tA\t2\tbook LOC 1\tok 2\n", r"2\tA\t1\tbook LOC 1\tok 2\n", "x"):
        place.talk(rf"""
            in again {first}{row}
            out no row 2
            status 11""")


@test
def rows_that_differ(place):
    """Status 12: another reply, a network or a mode in which the line is answered otherwise."""
    for reply in ("ok 2", "no AB", "ok 1 ", "", "OK 1"):
        place.talk(rf"""
            in again 1\tA\t1\tbook LOC 1\t{reply}\n
            out differs 1
            status 12""")
    place.talk("in again " + "".join(JOURNAL) + "\nout differs 3\nstatus 12", network=BID_PRICES)
    place.talk("in again " + "".join(JOURNAL[:4]) + "\nout differs 4\nstatus 12", mode="bid")


@test
def rows_with_more_in_them(place):
    """A sixth field, and a carriage return behind the command: such a row differs, if its first four fields are those
    of the next row, and else it is none."""
    for row in (r"book LOC 1\tok 2\t", r"book LOC 1\tok 2\tok 2", r"book LOC 1\t\tok 2", r"book LOC 1\t\t\t\t",
                r"book LOC 1\r\tok 2", r"cancel 1\r\tcancelled 1 500", r"reoptimise 1\r\toptimised none"):
        place.talk(rf"""
            in again {JOURNAL[0]}2\tA\t2\t{row}\n
            out differs 2
            status 12""")
    for row in (r"2\tA\t2\t\tbook LOC 1\tok 2", r"2\t2\tA\t2\tbook LOC 1\tok 2", r"1\tA\t2\tbook LOC 1\tok 2\t",
                r"2\tA\t1\tbook LOC 1\tok 2\t", r"2\tA\t2\task LOC\tok 2\t", r"2\tA\t2\tbook LOC 1\r\r\tok 2",
                r"2\tA\t2\tbook\r LOC 1\tok 2", r"2\tA\r\t2\tbook LOC 1\tok 2", r"2\tA\t2\r\tbook LOC 1\tok 2"):
        place.talk(rf"""
            in again {JOURNAL[0]}{row}\n
            out no row 2
            status 11""")


# How many desks there may be

MOST_DESKS, AT_ONCE = 100_000, 1_000


def answered(running, given, word, count):
    """Gives frames, says of all rows that they are kept, and gives the bytes of so many frames that begin with a word."""
    running.give(given)
    found = []
    while len(found) < count:
        line, data = running.next(f"{count - len(found)} frames more with {word.decode()}")
        if line.startswith(b"keep "):
            running.give(b"kept\n")
        elif line.startswith(word):
            found.append(data or line)
    return found


def greet(running, places, numbers):
    """Has a client at each place greet by a name of its own, and gives what is answered."""
    return answered(running, b"".join(b"open %d AT-%d greet,book\n" % (at, at) + frames.came(at, b"desk X%d\n" % number)
                                      for at, number in zip(places, numbers)), b"send", len(places))


def leave(running, places):
    """Has the clients at places go."""
    want(answered(running, b"".join(b"gone %d\n" % at for at in places), b"close", len(places)),
         [b"close %d gone" % at for at in places], "clients that go")


def begin_with(running, count):
    """Gives a row each of so many desks again."""
    rows = [b"%d\tX%d\t1\tbook NONE 1\tunknown\n" % (it, it) for it in range(1, count + 1)]
    for at in range(0, count, AT_ONCE):
        running.give(frames.again(b"".join(rows[at:at + AT_ONCE])))
    running.give(frames.again(b""))
    want(running.next("ready")[0], b"ready %d" % count, "rows that are given again")


@test
def desks_that_greet_and_go_are_forgotten(place):
    """More than there may be come and go, and the next ones are answered as the first; the desk that is there all the
    time, and one that has a row, are the same still."""
    with frames.Running([*place.given.desks, "first", TWO_LEGS], cwd=place.folder) as running:
        begin_with(running, 1)
        want(greet(running, [AT_ONCE], [0]), [b"at 1\n"], "a desk that stays")
        for first in range(2, MOST_DESKS + 2 * AT_ONCE, AT_ONCE):
            places = range(AT_ONCE)
            want(greet(running, places, range(first, first + AT_ONCE)), [b"at 1\n"] * AT_ONCE, f"desks from {first} on")
            leave(running, places)
        want(answered(running, frames.came(AT_ONCE, b"book LOC 1\n"), b"send", 1), [b"ok 1\n"], "the desk that stays")
        want(greet(running, [0], [1]), [b"at 2\n"], "the desk that has a row")
        leave(running, [AT_ONCE])
        want(greet(running, [1], [0]), [b"at 2\n"], "the desk that stayed, when it comes again")


@test
def as_many_desks_as_there_may_be(place):
    """Where all others have rows, one that is there keeps the last place until it goes, and then another has it."""
    with frames.Running([*place.given.desks, "first", TWO_LEGS], cwd=place.folder) as running:
        begin_with(running, MOST_DESKS - 1)
        want(greet(running, [0], [MOST_DESKS]), [b"at 1\n"], "the last desk")
        late = b"open 1 AT-1 greet\n" + frames.came(1, b"desk X%d\n" % (MOST_DESKS + 1))
        want(answered(running, late, b"close", 1), [b"close 1 desks"], "one desk more")
        leave(running, [0])
        want(greet(running, [1], [MOST_DESKS + 1]), [b"at 1\n"], "one desk more, once the last is gone")
        want(answered(running, frames.came(1, b"book LOC 1\n"), b"send", 1), [b"ok 1\n"], "its row")
        leave(running, [1])
        late = b"open 2 AT-2 greet\n" + frames.came(2, b"desk X%d\n" % MOST_DESKS)
        want(answered(running, late, b"close", 1), [b"close 2 desks"], "the one that was forgotten")


# Exit statuses


@test
def words_that_are_no_use(place):
    for words in ((), ("first",), ("last", TWO_LEGS), ("first", TWO_LEGS, "x"), ("help",), ("run", "first", "x")):
        want(place.ran(*words), (USAGE, 2), words)


@test
def what_it_says_of_itself(place):
    def ran(*words, **more):
        written, status = place.ran(*words, **more)
        return (written or b"").decode(), status

    checks.want_of_itself(ran, "nrm_desks", USAGE.decode())


@test
def networks_that_open_nothing(place):
    """The line of `nrm run`, in place of a frame, and its status."""
    want(place.ran("first", "nowhere.csv"), (b"refused no file\n", 3), "no file")
    refused = place.file("refused.csv", "periods,1,1\nleg,AB,1000\n")
    want(place.ran("bid", refused), (b"refused row 2 why 7 range\n", 3), "a row that is refused")
    want(place.ran("davn", place.folder), (b"file fault\n", 9), "a folder")


@test
def an_opening_that_is_too_large(place):
    network = place.file("too-large.csv", checks.TOO_LARGE)
    for mode in ("bid", "davn"):
        want(place.ran(mode, network), (b"overflow after 53 pivots at -734283692657163\n", 7), mode)
    want(place.ran("first", network), (b"", 0), "first")


@test
def an_outside_that_fails(place):
    with open("/dev/full", "wb") as full:
        want(place.ran("first", TWO_LEGS, stdin=None, input=b"again 0\n", stdout=full)[1], 5, "a full output")
    with open(place.folder + "/out", "wb") as only_written:
        want(place.ran("first", TWO_LEGS, stdin=only_written), (b"", 4), "an input that can't be read")


@test
def crowds_beside_the_second_account(place):
    crowds.crowds(place.given)


def main():
    given = checks.words_of(__doc__, {"desks": os.path.join(TOP, "nrm_desks")}, tries=crowds.TRIES, seed=1)
    if not checks.is_built(given.desks):
        return checks.NOT_BUILT
    picked = test.picked(given.pattern)
    return checks.tried(picked, lambda folder: Place(folder, given))


if __name__ == "__main__":
    sys.exit(main())
