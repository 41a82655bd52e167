#!/usr/bin/env python3
"""An independent account of `nrm_desks`: frames in and frames out as docs/desks.md says, plain and slow.

    tests/reference_desks.py MODE FILE

It was written from that page and shares no code with the program; a session and its replies are those of
`tests/reference.py`. Where the page leaves open whose turn comes first, when a client is closed and whether the line
that closes it is used, it does as the program does. It keeps every row of the journal, and looks through a desk's own
for a number that is used again. `tests/desks.py` takes it as the program, and beside the program.
"""
import sys

sys.dont_write_bytecode = True
import reference
from reference import NAME, WHOLE, Ended

GREATEST = 999_999_999_999_999  # number of a line of a desk
MOST_DESKS, MOST_ROWS, MOST_PLACES = 100_000, 2**32, 10_000
MOST_BYTES = 65_536  # of a frame, behind its line
LONGEST_FRAME_LINE = 127
LONG_LINE, LINES_OF_A_TURN, WINDOW, HELD = 1_000, 100, 131_072, 100
RIGHTS = {b"look", b"book", b"cancel-own", b"cancel-any", b"plan", b"greet"}
LOOKS = ("leg", "plan", "hindsight", "ask")
ENDS_A_TURN = ("leg", "plan", "hindsight", "reoptimise")
USAGE = "usage: nrm_desks MODE FILE"


class NoFrame(Ended):
    """What came is no frame, or none that may come there."""

    def __init__(self):
        super().__init__("", 10)


class Closed(Exception):
    """Why a client is closed at one of its lines."""


# Frames


def number_of(word, greatest):
    if not WHOLE.fullmatch(word) or len(word) > 15 or int(word) > greatest:
        raise NoFrame()
    return int(word)


def rights_of(word):
    """The rights that a word joins by commas, among which `none` is nothing."""
    rights = set(word.split(b",")) - {b"none"}
    if not rights <= RIGHTS:
        raise NoFrame()
    return rights


def name_of(word):
    if not NAME.fullmatch(word):
        raise NoFrame()
    return word


def place_of(word):
    return number_of(word, MOST_PLACES - 1)


def size_of(word):
    return number_of(word, MOST_BYTES)


FRAMES = {  # by the first word: what each of the others is
    b"again": [size_of], b"open": [place_of, name_of, rights_of], b"came": [place_of, size_of], b"gone": [place_of],
    b"kept": [], b"end": []}


def frame_in(given):
    """The first frame of some bytes, its word and its values, and the number of its bytes; or nothing as yet."""
    line, ended, _ = given[:LONGEST_FRAME_LINE + 1].partition(b"\n")
    if not ended:
        if len(line) > LONGEST_FRAME_LINE:
            raise NoFrame()
        return None
    word, *rest = line.split(b" ")
    wanted = FRAMES.get(word)
    if wanted is None or len(rest) != len(wanted):
        raise NoFrame()
    values = [value_of(it) for value_of, it in zip(wanted, rest)]
    begins = len(line) + 1
    if size_of not in wanted:
        return word, values, begins
    size = values.pop()
    if len(given) < begins + size:
        return None
    return word, values + [given[begins:begins + size]], begins + size


# Desks and their rows


class Desk:
    """A desk: its rows, as number, line and reply, and the client that is it now."""

    def __init__(self):
        self.rows, self.client = [], None

    def last(self):
        return self.rows[-1][0] if self.rows else 0

    def reply_again(self, sequence, line):
        """The reply to a line under a number that isn't above the last row's."""
        held = self.rows[-HELD:]
        if sequence < held[0][0]:
            raise Closed("old")
        for number, other, reply in held:
            if number == sequence and other == line:
                return reply
        raise Closed("sequence")


class Journal:
    """A session, and the desks whose lines it carries out."""

    def __init__(self, session):
        self.session, self.desks, self.rows = session, {}, 0
        self.owners = {}  # the desk's name of each booking number
        self.is_somebodys = lambda name: False  # whether some client is the desk of a name

    def desk(self, name):
        """The desk of a name, a new one if need be, for which one without rows that no client is may be forgotten."""
        if name not in self.desks:
            if len(self.desks) >= MOST_DESKS:
                self.forget_one()
            self.desks[name] = Desk()
        return self.desks[name]

    def forget_one(self):
        for name, desk in self.desks.items():
            if not (desk.rows or self.is_somebodys(name)):
                del self.desks[name]
                return
        raise Closed("desks")

    def carry_out(self, name, sequence, line):
        """Carries out a line that changes something, and gives its row."""
        if self.rows >= MOST_ROWS:
            raise Closed("rows")
        reply = self.session.reply(line)
        self.rows += 1
        self.desk(name).rows.append((sequence, line, reply))
        if reply.startswith(b"ok "):
            self.owners[int(reply[3:])] = name
        return b"%d\t%s\t%d\t%s\t%s" % (self.rows, name, sequence, line, reply)

    def give_again(self, row):
        """Takes a row that was given again, without its line feed: its first four fields say what is carried out, and
        the row that this makes must be the same, byte for byte."""
        fields = row.split(b"\t", 4)
        if len(fields) != 5 or not self.is_next(*fields[:4]):
            raise Ended(f"no row {self.rows + 1}", 11)
        name, sequence, line = fields[1:4]
        if self.carry_out(name, int(sequence), reference.without_return(line)) != row + b"\n":
            raise Ended(f"differs {self.rows}", 12)

    def is_next(self, number, name, sequence, line):
        """Whether the fields before a reply are those of the next row."""
        return (number == b"%d" % (self.rows + 1) and bool(NAME.fullmatch(name)) and is_sequence(sequence)
                and int(sequence) > (self.desks[name].last() if name in self.desks else 0)
                and reference.command_of(line)[0] in ("book", "cancel", "reoptimise"))


def is_sequence(word):
    return bool(WHOLE.fullmatch(word)) and len(word) <= 15 and 1 <= int(word) <= GREATEST


# Lines


def greeting_of(line):
    """The name and the number, if there is one, of a line that is a greeting."""
    words = line.split(b" ")
    if len(words) not in (2, 3) or words[0] != b"desk" or not NAME.fullmatch(words[1]):
        return None
    if len(words) == 3 and not is_sequence(words[2]):
        return None
    return words[1], int(words[2]) if len(words) == 3 else None


def command_of(line):
    """What a line asks for, as in a session, and `ask`. One carriage return is gone: with a further one it is bad."""
    if line.endswith(b"\r"):
        return "bad",
    words = line.split(b" ")
    if len(words) == 2 and words[0] == b"ask" and NAME.fullmatch(words[1]):
        return "ask", words[1]
    return reference.command_of(line)


def asked(session, product):
    """The largest party that would be sold now, and what one seat more would be refused for."""
    if product not in session.network.products:
        return b"ask %s unknown\n" % product
    largest = 0
    while largest < 999 and not session.refusal(product, largest + 1):
        largest += 1
    if largest == 999:
        return b"ask %s 999 most\n" % product
    why = session.refusal(product, largest + 1).split()[1]
    return b"ask %s %d %s\n" % (product, largest, b"fare" if why == b"fare" else b"leg " + why)


class Client:
    """A client at a place: what waits of it, and once its first line was taken its desk and its next number."""

    def __init__(self, place, name, rights):
        self.place, self.name, self.rights = place, name, rights
        self.waiting, self.why = b"", None
        self.desk_name, self.number = None, None
        self.used, self.replies = 0, b""  # since the last `send`

    def has_line(self):
        """Whether something of it can be taken: a line, or one that is too long already."""
        return not self.why and (b"\n" in self.waiting or len(self.waiting) >= LONG_LINE)

    def next_line(self):
        line, _, rest = self.waiting.partition(b"\n")
        if len(line) >= LONG_LINE:
            raise Closed("long")
        self.waiting = rest
        self.used += len(line) + 1
        return line


# The hub


class Hub:
    """The clients at their places, whose turn it is, and what is to be written."""

    def __init__(self, session):
        self.journal = Journal(session)
        self.journal.is_somebodys = lambda name: any(it.desk_name == name for it in self.clients.values())
        self.clients, self.turns = {}, []
        self.heard, self.rows, self.out = [], [], []
        self.is_ready = self.is_awaiting = False

    def take(self, word, values):
        """Takes a frame other than `end`."""
        if self.is_ready == (word == b"again"):
            raise NoFrame()
        getattr(self, "take_" + word.decode())(*values)

    def take_again(self, rows):
        if rows:
            *whole, unended = rows.split(b"\n")
            for row in whole + ([unended] if unended else []):
                self.journal.give_again(row)
            if unended:
                raise Ended(f"no row {self.journal.rows}", 11)
        else:
            self.is_ready = True
            self.out.append(b"ready %d\n" % self.journal.rows)

    def take_open(self, place, name, rights):
        if place in self.clients:
            raise NoFrame()
        self.clients[place] = Client(place, name, rights)

    def take_came(self, place, given):
        client = self.clients.get(place)
        if not client or client.why:
            return
        if len(client.waiting) + len(given) > WINDOW:
            self.close(client, "window")
            return
        client.waiting += given
        self.have_turn(client)

    def take_gone(self, place):
        if place in self.clients:
            self.close(self.clients[place], "gone")

    def take_kept(self):
        if not self.is_awaiting:
            raise NoFrame()
        self.is_awaiting = False
        for client in self.heard:
            if client.used:
                self.out.append(b"send %d %d %d\n" % (client.place, client.used, len(client.replies)) + client.replies)
                client.used, client.replies = 0, b""
            if client.why:
                self.out.append(b"close %d %s\n" % (client.place, client.why.encode()))
                del self.clients[client.place]
        self.heard = []

    def have_turn(self, client):
        if client not in self.turns:
            self.turns.append(client)

    def close(self, client, why):
        """No more of a client's lines are taken, and it is closed once all is kept; the first reason counts."""
        if not client.why:
            client.why = why
            if client in self.turns:
                self.turns.remove(client)
            self.is_heard(client)

    def is_heard(self, client):
        if client not in self.heard:
            self.heard.append(client)

    def settle(self):
        """All that is due once the frames that were read are used; it gives what is to be written."""
        if not self.is_awaiting and (self.turns or self.heard):
            self.hear_all()
        out, self.out = self.out, []
        return b"".join(out)

    def hear_all(self):
        """A round: the lines of each client whose turn it is, and the rows that they leave."""
        turns, self.turns = self.turns, []
        for client in turns:
            if client.has_line():
                self.is_heard(client)
        for client in [*self.heard]:
            self.hear(client)
        if self.heard:
            rows, self.rows = b"".join(self.rows), []
            self.out.append(b"keep %d\n" % len(rows) + rows)
            self.is_awaiting = True

    def hear(self, client):
        """Takes the lines of a client in its turn; it has another one if it has more than were taken."""
        try:
            for _ in range(LINES_OF_A_TURN):
                if not client.has_line():
                    break
                line = reference.without_return(client.next_line())
                client.replies += self.reply(client, line)
                if command_of(line)[0] in ENDS_A_TURN:
                    break
        except Closed as closed:
            client.why = str(closed)
        if client.has_line():
            self.have_turn(client)

    def reply(self, client, line):
        """The reply to a client's next line."""
        if not client.desk_name:
            greeting = greeting_of(line)
            if greeting and (greeting[0] == client.name or b"greet" in client.rights):
                self.be(client, *greeting)
                return b"at %d\n" % client.number
            if greeting:
                return b"denied\n"
            self.be(client, client.name, None)
        sequence = client.number
        if sequence > GREATEST:
            raise Closed("sequence")
        client.number += 1
        return self.reply_under(client, sequence, line)

    def be(self, client, name, sequence):
        """A client is a desk from here on, and another that was it is no more."""
        desk = self.journal.desk(name)
        if desk.client and self.clients.get(desk.client.place) is desk.client:
            self.close(desk.client, "elsewhere")
        desk.client, client.desk_name = client, name
        client.number = sequence or desk.last() + 1

    def reply_under(self, client, sequence, line):
        kind, *rest = command_of(line)
        session = self.journal.session
        if kind == "bad":
            return b"bad\n"
        if not self.may(client, kind, *rest):
            return b"denied\n"
        if kind == "ask":
            return asked(session, *rest)
        if kind in LOOKS:
            reply = session.reply(line)
            return reply + (b"\n" if kind in ("leg", "plan") and reply != b"unknown\n" else b"")
        desk = self.journal.desk(client.desk_name)
        if sequence <= desk.last():
            return desk.reply_again(sequence, line)
        row = self.journal.carry_out(client.desk_name, sequence, line)
        self.rows.append(row)
        return row.split(b"\t")[4]

    def may(self, client, kind, *rest):
        """Whether a client's rights go so far."""
        if kind == "cancel":
            owner = self.journal.owners.get(rest[0])
            return b"cancel-any" in client.rights or b"cancel-own" in client.rights and owner == client.desk_name
        right = b"look" if kind in LOOKS else {"book": b"book", "reoptimise": b"plan"}[kind]
        return right in client.rights


def run(hub):
    """Takes frames and writes frames, until `end` or the end of standard input."""
    given = b""
    try:
        while True:
            while frame := frame_in(given):
                word, values, size = frame
                given = given[size:]
                if word == b"end":
                    return
                hub.take(word, values)
            reference.put(hub.settle())
            piece = reference.piece_given()
            if not piece and given:
                raise NoFrame()
            if not piece:
                return
            given += piece
    finally:
        reference.put(b"".join(hub.out))


def main():
    words = reference.words_given()
    try:
        if len(words) != 2 or not reference.is_mode(words[0]):
            raise Ended(USAGE, 2)
        run(Hub(reference.Session(reference.network_in(words[1]), words[0])))
    except Ended as ended:
        reference.put(f"{ended.line}\n".encode() if ended.line else b"")
        sys.exit(ended.status)


if __name__ == "__main__":
    main()
