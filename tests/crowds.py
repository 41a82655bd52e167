"""Crowds at `nrm_desks`: many clients at once, on the networks of examples/, in the three modes.

A crowd is made of its number alone. Frames go to the program and to the second account, tests/reference_desks.py, and
the two must write the same: byte for byte what is to be kept, and of the rest the same frames for each place. Nothing
is given behind `kept`, or while nothing is awaited, before all that is due has come, so what each writes is determined.

Desks connect, send lines in pieces, lose their connections and connect again; these send each line without a reply
again, under its number. Beside them are clients that do as they like: they greet as somebody, use numbers again, send
garbage, long lines and too much. `kept` comes at random moments. Now and then the program is killed, and begun again
with the journal cut at a row that was told kept or beyond; sometimes one is begun with a journal that was changed.

Beside what the second account says these must hold, which it isn't asked about:

- rows are numbered without a gap, have five fields, and name no number of a desk twice, nor one that is lower;
- nothing is sent while rows are awaited, and what is answered to a line that changes something is a row that is kept;
- USED is what the lines have that were answered, and nobody is closed for too much who has no more unused than may
  wait;
- a desk that sends again what has no reply is never closed for it, gets a reply to each line, and has one row for each
  line that was carried out, with that reply;
- a line is denied exactly to who may not send it, and nothing is sent to a client once another is its desk;
- `nrm run` over the lines of the journal gives its replies, and what looks show at the end; and no leg has more seats
  sold than are authorised.
"""
import os
import random
import subprocess

import frames
import reference
import reference_desks
from checks import TOP, Wrong, want

TRIES = 70
MODES = ["first", "bid", "davn"]
NETWORKS = ["two-legs", "bid-prices", "certificate", "halves", "log", "hub"] * 5 + ["season"]
PLACES = [0, 1, 2, 3, 4, 5, 6, 7, 98, 9999]
CHANGES = ("book", "cancel", "reoptimise")
ALL = b"look,book,cancel-any,plan,greet"
HONEST = [ALL, ALL, ALL, b"look,book,cancel-own,greet", b"book,cancel-own", b"look,book", b"plan,book,cancel-own"]
ANY = HONEST + [b"none", b"greet", b"greet,book", b"cancel-any", b"look,greet,cancel-own,book", b"greet,look,book"]
ROGUES = [b"R1", b"R2", b"R-3"]
MOST_AHEAD = 90  # lines of a desk without a reply
MOST_AT_ONCE = 32_768  # bytes that are given where nothing is awaited, which one read takes


def network_of(name):
    return os.path.join(TOP, "examples", name, "network.csv")


def kind_of(line):
    return reference_desks.command_of(reference.without_return(line))[0]


def reply_at_the_front(line, text):
    """The reply to a line and what stands behind it; nothing where it isn't whole."""
    first, _, rest = text.partition(b"\n")
    has_more = kind_of(line) in ("leg", "plan") and first not in (b"unknown", b"denied", b"bad")
    end = text.find(b"\n\n") + 2 if has_more else len(text) - len(rest)
    if end < 2:
        raise Wrong(f"{text!r} is no reply to {line!r}")
    return text[:end], text[end:]


class Desk:
    """A desk that does as it should: its lines from number 1 on, and their replies."""

    def __init__(self, name, rights):
        self.name, self.rights, self.lines, self.replies = name, rights, [], {}

    def first_without_reply(self):
        return next(it for it in range(1, len(self.lines) + 2) if it not in self.replies)

    def want_reply(self, number, reply):
        """A reply, which is the one that the line had, if it had one and changes something."""
        if number in self.replies and kind_of(self.lines[number - 1]) in CHANGES:
            want(reply, self.replies[number], f"the reply to {self.name} {number}, which had one")
        self.replies[number] = reply


class Client:
    """A client at a place: what it sends, and what its lines were answered."""

    def __init__(self, name, rights, desk=None):
        self.name, self.rights, self.desk = name, rights, desk
        self.lines, self.unsent, self.given, self.used, self.answered = [], b"", 0, 0, 0
        self.replies, self.begun = [], b""  # of a line, by a flood
        self.desk_name, self.number = None, None  # the number of the next line, where it is known
        self.is_gone = self.is_replaced = self.is_over = self.is_elsewhere = False

    def say(self, line):
        self.lines.append(self.begun + line)
        self.unsent, self.begun = self.unsent + line + b"\n", b""

    def take_reply(self, line, reply):
        """The number of a line, where it is known, once it is answered; a greeting has none, and behind one that is
        denied comes the first line."""
        if not self.desk_name:
            greeting = reference_desks.greeting_of(reference.without_return(line))
            if greeting:
                is_allowed = b"greet" in self.rights.split(b",") or greeting[0] == self.name
                want(reply.split()[0], b"at" if is_allowed else b"denied", f"the answer to {self.name} at {line!r}")
                if is_allowed:
                    self.desk_name, self.number = greeting[0], int(reply[3:])
                return None
            self.desk_name = self.name
        number, self.number = self.number, self.number and self.number + 1
        return number


class Rows:
    """The rows that were given out, and of how many it was told that they are kept."""

    def __init__(self):
        self.all, self.safe, self.last, self.known = [], 0, {}, {}
        self.before = 0  # how many rows the last `keep` went on from
        self.owners = {}  # of each booking its row and its desk

    def add(self, data):
        want(data[-1:] in (b"", b"\n"), True, f"the rows {data!r} end with a line feed")
        self.before = len(self.all)
        for row in data.splitlines(keepends=True):
            fields = row[:-1].split(b"\t")
            want(len(fields), 5, f"the fields of {row!r}")
            number, name, sequence, line, reply = fields
            want(number, b"%d" % (len(self.all) + 1), f"the number of {row!r}")
            want(all(byte >= 32 and byte not in b"\\\x7f" for byte in line + reply), True, f"{row!r} is plain")
            want(kind_of(line) in CHANGES, True, f"{row!r} changes something")
            want(int(sequence) > self.last.get(name, 0), True, f"the number of the desk in {row!r} is a new one")
            self.last[name] = int(sequence)
            self.all.append(row)
            self.known[name, int(sequence)] = len(self.all), line, reply + b"\n"
            if reply.startswith(b"ok "):
                self.owners[int(reply[3:])] = len(self.all), name

    def cut(self, count):
        rows = self.all[:count]
        self.__init__()
        self.add(b"".join(rows))
        self.safe = count

    def want_kept(self, name, number, line, reply):
        """A row that is kept has a line and its reply."""
        line = reference.without_return(line)
        rows = [self.known.get((name, number))] if number else [
            it for (desk, _), it in self.known.items() if desk == name]
        if not any(it and it[0] <= self.safe and it[1:] == (line, reply) for it in rows):
            raise Wrong(f"{name!r} got {reply!r} to {line!r} under {number}, and no row that is kept says so")


class Crowd:
    """A crowd: the program, the second account beside it, the clients, and the rows."""

    def __init__(self, given, seed):
        self.given, self.draw = given, random.Random(seed)
        self.mode, self.network = MODES[seed % 3], network_of(self.draw.choice(NETWORKS))
        self.rows, self.clients, self.queue, self.is_awaited = Rows(), {}, [], False
        self.desks = [Desk(b"D%d" % it, self.draw.choice(HONEST)) for it in range(self.draw.randint(1, 5))]
        self.running = self.hub = None
        self.looks, self.seen = [], b""

    # The program

    def begin(self):
        """Begins the program, and gives it the rows again."""
        self.hub = reference_desks.Hub(reference.Session(reference.network_in(self.network), self.mode))
        self.running = frames.Running([*self.given.desks, self.mode, self.network])
        self.clients, self.queue, self.is_awaited = {}, [], False
        for rows in self.parts(self.rows.all):
            self.put(b"again", [rows], frames.again(rows))
        self.put(b"again", [b""], frames.again(b""))
        self.exchange()

    def parts(self, rows):
        """Rows in as many parts as chance has it."""
        at = 0
        while at < len(rows):
            count = self.draw.choice([1, 3, 50, 300])
            yield b"".join(rows[at:at + count])
            at += count

    def restart(self):
        self.running.kill()
        self.rows.cut(self.draw.randint(self.rows.safe, len(self.rows.all)))
        if self.rows.all and self.draw.randrange(3) == 0:
            self.begin_with_a_changed_journal()
        self.begin()

    def begin_with_a_changed_journal(self):
        """What is given again isn't what was given out: the second account says at which row it is found, if it is."""
        rows, at = list(self.rows.all), self.draw.randrange(len(self.rows.all))
        fields, wanted = rows[at][:-1].split(b"\t"), None
        way = self.draw.randrange(6)
        if way == 0:
            fields[4], wanted = self.draw.choice([b"ok 0", fields[4] + b"0", b"no X", b"memory"]), 12
        elif way == 1:
            fields[self.draw.choice([0, 2])], wanted = b"0", 11
        elif way == 2:
            fields[self.draw.choice([1, 3])] = self.draw.choice([b"D0", b"R1", b"book X 1", b"cancel 1"])
        elif way == 3:
            del fields[self.draw.randrange(5)]
            wanted = 11
        rows[at] = b"\t".join(fields) + b"\n"
        if way == 4:
            del rows[at]
        elif way == 5:
            rows.insert(at, rows[at])
            wanted = 11
        self.want_found(rows, wanted)

    def want_found(self, rows, wanted):
        hub = reference_desks.Hub(reference.Session(reference.network_in(self.network), self.mode))
        line, status = b"ready %d\n" % len(rows), 0
        try:
            for row in rows:
                hub.take(b"again", [row])
        except reference.Ended as ended:
            line, status = ended.line.encode() + b"\n", ended.status
        if wanted:
            want(status, wanted, "the status by the second account")
        with frames.Running([*self.given.desks, self.mode, self.network]) as running:
            running.give(b"".join(map(frames.again, self.parts(rows))) + frames.again(b""))
            found, rest, ended = running.end()
            want((b"".join(it + b"\n" for it, _ in found) + rest, ended), (line, status), "a journal that was changed")

    # What is given, and what comes

    def put(self, word, values, data):
        """A frame is to be given."""
        self.queue.append((word, values, data))

    def exchange(self):
        """Gives the frames, wants what the second account writes, and looks at it."""
        given = b"".join(data for _, _, data in self.queue)
        for word, values, _ in self.queue:
            self.hub.take(word, values)
        wanted, _ = frames.split(self.hub.settle())
        self.running.want_still()
        is_cut = self.is_awaited or len(self.queue) == 1
        self.queue = []
        if is_cut and self.draw.randrange(2):
            at = self.draw.randrange(len(given) + 1)
            self.running.give(given[:at])
            given = given[at:]
        self.running.give(given)
        found = [self.running.next(it) for it in wanted]
        want(frames.in_order(found), frames.in_order(wanted), "what was written")
        earlier = [it for it in self.clients.values() if it.desk_name]
        for line, data in found:
            self.look_at(line, data)
        later = [it.desk_name for it in self.clients.values() if it.desk_name and it not in earlier]
        for client in earlier:
            client.is_elsewhere = client.is_elsewhere or client.desk_name in later
        want([it.name for it in self.clients.values() if it.is_over], [], "clients with a line that has no reply")

    def look_at(self, line, data):
        word, *words = line.split()
        if word == b"ready":
            want(int(words[0]), len(self.rows.all), "the rows that were given again")
        elif word == b"keep":
            want(self.is_awaited, False, "rows are awaited at `keep`")
            self.rows.add(data)
            self.is_awaited = True
        else:
            want(self.is_awaited, False, f"rows are awaited at {line!r}")
            place = int(words[0])
            if word == b"send":
                self.look_at_replies(self.clients[place], int(words[1]), data)
            else:
                self.look_at_close(self.clients.pop(place), words[1])

    def look_at_replies(self, client, used, text):
        client.used += used
        want(client.is_elsewhere, False, f"something is sent to {client.name}, whose desk is another connection")
        while text:
            line = client.lines[client.answered]
            reply, text = reply_at_the_front(line, text)
            number = client.take_reply(line, reply)
            client.answered += 1
            client.replies.append(reply)
            is_change = kind_of(line) in CHANGES
            if is_change:
                self.look_at_rights(client, line, reply)
            if is_change and reply != b"denied\n":
                self.rows.want_kept(client.desk_name, number, line, reply)
            if client.desk and number:
                client.desk.want_reply(number, reply)
        self.look_at_used(client)

    def look_at_used(self, client):
        """The lines that were answered, and perhaps one more, for which the client must be closed then."""
        answered = sum(len(it) + 1 for it in client.lines[:client.answered])
        client.is_over = client.used != answered
        if client.is_over:
            want(client.used - answered, len(client.lines[client.answered]) + 1, f"what {client.name} has used")

    def look_at_rights(self, client, line, reply):
        """A line is denied where its client may not send it, and otherwise isn't; a booking may be so new that it was
        not the client's own yet."""
        rights, (kind, *rest) = client.rights.split(b","), reference_desks.command_of(reference.without_return(line))
        is_allowed = {"book": b"book", "cancel": b"cancel-any", "reoptimise": b"plan"}[kind] in rights
        if kind == "cancel" and b"cancel-own" in rights and not is_allowed:
            row, owner = self.rows.owners.get(rest[0], (0, None))
            is_allowed = owner == client.desk_name
            if is_allowed and row > self.rows.before:
                return
        want(reply != b"denied\n", is_allowed, f"{line!r} got {reply!r} by {client.rights!r}: it is allowed")

    def look_at_close(self, client, why):
        is_right = why == b"gone" and client.is_gone or why == b"elsewhere" and client.is_replaced
        if client.desk and not is_right:
            raise Wrong(f"{client.name} is closed for {why!r}")
        if client.is_over:
            is_for_line = why in (b"sequence", b"old", b"desks", b"rows")
            want(is_for_line, True, f"{client.name} is closed for the line without a reply, not for {why!r}")
        if why == b"window":
            want(client.given - client.used > reference_desks.WINDOW, True, f"{client.name} may have too much unused")

    # The clients

    def free_place(self):
        free = [it for it in PLACES if it not in self.clients]
        return self.draw.choice(free) if free else None

    def open(self, client):
        place = self.free_place()
        if place is None:
            return
        self.clients[place] = client
        rights = set() if client.rights == b"none" else set(client.rights.split(b","))
        self.put(b"open", [place, client.name, rights], b"open %d %s %s\n" % (place, client.name, client.rights))

    def connect(self, desk):
        """A desk connects, perhaps while it is connected, and sends again what has no reply."""
        may_greet = b"greet" in desk.rights.split(b",")
        name = self.draw.choice(ROGUES) if may_greet and self.draw.randrange(2) else desk.name
        client = Client(name, desk.rights, desk)
        for other in self.clients.values():
            if other.desk is desk:
                other.unsent, other.is_replaced = b"", True
        first = desk.first_without_reply()
        client.say(b"desk %s %d" % (desk.name, first))
        for line in desk.lines[first - 1:]:
            client.say(line)
        self.open(client)

    def connect_rogue(self):
        draw, client = self.draw, Client(self.draw.choice(ROGUES), self.draw.choice(ANY))
        name = draw.choice([client.name, draw.choice(ROGUES)])
        last = self.rows.last.get(name, 0)
        client.say(draw.choice([
            b"desk %s %d" % (name, draw.randint(max(1, last - 5), last + 3)), b"desk %s" % name, b"desk %s 0" % name,
            b"desk %s %d" % (name, draw.choice([1, 2, last + 1, reference_desks.GREATEST - (last < 10**14)])),
            self.line(client), b"book %s 1" % name]) + draw.choice([b"", b"", b"\r"]))
        self.open(client)

    def line(self, client):
        """A line; a desk cancels no number that isn't given out yet, since what is denied now may be its own then."""
        draw, session = self.draw, self.hub.journal.session
        products, legs = list(session.network.products), list(session.network.seats)
        kind = draw.randrange(24)
        if kind < 9:
            return b"book %s %d" % (draw.choice(products), draw.choice([1, 1, 1, 2, 2, 3, 7]))
        if kind < 13:
            issued = sum(1 for row in self.rows.all[:self.rows.safe] if b"\tok " in row)
            standing = [number for number, _, _ in session.book if number <= issued] or [0]
            one, other = draw.choice(standing), draw.choice(standing)
            return b"cancel %d" % draw.choice([one, other, draw.randint(0, issued), 10**11])
        if kind < 16:
            return b"ask %s" % draw.choice(products + [b"NONE"])
        if kind < 18:
            return b"reoptimise %d" % draw.randint(1, session.network.periods + 1)
        if kind < 21:
            return draw.choice([b"hindsight", b"plan", b"leg %s" % draw.choice(legs), b"leg NONE", b"ask", b"",
                                b"desk R1 1", b"closed gone", b"book %s 1\r" % draw.choice(products)])
        line = reference.made_line(session, draw)
        return line if kind_of(line) != "cancel" or not client.desk else b"cancel"

    def speak(self, place, client):
        """Gives some of what a client sends, and thinks of more."""
        desk = client.desk
        if not client.is_gone and len(client.unsent) < 200 and not client.is_replaced:
            for _ in range(self.draw.choice([1, 1, 2, 5, 40])):
                if not desk:
                    client.say(self.rogue_line(client))
                elif len(desk.lines) - desk.first_without_reply() < MOST_AHEAD:
                    desk.lines.append(self.line(client))
                    client.say(desk.lines[-1])
        count = self.draw.choice([1, 5, 17, 60, 400, 3000])
        if self.draw.randrange(3):
            count = client.unsent.find(b"\n", count) + 1 or count
        self.came(place, client, client.unsent[:count])

    def came(self, place, client, data):
        data = data[:MOST_AT_ONCE]
        client.unsent = client.unsent[len(data):]
        self.put_came(place, client, data)

    def put_came(self, place, client, data):
        client.given += len(data)
        self.put(b"came", [place, data], frames.came(place, data))

    def rogue_line(self, client):
        if self.draw.randrange(60) == 0:
            return b"x" * self.draw.choice([998, 999, 1000, 1001, 1999])
        return self.line(client)

    def flood(self):
        """Gives as much of a client as may wait, or a byte more than that, while rows are awaited."""
        queued = {values[0] for _, values, _ in self.queue if values}
        for place, client in self.clients.items():
            at_hub = self.hub.clients.get(place)
            is_busy = not at_hub or at_hub.why or b"\n" in at_hub.waiting or client.unsent or place in queued
            if not client.desk and not is_busy:
                self.flood_from(place, client, at_hub.waiting)
                return

    def flood_from(self, place, client, waiting):
        most, data = reference_desks.WINDOW, waiting + b"x\n"
        data += (b"y" * 899 + b"\n") * ((most - len(data)) // 900)
        data += b"z" * (most - len(data)) + b"z" * self.draw.randrange(2)
        *lines, client.begun = data.split(b"\n")
        client.lines += lines
        data = data[len(waiting):]
        for at in range(0, len(data), MOST_AT_ONCE):
            self.put_came(place, client, data[at:at + MOST_AT_ONCE])

    # What happens

    def happen(self):
        """Something happens."""
        lot = self.draw.randrange(100)
        waiting = [it for it in self.clients.items() if not it[1].is_gone]
        if lot < 10:
            self.connect(self.draw.choice(self.desks))
        elif lot < 15:
            self.connect_rogue()
        elif lot < 22 and waiting:
            place, client = self.draw.choice(waiting)
            client.is_gone = True
            self.put(b"gone", [place], b"gone %d\n" % place)
        elif lot < 24:
            place = self.draw.choice([it for it in range(20) if it not in self.clients])
            self.put(b"came", [place, b"book X 1\n"], frames.came(place, b"book X 1\n"))
            self.put(b"gone", [place], b"gone %d\n" % place)
        elif lot < 27 and self.is_awaited:
            self.flood()
        elif waiting:
            self.speak(*self.draw.choice(waiting))

    def step(self):
        """Some of what happens, and at times `kept` behind it, or a new beginning."""
        for _ in range(self.draw.choice([1, 1, 2, 4, 8])):
            if sum(len(data) for _, _, data in self.queue) < MOST_AT_ONCE:
                self.happen()
        if self.is_awaited and self.draw.randrange(3):
            self.put_kept()
        self.exchange()
        if self.draw.randrange(40) == 0:
            self.restart()

    def put_kept(self):
        self.put(b"kept", [], b"kept\n")
        self.rows.safe, self.is_awaited = len(self.rows.all), False

    def settle(self):
        """Keeps all until nothing is awaited."""
        while self.is_awaited:
            self.put_kept()
            self.exchange()

    def finish(self):
        """All clients go, and each desk comes once more and gets the replies to all its lines."""
        for place, client in list(self.clients.items()):
            if not client.is_gone:
                self.put(b"gone", [place], b"gone %d\n" % place)
            client.is_gone = True
        self.exchange()
        self.settle()
        want(self.clients, {}, "the clients that are left")
        for desk in self.desks:
            self.connect(desk)
            [(place, client)] = self.clients.items()
            while client.unsent:
                self.came(place, client, client.unsent[:MOST_AT_ONCE])
                self.exchange()
                self.settle()
            client.is_gone = True
            self.put(b"gone", [place], b"gone %d\n" % place)
            self.exchange()
            self.settle()
            want(sorted(desk.replies), list(range(1, len(desk.lines) + 1)), f"the lines of {desk.name} with a reply")
            self.want_rows(desk)
        self.look()

    def look(self):
        """Looks at all there is to see, which must be as after a run over the lines of the journal."""
        client = Client(b"LAST", b"look")
        for line in [b"hindsight", b"plan"] + [b"leg %s" % it for it in self.hub.journal.session.network.seats]:
            client.say(line)
        self.open(client)
        [(place, client)] = self.clients.items()
        self.came(place, client, client.unsent)
        self.exchange()
        self.settle()
        self.looks = client.lines
        self.seen = b"".join(it[:-1] if it.endswith(b"\n\n") else it for it in client.replies)

    def want_rows(self, desk):
        """The rows of a desk are its lines that were carried out, each once, with the replies that it got."""
        rows = {number: it[1:] for (name, number), it in self.rows.known.items() if name == desk.name}
        lines = {number: (reference.without_return(line), desk.replies[number])
                 for number, line in enumerate(desk.lines, 1)
                 if kind_of(line) in CHANGES and desk.replies[number] != b"denied\n"}
        want(rows, lines, f"the rows of {desk.name}")

    def go(self):
        """A whole crowd."""
        try:
            self.begin()
            for _ in range(self.draw.choice([10, 30, 60, 90])):
                self.step()
            self.finish()
            self.running.give(b"end\n")
            want(self.running.end(), ([], b"", 0), "the end")
            self.running.kill()
            self.begin()
            want(self.running.end(), ([], b"", 0), "the end of a run that is given all rows")
        finally:
            if self.running:
                self.running.kill()
        self.want_run()
        self.want_no_leg_oversold()
        return len(self.rows.all)

    def want_run(self):
        """A run over the lines of the journal gives its replies, and what was seen at the end."""
        fields = [row[:-1].split(b"\t") for row in self.rows.all]
        lines = [it[3] for it in fields] + self.looks
        done = subprocess.run([*self.given.program, "run", self.mode, self.network], stdout=subprocess.PIPE,
                              input=b"".join(it + b"\n" for it in lines))
        replies = b"".join(it[4] + b"\n" for it in fields) + self.seen
        want((done.stdout, done.returncode), (replies, 0), "nrm run over the journal, and looks behind it")

    def want_no_leg_oversold(self):
        network, sold, standing = reference.network_in(self.network), {}, {}
        for row in self.rows.all:
            line, reply = row[:-1].split(b"\t")[3:]
            words = reply.split()
            if words[0] == b"ok":
                standing[words[1]] = product, party = line.split()[1], int(line.split()[2])
                for leg in network.products[product][1]:
                    sold[leg] = sold.get(leg, 0) + party
                    want(sold[leg] <= network.authorised[leg], True, f"{leg} is not oversold by {row!r}")
            elif words[0] == b"cancelled":
                product, party = standing.pop(words[1])
                for leg in network.products[product][1]:
                    sold[leg] -= party


def crowds(given):
    """Crowds one after the other; it tells which failed first, and how it is tried again."""
    rows = 0
    for seed in range(given.seed, given.seed + given.tries):
        crowd = None
        try:
            crowd = Crowd(given, seed)
            rows += crowd.go()
        except Wrong as wrong:
            told = f"{crowd.mode} {os.path.basename(os.path.dirname(crowd.network))}: " if crowd else ""
            raise Wrong(f"crowd {seed}, `tests/desks.py crowds --seed {seed} --tries 1`: {told}{wrong}")
    print(f"{given.tries} crowds from {given.seed} on, {rows} rows")
