#!/usr/bin/env python3
"""Is what `nrm_kept` acknowledged in its store, whatever becomes of the process, its files and its disk?

    tests/kept.py [PATTERN] [--kills N] [--images N] [--tries N] [--seed N] [--program FILE]

    killed   runs of random bookings and cancellations are killed (SIGKILL) at random moments, in the three modes, with
             each reply awaited and with lines that are sent in pieces. Then the rows must be those after some line, not
             before the last one whose reply was read and not behind the last one that was sent: with each reply
             awaited, at most one line ahead. Another run goes on with a copy of the store, and so does the next run
             that is killed. There are N of them (--kills).
    power    the calls of a run are recorded by `strace`, and the power goes at any of them: what was not forced to the
             disk is there, or isn't, or in part. A run on that has the rows of the last reply that was given, or is one
             line ahead. There are N such images of a disk (--images) of each of two runs.
    damage   bytes of a store and its log are changed: a run ends by itself with status 0, 6, 12 or 13, and what is
             whole to `sqlite3` is taken as `sqlite3` reads it. There are N such stores (--images) of each of three
             kinds.
    faults   a small library in C makes the Nth call of one kind on the store's files fail, alone or with all that come
             after: a write, one that forces a file to the disk, or one that cuts a file. If forcing fails, what was
             written since it last succeeded stays in the file, or is lost, as on a disk. For each N the replies must be
             those of a session that left out the lines answered `store`, and the rows its bookings; or it is `store
             fault` with status 12. A later run goes on.
    owners   a run meets a fault of its disk, and another one is started on its store while the fault lasts and after
             it: the other always says `store fault`, no line that was acknowledged is lost, and the next run goes on.
             The calls that fail are those that force a file to the disk, writes, and these together with each opening;
             or the disk is full, for which a disk in memory must be mounted. There are N tries of each kind (--tries).
    closed   after a run that ended, the log may be taken away: the file alone has all bookings.
    listing  a view without end is refused in seconds and bounded memory, and tables and views of all rows that can
             stand are read.
    disk     the store is on a small disk in memory that is full for a while. That needs the right to mount one.
    two      two programs have one store: the second says `store fault`, and the first goes on.
    memory   there is not enough memory for the program to begin: status 6.

What is wanted comes from tests/reference.py, never from the program. A store is read by the `sqlite3` of Python, in a
copy. PATTERN picks the trials that have it in their name. With no --program it is the program that the script
`nrm_kept` builds. What can't be tried on a machine is told, with the reason. Each failure is told; the last line is `N
passed, M failed`.
"""
import argparse
import collections
import concurrent.futures
import copy
import errno
import functools
import itertools
import os
import random
import resource
import shutil
import subprocess
import sys
import tempfile
import time

sys.dont_write_bytecode = True
import checks
import power
import preload
import reference
import stores
from checks import Wrong
from talk import HUB, MODES, Talk, joined

NO_MEMORY, STORE_FAULT, REFUSED = 6, 12, 13
KILLS, KILLS_OF_A_STORE, LINES = 42, 7, 40
TRIES, IMAGES = 4, 60
POWERED = 620  # lines of a run that is recorded: its log is emptied within them, and at its end
SLOW = 60  # the seconds that a run may take
MOST_TOLD = 10  # failures of one trial


# Sessions that go on from rows


@functools.cache
def opening(mode):
    return reference.Session(reference.network_in(HUB), mode)


def session_from(mode, rows=()):
    """The session of a run that goes on from the rows of a store, which load."""
    session = copied(opening(mode))
    for number, product, party in rows:
        name = product.encode()
        session.book.append((number, name, party))
        session.asked[name] += party
        session.next = number + 1
    return session


def copied(session):
    """Another session in the same state."""
    other = copy.copy(session)
    other.book, other.asked = list(session.book), dict(session.asked)
    return other


def rows_of(session):
    """The rows that a store has of a session."""
    return [(number, name.decode(), party) for number, name, party in session.book]


def showing(session):
    """Lines that show the state, and change the bookings and back again."""
    lines = [b"leg %s" % leg for leg in session.network.seats] + [b"hindsight", b"book HF-Q 1"]
    return lines + [b"cancel %d" % session.next, b"cancel %d" % (session.book[0][0] if session.book else 1)]


# Runs


def pipes():
    """Ends of a talk, as `talk.pipes` but for many lines in flight."""
    (given, say), (hear, out) = os.pipe(), os.pipe()
    return given, out, say, hear


def answered(program, mode, path, lines, **more):
    """The status and the output of a run on the hub, with these lines."""
    words = [program, mode, HUB, path]
    done = subprocess.run(words, input=joined(lines), capture_output=True, timeout=SLOW, **more)
    if done.stderr:
        raise Wrong(f"nothing on standard error, and not {done.stderr[-300:]!r}")
    return done.returncode, done.stdout


def goes_on(program, mode, path, rows):
    """A run on the store goes on from these rows, and leaves what stands after its lines."""
    session = session_from(mode, rows)
    lines = showing(session)
    wanted = b"".join(map(session.reply, lines))
    if (got := answered(program, mode, path, lines)) != (0, wanted):
        raise Wrong(f"a run that goes on from {rows} to answer {wanted!r}, and not {got}")
    must_be(stores.rows(path), rows_of(session), "after it went on")


def must_be(got, wanted, when):
    if got != wanted:
        raise Wrong(f"the rows {wanted} {when}, and not {got}")


# Killed


class Stream:
    """Random lines of a session, with the reply to each, and the rows before the first and after each."""

    def __init__(self, session, draw):
        self.lines, self.replies, self.rows = [], [], [rows_of(session)]
        for _ in range(LINES):
            line = self.line(session, draw)
            self.lines.append(line)
            self.replies.append(session.reply(line))
            self.rows.append(rows_of(session))

    @staticmethod
    def line(session, draw):
        kind = draw.random()
        if kind < 0.55 or not session.book:
            return b"book %s %d" % (draw.choice(list(session.network.products)), draw.randint(1, 4))
        if kind < 0.9:
            return b"cancel %d" % draw.choice(session.book)[0]
        return draw.choice([b"hindsight", b"leg FRA-JFK", b"cancel 0", b"book NONE 1", b"reoptimise 2"])


def awaited(talk, stream, draw, pace):
    """Waits for each reply, and kills behind one of the lines. How many lines were sent, and what was heard."""
    count = draw.randrange(LINES)
    for line, reply in zip(stream.lines[:count], stream.replies):
        talk.say(line + b"\n")
        talk.hear(reply)
    talk.say(stream.lines[count] + b"\n")
    time.sleep(draw.uniform(0, 1.5 * pace.line if count else pace.begin + pace.line))
    talk.process.kill()
    return count + 1, b"".join(stream.replies[:count])


def in_pieces(talk, stream, draw, pace):
    """Sends pieces that end anywhere, waits for none of their replies, and kills after one of the replies has come."""
    text, at, heard = joined(stream.lines), 0, b""
    count = draw.randrange(LINES)
    while at < len(text) and heard.count(b"\n") < count:
        size = draw.choice([1, 5, 30, 200, 600])
        talk.say(text[at:at + size])
        at += size
        if draw.random() < 0.5 and b"\n" in text[max(0, at - size):at]:
            heard += talk.heard()
    time.sleep(draw.uniform(0, 4 * pace.line))
    talk.process.kill()
    return text[:at].count(b"\n"), heard


WAYS = [awaited, in_pieces]


class Pace:
    """The seconds that a run takes to begin, and those of a line."""

    def __init__(self, program, folder):
        path, lines = os.path.join(folder, "PACE"), [b"book HF-Q 1", b"cancel 1"] * 10
        begun = time.monotonic()
        with Talk([program, "first", HUB, path], pipes()) as talk:
            for line in lines[:1]:
                talk.say(line + b"\n")
                talk.hear(b"ok 1\n")
            self.begin = time.monotonic() - begun
            for number in range(1, 11):
                talk.say(b"cancel %d\nbook HF-Q 1\n" % number)
                talk.hear(b"cancelled %d 110\nok %d\n" % (number, number + 1))
            self.line = (time.monotonic() - begun - self.begin) / 20
            talk.end_input()


class Trial:
    """What is tried with the program, by numbers that are drawn of the seed and the name."""

    def __init__(self, given, name):
        self.program, self.images, self.folder, self.name = given.program, given.images, given.quick, name
        self.draw = random.Random(f"{given.seed} {name}")


class Killed(Trial):
    """Runs on one store that are killed, one after another."""

    def __init__(self, given, mode, way, number):
        super().__init__(given, f"killed {mode} {way.__name__} {number}")
        self.mode, self.way, self.pace = mode, way, given.pace
        self.count = min(KILLS_OF_A_STORE, given.kills - number * KILLS_OF_A_STORE)

    def tried(self):
        """What came of each run, or the first that is wrong."""
        with tempfile.TemporaryDirectory() as folder:
            path, rows, found = os.path.join(folder, "STORE"), [], []
            for _ in range(self.count):
                rows, kind = self.kill(path, rows)
                found.append(kind)
                self.goes_on_beside(path, rows)
            if os.path.exists(path):
                goes_on(self.program, self.mode, path, rows)
        return found

    def kill(self, path, before):
        """Kills one run. The rows that it leaves, and how far they are ahead of the replies."""
        stream = Stream(session_from(self.mode, before), self.draw)
        with Talk([self.program, self.mode, HUB, path], pipes()) as talk:
            sent, heard = self.way(talk, stream, self.draw, self.pace)
            while piece := talk.heard():
                heard += piece
        done = self.whole_replies(stream, heard)
        try:
            rows = stores.rows(path)
        except stores.Unread as why:
            if before or done:
                raise Wrong(f"a store that can be read after {done} replies, and not: {why}")
            rows = []
        return rows, self.place(stream, rows, done, sent)

    @staticmethod
    def whole_replies(stream, heard):
        """How many lines have a whole reply in what was heard, which must be a front of the replies."""
        whole = b"".join(stream.replies)
        if not whole.startswith(heard):
            raise Wrong(f"a front of {whole!r}, and not {heard!r}")
        return sum(end <= len(heard) for end in itertools.accumulate(map(len, stream.replies)))

    def place(self, stream, rows, done, sent):
        """Sees that the rows are those after a line between the last answered and the last sent, and says which."""
        most = min(sent, done + 1) if self.way is awaited else sent
        numbers, lines = {row[0] for row in rows}, stream.lines[:most]
        for reply in stream.replies[:done]:
            words = reply.split()
            number = int(words[1]) if words[0] in (b"ok", b"cancelled") else None
            if words[0] == b"ok" and number not in numbers and b"cancel %d" % number not in lines:
                raise Wrong(f"booking {number}, which was acknowledged, in {rows}")
            if words[0] == b"cancelled" and number in numbers:
                raise Wrong(f"no booking {number}, whose cancellation was acknowledged, in {rows}")
        if rows not in stream.rows[done:most + 1]:
            raise Wrong(f"rows of the session after line {done} to {most} of {stream.lines}, and not {rows}")
        if done == 0:
            return "before the first reply"
        return "with the store at the replies" if rows == stream.rows[done] else "with the store ahead of the replies"

    def goes_on_beside(self, path, rows):
        """Another run on a copy of what was left."""
        with tempfile.TemporaryDirectory() as folder:
            for it in stores.files(path):
                shutil.copy(it, folder)
            goes_on(self.program, self.mode, os.path.join(folder, os.path.basename(path)), rows)


def killed(given):
    """All runs that are killed, shared out over the modes and the ways."""
    count = -(-given.kills // KILLS_OF_A_STORE)
    shares = itertools.islice(itertools.cycle(itertools.product(MODES, WAYS)), count)
    return [Killed(given, mode, way, number) for number, (mode, way) in enumerate(shares)]


# Without power


class Power(Trial):
    """A run is recorded, and the power goes at any of its calls: a later run has the rows of the replies, or is one
    line ahead."""

    def __init__(self, given, mode):
        super().__init__(given, f"power {mode}")
        self.mode = mode

    def tried(self):
        with tempfile.TemporaryDirectory(dir=self.folder) as place:
            calls, states = self.recorded(place)
            found = []
            for number in range(self.images):
                files, done = power.image(calls, ["STORE", "STORE-wal"], self.draw)
                try:
                    found.append(self.goes_on(os.path.join(place, str(number)), files, states[done:done + 2]))
                except Wrong as wrong:
                    found.append(f"WRONG: after {done} replies: wanted {wrong}")
        return found

    def recorded(self, place):
        """The calls of a run to its end, and the rows before its first reply and after each."""
        session, trace = session_from(self.mode), os.path.join(place, "TRACE")
        states = [rows_of(session)]
        words = [*power.recording(trace), self.program, self.mode, HUB, os.path.join(place, "STORE")]
        with Talk(words, pipes()) as talk:
            for at in range(POWERED):
                line = Owners.change(session, at)
                wanted = session.reply(line)
                talk.say(line + b"\n")
                talk.hear(wanted)
                states.append(rows_of(session))
            talk.end_input()
        return power.calls(trace), states

    def goes_on(self, place, files, wanted):
        """A run on what the disk holds, whose rows are one of those that are wanted."""
        path = os.path.join(place, "STORE")
        os.mkdir(place)
        for name, data in files.items():
            with open(os.path.join(place, name), "wb") as file:
                file.write(data)
        status, output = answered(self.program, self.mode, path, [b"cancel 0"])
        rows = stores.rows(path) if status == 0 else None
        shutil.rmtree(place)
        if rows not in wanted:
            raise Wrong(
                f"the rows {' or '.join(map(str, wanted))}, and not {rows}, with status {status} and {output!r}")
        return "with the store at the replies" if rows == wanted[0] else "with the store ahead of the replies"


def without_power(given):
    if power.is_there():
        return [Power(given, mode) for mode in ("first", "bid")]
    given.not_run.append(f"power: {power.WANTING}")
    return []


# Damage


def killed_store(program, path):
    """A store with all its bookings in its log."""
    with Talk([program, "first", HUB, path], pipes()) as talk:
        for number in range(1, 31):
            talk.say(b"book HF-Q 1\n")
            talk.hear(b"ok %d\n" % number)
        talk.process.kill()
        talk.process.wait()


def closed_store(program, path):
    answered(program, "first", path, [b"book HF-Q 1", b"book NJ-Y 2", b"cancel 1"] * 10)


def store_of_sqlite(_program, path):
    rows = ", ".join(f"({3 * at + 1}, 'HF-Q', 1)" for at in range(40))
    stores.make(path, f"PRAGMA page_size = 512; {stores.TABLE} CREATE INDEX by_product ON kept (product);"
                f"INSERT INTO kept VALUES {rows}; DELETE FROM kept WHERE number % 7 = 0;".encode())


class Damage(Trial):
    """Bytes of a store or of its log are changed, and a run is given it."""

    def __init__(self, given, made):
        super().__init__(given, f"damage {made.__name__.replace('_', ' ')}")
        self.made = made

    def tried(self):
        found = []
        with tempfile.TemporaryDirectory(dir=self.folder) as place:
            self.made(self.program, os.path.join(place, "STORE"))
            for number in range(self.images):
                try:
                    found.append(self.one(place, os.path.join(place, f"DAMAGED-{number}")))
                except Wrong as wrong:
                    found.append(f"WRONG: store {number}: wanted {wrong}")
        return found

    def one(self, place, path):
        names = [it for it in stores.files(os.path.join(place, "STORE")) if os.path.getsize(it)]
        bent = self.draw.choice(names)
        for it in names:
            with open(it, "rb") as file:
                data = bytearray(file.read())
            with open(path + os.path.basename(it)[len("STORE"):], "wb") as file:
                file.write(self.bent(data) if it == bent else data)
        whole = self.by_sqlite(path)
        status, output = answered(self.program, "first", path, [b"cancel 0"])
        if (status, output) not in [(0, b"unknown\n"), (NO_MEMORY, b""),
                                    (STORE_FAULT, b"store fault\n")] and status != REFUSED:
            raise Wrong(f"an end with status 0, 6, 12 or 13, and not {status} and {output!r}")
        if status == 0 and whole is not None:
            must_be(stores.rows(path), whole, "that sqlite3 read before")
        return f"status {status}" + " as sqlite3" * (status == 0 and whole is not None)

    def bent(self, data):
        """Some bytes are others, zeros, gone, or in another place."""
        for _ in range(self.draw.choice([1, 1, 2, 5])):
            at, size = self.draw.randrange(len(data)), self.draw.choice([1, 1, 4, 16, 512])
            way = self.draw.randrange(5)
            if way == 0:
                data[at] ^= 1 << self.draw.randrange(8)
            elif way == 1:
                data[at:at + size] = bytes(len(data[at:at + size]))
            elif way == 2 and at:
                del data[at:]
            elif way == 3:
                data[min(at, 100)] = self.draw.choice([0, 1, 2, 255])
            else:
                other = self.draw.randrange(len(data))
                data[at:at + size], data[other:other + size] = data[other:other + size], data[at:at + size]
        return data

    @staticmethod
    def by_sqlite(path):
        """The rows of a copy in which `sqlite3` finds no damage."""
        with tempfile.TemporaryDirectory() as folder:
            for it in stores.files(path):
                shutil.copy(it, folder)
            copy = os.path.join(folder, os.path.basename(path))
            try:
                return stores.rows(copy) if stores.faults(copy) == ["ok"] else None
            except stores.Unread:
                return None


def damaged(given):
    return [Damage(given, made) for made in (killed_store, closed_store, store_of_sqlite)]


# Faults of the files

LIBRARY = r"""
#define _GNU_SOURCE
#include <dlfcn.h>
#include <errno.h>
#include <fcntl.h>
#include <stdio.h>
#include <stdlib.h>
#include <string.h>
#include <sys/types.h>
#include <unistd.h>

enum { WRITES, FLUSHES, CUTS, KINDS };

static unsigned long calls[KINDS], at_cut[KINDS], failing;
static int kind, error, all_after, window, loses;
static const char *store;

/* What was written and not yet forced to the disk: the bytes before it, and how long the file was. */
static struct { int fd; off64_t at, length; ssize_t size; char *old; } unsure[4096];
static int count;

__attribute__((constructor)) static void begin(void) {
  const char *number = getenv("FAILING"), *which = getenv("KIND"), *code = getenv("ERROR");
  failing = number ? strtoul(number, 0, 10) : 0;
  kind = which ? atoi(which) : 0;
  error = code ? atoi(code) : EIO;
  all_after = getenv("ALL_AFTER") != 0;
  window = getenv("WINDOW") ? atoi(getenv("WINDOW")) : 0;
  loses = getenv("LOSES") != 0;
  store = getenv("STORE_FOLDER");
}

__attribute__((destructor)) static void end(void) {
  const char *path = getenv("COUNTED");
  int file = path ? open(path, O_WRONLY | O_CREAT | O_TRUNC, 0600) : -1;
  if (file >= 0) {
    char text[99];
    unsigned long *told = getenv("AT_CUT") ? at_cut : calls;
    int size = snprintf(text, sizeof text, "%lu %lu %lu", told[WRITES], told[FLUSHES], told[CUTS]);
    ssize_t (*real)(int, const void *, size_t) = dlsym(RTLD_NEXT, "write");
    real(file, text, size);
    close(file);
  }
}

static int fails(int of, int fd) {
  char link[64], name[4096];
  int then = errno;
  snprintf(link, sizeof link, "/proc/self/fd/%d", fd);
  ssize_t size = readlink(link, name, sizeof name - 1);
  errno = then;
  if (size < 0 || !store || strncmp(name, store, strlen(store))) return 0;
  calls[of]++;
  if (of == CUTS && calls[CUTS] == 1) memcpy(at_cut, calls, sizeof calls);
  int is_after = all_after && calls[of] > failing && (!window || calls[of] < failing + window);
  int it = failing && of == kind && (calls[of] == failing || is_after);
  if (it) errno = error;
  return it;
}

#define REAL(name) ((typeof(&name))dlsym(RTLD_NEXT, #name))

static void forget(int fd) {
  int left = 0;
  for (int i = 0; i < count; i++) {
    if (unsure[i].fd == fd) free(unsure[i].old);
    else unsure[left++] = unsure[i];
  }
  count = left;
}

static void remember(int fd, size_t size, off64_t at) {
  if (!loses || count == 4096) return;
  char *old = calloc(size + 1, 1);
  off64_t length = lseek64(fd, 0, SEEK_END);
  unsure[count].fd = fd, unsure[count].at = at, unsure[count].length = length, unsure[count].old = old;
  unsure[count++].size = pread64(fd, old, size, at);
}

static void lose(int fd) {
  for (int i = count - 1; i >= 0; i--) {
    if (unsure[i].fd != fd || unsure[i].size < 0) continue;
    if (REAL(pwrite64)(fd, unsure[i].old, unsure[i].size, unsure[i].at) < 0) abort();
    if (REAL(ftruncate64)(fd, unsure[i].length)) abort();
  }
  forget(fd);
}

static int flush(int fd, int is_failing, int (*real)(int)) {
  int answer = is_failing ? -1 : real(fd), then = errno;
  if (is_failing && loses) lose(fd);
  else if (!answer) forget(fd);
  errno = then;
  return answer;
}

static ssize_t put(int fd, const void *bytes, size_t size, off64_t at) {
  if (fails(WRITES, fd)) return -1;
  remember(fd, size, at);
  return REAL(pwrite64)(fd, bytes, size, at);
}

int close(int fd) {
  forget(fd);
  return REAL(close)(fd);
}

ssize_t write(int fd, const void *bytes, size_t size) { return fails(WRITES, fd) ? -1 : REAL(write)(fd, bytes, size); }
ssize_t __write(int fd, const void *bytes, size_t size) { return write(fd, bytes, size); }
ssize_t pwrite(int fd, const void *bytes, size_t size, off_t at) { return put(fd, bytes, size, at); }
ssize_t pwrite64(int fd, const void *bytes, size_t size, off64_t at) { return put(fd, bytes, size, at); }
int fsync(int fd) { return flush(fd, fails(FLUSHES, fd), REAL(fsync)); }
int fdatasync(int fd) { return flush(fd, fails(FLUSHES, fd), REAL(fdatasync)); }
int ftruncate(int fd, off_t size) { return fails(CUTS, fd) ? -1 : REAL(ftruncate)(fd, size); }
int ftruncate64(int fd, off64_t size) { return fails(CUTS, fd) ? -1 : REAL(ftruncate64)(fd, size); }
"""

WRITE, FLUSH, CUT = range(3)
CALLS = ["write", "flush", "cut"]
ERRORS = {"EIO": {"ERROR": str(errno.EIO)}, "ENOSPC for all after": {"ERROR": str(errno.ENOSPC), "ALL_AFTER": "1"}}
# What was written since the last flush may be there or lost once one has failed.
FATES = {"what was written stays": {}, "what was written is lost": {"LOSES": "1"}}
FATES |= {f"{fate}, for all after": variables | {"ALL_AFTER": "1"} for fate, variables in FATES.items()}
FATES |= {f"{n} flushes fail": {"ALL_AFTER": "1", "WINDOW": str(n)} for n in (2, 4)}
DOZEN = [b"book HJ-Q 2", b"book HF-Y 1", b"cancel 1", b"leg HAM-FRA", b"book FN-Q 3", b"cancel 9", b"book HN-Y 1",
         b"cancel 2",
         b"book MF-Q 2", b"hindsight", b"book FJ-Q 4", b"cancel 3", b"book NJ-Y 1"]


# after these the log was emptied once
MANY = [line for at in range(300) for line in (b"book HJ-Q 1", b"cancel %d" % (at + 1))]
NEAR = 2  # the calls before and after that one that are made to fail


class Faults:
    """Runs of some lines behind the library, from a store with some rows or from none."""

    def __init__(self, given, mode, kind, lines, rows=()):
        self.program, self.folder, self.library = given.program, given.quick, given.library
        self.mode, self.kind, self.lines, self.rows = mode, kind, lines, list(rows)
        self.name = f"faults {mode} {CALLS[kind]} {len(lines)} lines {len(rows)} rows"

    def run(self, place, lines, **variables):
        path = os.path.join(place, "STORE")
        if self.rows and not os.path.exists(path):
            values = ", ".join(map(str, self.rows))
            stores.make(path, f"{stores.TABLE} INSERT INTO kept VALUES {values};".encode())
        environment = dict(os.environ, LD_PRELOAD=self.library, STORE_FOLDER=place, KIND=str(self.kind), **variables)
        return answered(self.program, self.mode, path, lines, env=environment)

    def count(self, **variables):
        """How many calls of the kind a run has that nothing hinders, or has when its log is first emptied."""
        preload.must_be_a_program(self.program)
        with tempfile.TemporaryDirectory(dir=self.folder) as place:
            told = os.path.join(place, "COUNTED")
            status, _ = self.run(place, self.lines, COUNTED=told, **variables)
            if status or not os.path.exists(told):
                raise preload.Wrong(f"status {status} with no fault, or {self.program} doesn't load the library")
            with open(told) as file:
                return int(file.read().split()[self.kind])

    def numbers(self):
        """Which calls are made to fail."""
        whole = self.count()
        if self.lines is not MANY or self.kind == CUT:
            return range(1, whole + 1)
        place = self.count(AT_CUT="1")
        if not place:
            raise preload.Wrong(f"the log wasn't emptied in {len(self.lines)} lines")
        return range(max(1, place - NEAR), min(whole, place + NEAR) + 1)

    def fault(self, number, variables):
        """One run with faults, and a later one. What came of it."""
        is_all = "ALL_AFTER" in variables
        with tempfile.TemporaryDirectory(dir=self.folder) as place:
            status, output = self.run(place, self.lines, FAILING=str(number), **variables)
            session, refused, kind = self.judged(status, output, is_all)
            path = os.path.join(place, "STORE")
            rows = rows_of(session) if status == STORE_FAULT else stores.rows(path)
            # if nothing can be forced to the disk any more, whether the first line that was answered `store` is there
            # can't be known
            may_be = is_all and self.kind == FLUSH and refused is not None and rows == rows_of(refused)
            later = output.rpartition(b"store\n")[2].splitlines()
            if may_be and any(line.startswith((b"ok ", b"cancelled ")) for line in later):
                raise Wrong(f"the line undone before a later one is done, and not {output[-300:]!r} and {rows}")
            if not may_be:
                must_be(rows, rows_of(session), f"after the replies {output[-300:]!r}")
            goes_on(self.program, self.mode, path, rows)
        return kind + may_be * " and the line is there"

    def judged(self, status, output, is_all):
        """The session that these replies leave, that after the first line answered `store`, and what came in a word."""
        session, refused, count = session_from(self.mode, self.rows), None, 0
        if (status, output) == (STORE_FAULT, b"store fault\n"):
            return session, refused, "store fault"
        replies = output.splitlines(keepends=True)
        replies.reverse()
        for line in self.lines:
            if replies[-1:] == [b"store\n"]:
                other = copied(session)
                if not other.reply(line).startswith((b"ok ", b"cancelled ")):
                    raise Wrong(f"no `store` to {line!r} in {output[-300:]!r}")
                refused, count = refused or other, count + 1
                replies.pop()
                continue
            wanted = session.reply(line)
            got = b"".join(replies.pop() for _ in range(min(wanted.count(b"\n"), len(replies))))
            if got != wanted:
                raise Wrong(f"{wanted!r} to {line!r}, and not {got!r}, in {output[-300:]!r}")
        if status or replies or count > 1 and not is_all:
            raise Wrong(f"status 0, no more replies, and one `store` for one fault, and not status {status} and "
                        f"{output[-300:]!r}")
        return session, refused, f"{'some' if is_all else 1} store" if count else "no fault that shows"

    def tried(self):
        found, ways = [], FATES if self.kind == FLUSH else ERRORS
        for number, way in itertools.product(self.numbers(), ways):
            try:
                found.append(self.fault(number, ways[way]))
            except (Wrong, stores.Unread) as wrong:
                found.append(f"WRONG: {CALLS[self.kind]} {number}, {way}: wanted {wrong}")
        return found


def faults(given):
    """In memory if there is such a disk, since no power is lost here."""
    if not preload.is_there():
        given.not_run.append(f"faults: {preload.WANTING}")
        return []
    given.library = preload.built(LIBRARY, given.folder)
    rows = [(3, "HF-Q", 2), (7, "NJ-Y", 1)]
    more = DOZEN + [b"cancel 7", b"book HF-Q 1"]
    trials = [("first", WRITE, DOZEN), ("bid", WRITE, more, rows), ("bid", FLUSH, DOZEN), ("davn", FLUSH, more, rows),
              ("first", WRITE, MANY), ("first", FLUSH, MANY), ("first", CUT, MANY)]
    return [Faults(given, *trial) for trial in trials]


# Two runs on one store

SWITCHED = r"""
#define _GNU_SOURCE
#include <dlfcn.h>
#include <errno.h>
#include <fcntl.h>
#include <stdarg.h>
#include <stdio.h>
#include <stdlib.h>
#include <string.h>
#include <sys/types.h>
#include <unistd.h>

#define REAL(name) ((typeof(&name))dlsym(RTLD_NEXT, #name))

/* Whether calls of a kind fail now: the file SWITCH is there and has its letter. */
static int is_on(char kind) {
  char said[64] = "";
  int then = errno, file = REAL(open)(getenv("SWITCH"), O_RDONLY);
  if (file >= 0) {
    if (read(file, said, sizeof said - 1) < 0) said[0] = 0;
    close(file);
  }
  int it = strchr(said, kind) != 0;
  errno = it ? EIO : then;
  return it;
}

static int is_below(const char *path) {
  const char *folder = getenv("STORE_FOLDER");
  return folder && !strncmp(path, folder, strlen(folder));
}

static int fails(char kind, int fd) {
  char link[64], name[4096] = "";
  snprintf(link, sizeof link, "/proc/self/fd/%d", fd);
  return readlink(link, name, sizeof name - 1) > 0 && is_below(name) && is_on(kind);
}

int fsync(int fd) { return fails('f', fd) ? -1 : REAL(fsync)(fd); }
int fdatasync(int fd) { return fails('f', fd) ? -1 : REAL(fdatasync)(fd); }
ssize_t pwrite64(int fd, const void *bytes, size_t size, off64_t at) {
  return fails('w', fd) ? -1 : REAL(pwrite64)(fd, bytes, size, at);
}
ssize_t pwrite(int fd, const void *bytes, size_t size, off_t at) { return pwrite64(fd, bytes, size, at); }

static int opened(const char *path, int flags, int mode, typeof(&open) real) {
  if ((flags & O_ACCMODE) == O_RDWR && is_below(path) && is_on('o')) return -1;
  return real(path, flags, mode);
}

static int mode_in(int flags, va_list more) { return flags & O_CREAT ? va_arg(more, int) : 0; }

#define OPEN(name) int name(const char *path, int flags, ...) { \
  va_list more; \
  va_start(more, flags); \
  int mode = mode_in(flags, more); \
  va_end(more); \
  return opened(path, flags, mode, REAL(name)); }

OPEN(open)
OPEN(open64)
"""


class Switch:
    """Calls on the files of a store that fail while a file is there: `f` those that force a file to the disk, `w`
    writes, `o` an opening for reading and writing."""

    def __init__(self, letters, library):
        self.letters, self.library, self.until_it_shows = letters, library, 3

    def words(self, place):
        self.file = os.path.join(place, "SWITCH")
        return ["env", f"LD_PRELOAD={self.library}", f"SWITCH={self.file}",
                f"STORE_FOLDER={os.path.join(place, 'store')}"]

    def begin(self):
        with open(self.file + "-new", "w", encoding="ascii") as file:
            file.write(self.letters)
        os.rename(self.file + "-new", self.file)

    def shows(self):
        """Another thing that befalls the store once a line was answered `store`."""

    def end(self):
        os.remove(self.file)


class LosingSwitch(Switch):
    """The same, and what was written and could not be forced to the disk is lost."""

    def begin(self):
        self.log = os.path.join(os.path.dirname(self.file), "store", "STORE-wal")
        with open(self.log, "rb") as file:
            self.before = file.read()
        super().begin()

    def shows(self):
        with open(self.log, "wb") as file:
            file.write(self.before)


class FullDisk:
    """A disk that another file fills; there is no more than one such trial below a mount."""

    def __init__(self):
        self.until_it_shows = 400

    def words(self, place):
        self.place, self.other = place, os.path.join(place, "OTHER")
        return []

    def begin(self):
        fill(self.other)

    def shows(self):
        """Nothing more."""

    def end(self):
        os.remove(self.other)


class FullDiskThatIsAway(FullDisk):
    """The same, and the folder is away for a moment, as a volume may be."""

    def shows(self):
        os.rename(os.path.join(self.place, "store"), os.path.join(self.place, "away"))

    def end(self):
        os.rename(os.path.join(self.place, "away"), os.path.join(self.place, "store"))
        super().end()


def heard_of(talk, session, line, may_fail):
    """Says a line, and hears its reply: the session's, or `store` if the store may fail. Whether it was `store`."""
    other = copied(session)
    wanted = other.reply(line)
    talk.say(line + b"\n")
    got = talk.heard()
    while wanted.startswith(got) and len(got) < len(wanted) and (piece := talk.heard()):
        got += piece
    if got == b"store\n" and may_fail and wanted.startswith((b"ok ", b"cancelled ")):
        return True
    if got != wanted:
        raise Wrong(f"{wanted!r} to {line!r}, and not {got!r}")
    session.__dict__.update(other.__dict__)
    return False


class Owners:
    """Tries of two runs on one store, of which the first meets a fault. The second never has the store."""

    def __init__(self, given, kind, fault, folder):
        self.program, self.tries, self.seed = given.program, given.tries, given.seed
        self.fault, self.folder = fault, folder
        self.name = f"owners {kind}"

    def tried(self):
        found = []
        for number in range(self.tries):
            try:
                found.append(self.one(random.Random(f"{self.seed} {self.name} {number}")))
            except (Wrong, stores.Unread) as wrong:
                found.append(f"WRONG: try {number}: wanted {wrong}")
        return found

    def one(self, draw):
        mode = draw.choice(MODES)
        with tempfile.TemporaryDirectory(dir=self.folder) as place:
            words, session = self.fault.words(place), session_from(mode)
            os.mkdir(os.path.join(place, "store"))
            path = os.path.join(place, "store", "STORE")
            with Talk([*words, self.program, mode, HUB, path], pipes()) as talk:
                heard_of(talk, session, b"book HF-Q 1", False)
                for _ in range(draw.randrange(12)):
                    heard_of(talk, session, Stream.line(session, draw), False)
                kind = self.failing(talk, session, draw, path)
                for _ in range(draw.randrange(6)):  # where none comes the end of the run settles what is in doubt
                    heard_of(talk, session, Stream.line(session, draw), False)
                    self.is_refused(path)
                talk.end_input()
            must_be(stores.rows(path), rows_of(session), "of the first run")
            goes_on(self.program, mode, path, rows_of(session))
        return kind

    def failing(self, talk, session, draw, path):
        """The fault begins, lines come until one is answered `store` and some more, and it ends. What came."""
        self.fault.begin()
        at = 0
        while not heard_of(talk, session, self.change(session, at), True):
            at += 1
            if at > self.fault.until_it_shows:
                raise Wrong(f"`store` within {at} lines")
        self.fault.shows()
        if draw.random() < 0.3:
            self.polled(talk, session, draw, path)
        for _ in range(draw.randrange(4)):
            self.is_refused(path)
            heard_of(talk, session, Stream.line(session, draw), True)
        self.is_refused(path)
        self.fault.end()
        self.is_refused(path)
        return "refused"

    @staticmethod
    def change(session, at):
        """A line that changes a booking."""
        return b"book HF-Q 1" if at % 2 == 0 or not session.book else b"cancel %d" % session.book[0][0]

    def is_refused(self, path):
        """Another run on the store, which must not have it."""
        if (got := answered(self.program, "first", path,
                            [b"book HF-Q 50", b"cancel 1"])) != (STORE_FAULT, b"store fault\n"):
            raise Wrong(f"`store fault` of a second run, and not {got}")

    def polled(self, talk, session, draw, path):
        """The second run is started again and again while lines of the first come."""
        with concurrent.futures.ThreadPoolExecutor(1) as other:
            polling = other.submit(lambda: [self.is_refused(path) for _ in range(5)])
            while not polling.done():
                heard_of(talk, session, Stream.line(session, draw), True)
            polling.result()


class Windows(Owners):
    """The same with flushes of which some in a row fail, so that the first run goes on by itself."""

    def __init__(self, given, library):
        super().__init__(given, "some flushes in a row", None, given.quick)
        self.library = library

    def one(self, draw):
        number, count, mode = draw.randrange(3, 40), draw.randrange(1, 6), draw.choice(MODES)
        with tempfile.TemporaryDirectory(dir=self.folder) as place:
            path, session = os.path.join(place, "STORE"), session_from(mode)
            words = ["env", f"LD_PRELOAD={self.library}", f"STORE_FOLDER={place}", f"KIND={FLUSH}", f"FAILING={number}",
                     "ALL_AFTER=1", f"WINDOW={count}"]
            with Talk([*words, self.program, mode, HUB, path], pipes()) as talk:
                if (kind := self.lines(talk, session, draw, path)) == "store fault at the start":
                    return kind
                talk.end_input()
            must_be(stores.rows(path), rows_of(session),
                    f"of the first run, whose flush {number} and {count - 1} more failed")
            goes_on(self.program, mode, path, rows_of(session))
        return kind

    def lines(self, talk, session, draw, path):
        """Lines until some came after the first that was answered `store`, the last of which changes a booking."""
        try:
            talk.say(b"book HF-Q 1\n")
        except BrokenPipeError:
            pass  # it has ended, and says why
        if (got := talk.heard()) == b"store fault\n":
            return "store fault at the start"
        refused = got == b"store\n"
        if not refused and got != session.reply(b"book HF-Q 1"):
            raise Wrong(f"`ok 1`, and not {got!r}")
        for at in range(50):
            refused |= heard_of(talk, session, self.change(session, at), True)
            if refused:
                self.is_refused(path)
        return "refused" if refused else "no fault that shows"


class WrittenOver:
    """A row that `sqlite3` wrote where a change is in doubt stays: it isn't that of the change."""

    def __init__(self, given, library):
        self.name, self.program = "owners a row in doubt that was written over", given.program
        self.folder, self.library = given.quick, library

    def tried(self):
        trials = [(b"book HF-Q 2", "UPDATE kept SET party = 3 WHERE number = 2", [(1, "HF-Q", 1), (2, "HF-Q", 3)]),
                  (b"cancel 1", "INSERT INTO kept VALUES (1, 'HF-Q', 3)", [(1, "HF-Q", 3), (2, "HF-Y", 1)])]
        return [self.one(*trial) for trial in trials]

    def one(self, line, statement, wanted):
        """The line fails and is in the store all the same; the statement writes over it, another line settles it."""
        fault, session = Switch("fo", self.library), session_from("first")
        with tempfile.TemporaryDirectory(dir=self.folder) as place:
            words, path = fault.words(place), os.path.join(place, "store", "STORE")
            os.mkdir(os.path.dirname(path))
            with Talk([*words, self.program, "first", HUB, path], pipes()) as talk:
                heard_of(talk, session, b"book HF-Q 1", False)
                fault.begin()
                if not heard_of(talk, session, line, True):
                    raise Wrong(f"`store` to {line!r}")
                stores.make(path, statement.encode())
                fault.end()
                if line == b"cancel 1":
                    heard_of(talk, session, b"book HF-Y 1", False)
                else:
                    talk.say(b"book HF-Y 1\n")  # its number is taken by now
                    talk.hear(b"store\n")
                talk.end_input()
            must_be(stores.rows(path), wanted, "that somebody else wrote, and those of the run")
        return "done"


def owners(given):
    """In memory if there is such a disk, but for those that need a small disk of their own."""
    if preload.is_there():
        switched = preload.built(SWITCHED, given.folder, "switched")
        kinds = {"failing flushes": Switch("f", switched), "failing flushes and openings": Switch("fo", switched),
                 "lost flushes": LosingSwitch("fo", switched), "failing writes": Switch("w", switched),
                 "failing writes and openings": Switch("wo", switched),
                 "failing writes and flushes": Switch("wfo", switched)}
        yield from (Owners(given, kind, fault, given.quick) for kind, fault in kinds.items())
        yield WrittenOver(given, switched)
        yield Windows(given, preload.built(LIBRARY, given.folder, "windows"))
    else:
        given.not_run.append(f"owners: {preload.WANTING}")


# One by one


class Once:
    """A trial that is made once."""

    def __init__(self, made, *words):
        self.name, self.tried = made.__name__.replace("_", " "), functools.partial(made, *words)


def two_programs_on_one_store(program, folder):
    path, first = os.path.join(folder, "TWO"), session_from("bid")
    with Talk([program, "bid", HUB, path], pipes()) as talk:
        for line in DOZEN:
            talk.say(line + b"\n")
            talk.hear(first.reply(line))
            if (got := answered(program, "first", path, [b"book HF-Q 1"])) != (STORE_FAULT, b"store fault\n"):
                raise Wrong(f"`store fault` of a second program, and not {got}")
        talk.end_input()
    must_be(stores.rows(path), rows_of(first), "of the first program")
    goes_on(program, "bid", path, rows_of(first))
    return ["done"]


def log_is_in_the_file_when_it_is_closed(program, folder):
    """The log may be taken away after a run that ended, in each mode and with each status."""
    found = []
    for mode in MODES:
        path, session = os.path.join(folder, f"CLOSED-{mode}"), session_from(mode)
        for lines in DOZEN, [b"book HF-Q 1"], []:
            wanted = b"".join(map(session.reply, lines))
            if (got := answered(program, mode, path, lines)) != (0, wanted):
                raise Wrong(f"{wanted!r}, and not {got}")
            found.append(closed_with(path, rows_of(session)))
    stores.make(path, b"UPDATE kept SET product = 'NONE' WHERE number = (SELECT max(number) FROM kept);")
    status, output = answered(program, mode, path, [b"book HF-Q 1"])
    if status != REFUSED or not output.startswith(b"refused store number"):
        raise Wrong(f"status {REFUSED} where a row doesn't load, and not {status} with {output!r}")
    return [*found, closed_with(path, stores.rows(path))]


def closed_with(path, rows):
    """Sees that the log is not needed, and takes it away."""
    size = os.path.getsize(path + "-wal")
    os.remove(path + "-wal")
    must_be(stores.rows(path), rows, "of the file alone")
    if (got := stores.faults(path)) != ["ok"]:
        raise Wrong(f"a file in which PRAGMA integrity_check finds nothing, and not {got}")
    return f"log of {size} bytes, which was not needed"


ENDLESS = b"""CREATE VIEW kept AS WITH RECURSIVE c(n) AS (SELECT 1 UNION ALL SELECT n + 1 FROM c)
    SELECT n AS number, 'HF-Q' AS product, 1 AS party FROM c;"""


def listing_without_end(program, folder):
    """Memory for 1 GiB and 30 seconds of a processor are enough to say that the store failed."""
    path = os.path.join(folder, "ENDLESS")
    stores.make(path, ENDLESS)

    def narrow():
        resource.setrlimit(resource.RLIMIT_AS, (2**30, 2**30))
        resource.setrlimit(resource.RLIMIT_CPU, (30, 30))

    if (got := answered(program, "first", path, [b"book HF-Q 1"],
                        preexec_fn=narrow)) != (STORE_FAULT, b"store fault\n"):
        raise Wrong(f"`store fault` of a listing without end, and not {got}")
    return ["done"]


MOST_LEGS, MOST_SEATS = 64, 999
VIEW = "CREATE VIEW kept AS SELECT number, product, party FROM other"
LISTINGS = {
    "a table": ("kept", ""),
    "a view": ("other", f"{VIEW};"),
    "a view in another order": ("other", f"{VIEW} ORDER BY product, number DESC;"),
    "a view of two parts": ("other", f"{VIEW} WHERE number % 2 UNION ALL SELECT * FROM other WHERE NOT number % 2;"),
    "a view of a join": ("other", """CREATE TABLE names (name TEXT PRIMARY KEY) STRICT;
        INSERT INTO names SELECT DISTINCT product FROM other;
        CREATE VIEW kept AS SELECT number, name AS product, party FROM other JOIN names ON name = product;"""),
}


def listings_of_all_rows_that_can_stand(program, folder):
    """All seats of as many legs as there may be are sold one by one; each store tells them all."""
    network, count = os.path.join(folder, "LARGEST"), MOST_LEGS * MOST_SEATS
    with open(network, "w", encoding="ascii") as file:
        file.write("periods,1,1\n" + "".join(f"leg,L{at},{MOST_SEATS}\n" for at in range(MOST_LEGS)))
        file.write("".join(f"product,P{at},100,L{at}\n" for at in range(MOST_LEGS)))
    for name, (table, more) in LISTINGS.items():
        path = os.path.join(folder, f"LISTED {name}")
        fills = f"""WITH RECURSIVE c(n) AS (SELECT 1 UNION ALL SELECT n + 1 FROM c WHERE n < {count})
            INSERT INTO {table} SELECT n, 'P' || (n % {MOST_LEGS}), 1 FROM c;"""
        stores.make(path, f"{stores.TABLE.replace(' kept ', f' {table} ')} {fills} {more}".encode())
        words = [program, "first", network, path]
        done = subprocess.run(words, input=b"book P0 1\nhindsight\n", capture_output=True, timeout=SLOW)
        wanted = b"no L0\nhindsight %d/1 revenue %d withheld 0\n" % (count * 100, count * 100)
        if (done.returncode, done.stdout) != (0, wanted):
            raise Wrong(f"{wanted!r} of {name} with {count} rows, and not {done.returncode} and {done.stdout[-300:]!r}")
    return list(LISTINGS)


def memory_for_no_program(program, folder):
    """The kernel lets the process grow to so many bytes and no further."""
    path, found = os.path.join(folder, "NARROW"), []
    for size in [2**23, 2**24, 2**25, 2**30]:
        narrow = functools.partial(resource.setrlimit, resource.RLIMIT_AS, (size, size))
        status, output = answered(program, "first", path, [b"book HF-Q 1", b"cancel 1"], preexec_fn=narrow)
        if (status, output) not in [(NO_MEMORY, b""), (0, b"ok 1\ncancelled 1 110\n")]:
            raise Wrong(f"status 6 and nothing, or all replies, with {size} bytes, and not {status} and {output!r}")
        found.append(f"status {status}")
    return found


def disk_that_is_full(program, folder):
    """The disk is filled by another file, and then that file is taken away."""
    path, other = os.path.join(folder, "STORE"), os.path.join(folder, "OTHER")
    fill(other)
    if (got := answered(program, "first", path, [b"book HF-Q 1"])) != (STORE_FAULT, b"store fault\n"):
        raise Wrong(f"`store fault` on a full disk, and not {got}")
    os.remove(other)
    session = session_from("first")
    with Talk([program, "first", HUB, path], pipes()) as talk:
        counts = collections.Counter(turn(talk, session, at, lambda: fill(other), lambda: os.remove(other))
                                     for at in range(LAST))
        talk.end_input()
    if not counts["`store`"] or not counts["kept after that"]:
        raise Wrong(f"`store` on a full disk and bookings after it, and not {counts}")
    must_be(stores.rows(path), rows_of(session), "after a disk was full")
    goes_on(program, "first", path, rows_of(session))
    return ["one with lines " + ", ".join(f"{kind} ({count})" for kind, count in counts.items())]


FULL, FREE, LAST = 100, 400, 800  # the lines from which on the disk is full, and free again


def turn(talk, session, at, fill_it, free_it):
    """A booking or a cancellation, and what came of it."""
    if at == FULL:
        fill_it()
    if at == FREE:
        free_it()
    line = b"book HF-Q 1" if at % 2 == 0 or not session.book else b"cancel %d" % session.book[0][0]
    other = copied(session)
    wanted = other.reply(line)
    talk.say(line + b"\n")
    got = talk.heard()
    if got == b"store\n" and FULL <= at < FREE:
        return "`store`"
    if got != wanted:
        raise Wrong(f"{wanted!r} to {line!r}, and not {got!r}, at line {at}")
    session.__dict__.update(other.__dict__)
    return "kept after that" if at >= FREE else "kept before"


def fill(path):
    """Fills the disk by a file."""
    try:
        with open(path, "wb", buffering=0) as file:
            while file.write(bytes(512)):
                pass
    except OSError as error:
        if error.errno != errno.ENOSPC:
            raise


class OnADisk:
    """A trial on a small disk of its own, by this script, below a mount that no other sees and that ends with it."""

    def __init__(self, given, name):
        self.given, self.name = given, name

    def tried(self):
        given = ["--program", self.given.program, "--tries", str(self.given.tries), "--seed", str(self.given.seed)]
        words = [sys.executable, os.path.abspath(__file__), *given, "--disk", self.name]
        seconds = SLOW * (1 + self.given.tries)
        done = subprocess.run(["unshare", "--map-root-user", "--mount", *words], capture_output=True, timeout=seconds)
        if done.returncode:
            raise Wrong((done.stdout + done.stderr).decode())
        return done.stdout.decode().splitlines()


def full_for_one_run(given, folder):
    return disk_that_is_full(given.program, folder)


def full_for_the_first(fault, given, folder):
    return Owners(given, "", fault(), folder).tried()


# Each with how large its disk is.
DISKS = {"disk that is full": ("8m", full_for_one_run),
         "owners a full disk": ("1m", functools.partial(full_for_the_first, FullDisk)),
         "owners a full disk that is away": ("1m", functools.partial(full_for_the_first, FullDiskThatIsAway))}


def disk_alone(given):
    """A trial on a disk that is mounted for it."""
    size, made = DISKS[given.disk]
    with tempfile.TemporaryDirectory() as folder:
        subprocess.run(["mount", "-t", "tmpfs", "-o", f"size={size}", "none", folder], check=True)
        try:
            print("\n".join(made(given, folder)))
        finally:
            subprocess.run(["umount", folder], check=True)


def can_mount():
    """Whether a disk in memory can be mounted here."""
    words = "d=$(mktemp -d) && { mount -t tmpfs none $d && umount $d; s=$?; rmdir $d; exit $s; }"
    try:
        return subprocess.run(["unshare", "--map-root-user", "--mount", "sh", "-c", words],
                              capture_output=True).returncode == 0
    except FileNotFoundError:
        return False


def small_disks(given):
    if can_mount():
        return [OnADisk(given, name) for name in DISKS]
    given.not_run.append("disk, and owners with a full one: that needs the right to mount a disk in memory, and there "
                         "is none here")
    return []


# All trials


def outcome(trial):
    """How many runs passed and failed, and what is told of the trial."""
    begun = time.monotonic()
    try:
        found = trial.tried()
    except (Wrong, preload.Wrong, stores.Unread, OSError, subprocess.SubprocessError) as wrong:
        return 0, 1, f"{trial.name}: {'wanted ' if isinstance(wrong, Wrong) else ''}{wrong}"
    wrong = [it for it in found if it.startswith("WRONG: ")]
    kinds = collections.Counter(it for it in found if not it.startswith("WRONG: "))
    named = ", ".join(f"{count} {kind}" for kind, count in sorted(kinds.items()))
    told = [f"{trial.name}: {it}" for it in wrong[:MOST_TOLD]]
    told += [f"{trial.name}: {len(wrong)} wrong, {named}; {time.monotonic() - begun:.1f} s"]
    return len(found) - len(wrong), len(wrong), "\n".join(told)


def all_trials(given):
    yield from faults(given)
    yield from killed(given)
    yield from without_power(given)
    yield from damaged(given)
    yield from owners(given)
    yield from small_disks(given)
    for made in (two_programs_on_one_store, log_is_in_the_file_when_it_is_closed, listing_without_end,
                 listings_of_all_rows_that_can_stand, memory_for_no_program):
        yield Once(made, given.program, given.folder)


def words_given():
    parser = argparse.ArgumentParser(usage=__doc__)
    parser.add_argument("pattern", nargs="?", default="")
    parser.add_argument("--kills", type=int, default=KILLS)
    parser.add_argument("--images", type=int, default=IMAGES)
    parser.add_argument("--tries", type=int, default=TRIES)
    parser.add_argument("--seed", type=int, default=1)
    parser.add_argument("--program")
    parser.add_argument("--disk", choices=DISKS, help=argparse.SUPPRESS)
    return parser.parse_args()


def main():
    given, given_folder = words_given(), tempfile.TemporaryDirectory()
    if not stores.is_there:
        print(f"Stores weren't tried: {stores.WANTING}.")
        return 0
    given.program = checks.built("nrm_kept", given.program)
    if given.program is None:
        return checks.NOT_BUILT
    if given.disk:
        disk_alone(given)
        return 0
    passed = failed = 0
    memory = {"dir": "/dev/shm"} if os.access("/dev/shm", os.W_OK) else {}
    pool = concurrent.futures.ThreadPoolExecutor(os.cpu_count())
    with given_folder as given.folder, tempfile.TemporaryDirectory(**memory) as given.quick, pool:
        given.not_run, given.pace = [], Pace(given.program, given.folder)
        for good, bad, told in pool.map(outcome, [trial for trial in all_trials(given) if given.pattern in trial.name]):
            passed, failed = passed + good, failed + bad
            print(told, flush=True)
    for why in given.not_run:
        print(f"not run: {why}")
    return checks.ended(passed, failed)


if __name__ == "__main__":
    sys.exit(main())
