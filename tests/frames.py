"""A program that runs through frames, as `nrm_desks` does: what is given to it, and the frames that it writes."""
import array
import fcntl
import os
import select
import subprocess
import termios
import time

from checks import Wrong, shown, want

SECONDS = 20  # within which each frame must come
STILL = 0.2  # for which nothing may come where a test waits for that
MOMENT = 0.001  # after which it is seen again whether all was read
SIZED = (b"keep", b"send")
PIECE = 1_048_576


def came(place, given):
    return b"came %d %d\n" % (place, len(given)) + given


def again(rows):
    return b"again %d\n" % len(rows) + rows


def split(written):
    """The whole frames of what was written, each as its line and its bytes, and what stands behind them."""
    found = []
    while (end := written.find(b"\n")) >= 0:
        line, begins = written[:end], end + 1
        words = line.split(b" ")
        size = int(words[-1]) if words[0] in SIZED else 0
        if len(written) < begins + size:
            break
        found.append((line, written[begins:begins + size]))
        written = written[begins + size:]
    return found, written


def in_order(found):
    """Frames as far as their order is determined: those of each place, and behind them all the rows to be kept."""
    places, kept = {}, [it for it in found if it[0].startswith(b"keep")]
    for it in found:
        if it not in kept:
            places.setdefault(it[0].split()[1], []).append(it)
    return places, kept, found[len(found) - len(kept):] == kept


class Running:
    """A program with pipes at both ends."""

    def __init__(self, words, **more):
        self.process = subprocess.Popen(words, stdin=subprocess.PIPE, stdout=subprocess.PIPE, stderr=subprocess.PIPE,
                                        **more)
        self.found, self.rest, self.is_ended = [], b"", False

    def __enter__(self):
        return self

    def __exit__(self, *_):
        self.kill()

    def give(self, given):
        """Writes bytes at once, and more than a pipe holds as it takes them, and waits until it has read them: so what is
        given next is no part of the same round. A program that has ended takes none."""
        try:
            while given:
                given = given[os.write(self.process.stdin.fileno(), given):]
        except BrokenPipeError:
            pass
        until = time.monotonic() + SECONDS
        while self.unread() and not self.is_ended and time.monotonic() < until:
            self.read(MOMENT)

    def unread(self):
        """How many bytes of what was given it has still to read."""
        count = array.array("i", [0])
        fcntl.ioctl(self.process.stdin.fileno(), termios.FIONREAD, count)
        return count[0]

    def read(self, seconds):
        """Reads what is there within so many seconds; whether there was something."""
        output = self.process.stdout.fileno()
        if self.is_ended or not select.select([output], [], [], seconds)[0]:
            return False
        piece = os.read(output, PIECE)
        self.is_ended = not piece
        found, self.rest = split(self.rest + piece)
        self.found += found
        return bool(piece)

    def next(self, wanted):
        """The next frame, where something is wanted."""
        until = time.monotonic() + SECONDS
        while not self.found:
            if not self.read(max(0, until - time.monotonic())):
                raise Wrong(f"wanted {shown(wanted)}, and no frame came, {self.state()}")
        return self.found.pop(0)

    def state(self):
        return (f"and status {self.process.wait()}" if self.is_ended else "and the program goes on") + (
            f", behind {shown(self.rest)}" if self.rest else "")

    def want_still(self, seconds=0.0):
        """Nothing more may have been written, nor be within so many seconds."""
        while self.read(seconds):
            pass
        if self.found or self.rest:
            raise Wrong(f"more was written than is due: {shown(self.found)} {shown(self.rest)}")

    def end(self):
        """Closes the input, and gives all that is written from here on and the status."""
        self.process.stdin.close()
        until = time.monotonic() + SECONDS
        while not self.is_ended:
            if not self.read(max(0, until - time.monotonic())) and not self.is_ended:
                raise Wrong("the program goes on behind the end of its input")
        want(self.process.stderr.read(), b"", "standard error")
        return self.found, self.rest, self.process.wait(SECONDS)

    def kill(self):
        self.process.kill()
        self.process.wait()
        for pipe in (self.process.stdin, self.process.stdout, self.process.stderr):
            pipe.close()
