"""A stream in which each cancellation is of a booking that stands, any of them: made in talk with the program, in the
mode that will answer it, since which requests are accepted, and under which numbers, is the program's to say."""
import random
import subprocess

BATCH = 256  # the lines that are sent before their replies are read
OTHERS = ["book NONE 1", "leg NONE", "cancel 0", "status", "", "book  I01 1"]


class Talk:
    """A session of the program, and the numbers of the bookings that stand."""

    def __init__(self, program, mode, file):
        self.process = subprocess.Popen([program, "run", mode, file], stdin=subprocess.PIPE, stdout=subprocess.PIPE)
        self.standing = []

    def reply(self):
        return self.process.stdout.readline().decode()

    def send(self, lines):
        """Sends lines, reads a reply to each, and notes the bookings that were made. What is left of the text of a leg
        is read over with the next reply."""
        self.process.stdin.write("".join(line + "\n" for line in lines).encode())
        self.process.stdin.flush()
        for line in lines:
            told = self.reply()
            while told.startswith("on "):
                told = self.reply()
            if told.startswith("ok "):
                self.standing.append(int(told.split()[1]))

    def close(self):
        self.process.stdin.close()
        self.process.stdout.close()
        self.process.wait()


def mixed(program, mode, file, network, count):
    """`count` lines: of 100 some 70 book, 25 cancel any booking that stands, 4 ask for a leg, and one is bad or names
    nothing; at each quarter the plan is made anew."""
    draw, talk = random.Random(3), Talk(program, mode, file)
    products, legs = [name for name, _, _ in network.products], [name for name, _ in network.legs]

    def line(at):
        kind = draw.random()
        if at * 4 % count == 0 and at < count:
            return f"reoptimise {at * 4 // count + 1}"
        if kind < 0.25 and talk.standing:
            place = draw.randrange(len(talk.standing))
            talk.standing[place], talk.standing[-1] = talk.standing[-1], talk.standing[place]
            return f"cancel {talk.standing.pop()}"
        if kind < 0.95:
            return f"book {draw.choice(products)} {draw.randint(1, 4)}"
        if kind < 0.99:
            return f"leg {draw.choice(legs)}"
        return draw.choice(OTHERS)

    for first in range(1, count + 1, BATCH):
        batch = [line(at) for at in range(first, min(first + BATCH, count + 1))]
        talk.send(batch)
        yield from batch
    talk.close()
