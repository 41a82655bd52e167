"""What the tests have in common: what one wants, the tests of a file, and the programs that they run."""
import argparse
import os
import shlex
import shutil
import subprocess
import sys
import tempfile

TOP = os.path.dirname(os.path.dirname(os.path.realpath(__file__)))
SCRIPTS = "nrm", "nrm_kept", "nrm_why", "nrm_desks"
NOT_BUILT = 70  # what the scripts at the top end with if there is no program to run
MOST_SHOWN = 600
# a ring of 31 legs, of which each product has four: the opening program has a number that is too large after 53 pivots
TOO_LARGE = ("periods,1,1\n" + "".join(f"leg,A{n},{60 + n * n % 7},50\n" for n in range(31)) + "leg,Z,1,7\n"
             + "".join(f"product,A{n},{400 + n * n % 5},A{n},A{(n + 1) % 31},A{(n + 4) % 31},A{(n + 6) % 31}\n"
                       for n in range(31))
             + "product,LAST,99999999,Z\nproduct,LATER,99999998,Z\n"
             + "".join(f"demand,A{n},1,99\n" for n in range(31)) + "demand,LAST,1,1\n")


class Wrong(Exception):
    """What should have come, and what came."""


def shown(value):
    """A value as it is told, and of a long one the beginning."""
    text = repr(value)
    return text if len(text) <= MOST_SHOWN else f"{text[:MOST_SHOWN]}.."


def want(found, wanted, what="it"):
    if found != wanted:
        raise Wrong(f"{what}: wanted {shown(wanted)}, and not {shown(found)}")


def want_in(text, wanted):
    if wanted not in text:
        raise Wrong(f"wanted {wanted!r} in {text[-MOST_SHOWN:]!r}")


class Tests:
    """The tests of a file: the functions that it marks."""

    def __init__(self):
        self.all = []

    def __call__(self, function):
        self.all.append(function)
        return function

    def picked(self, pattern):
        """The tests with a pattern in their names."""
        return [it for it in self.all if pattern in it.__name__]


def words_of(manual, others=None, **numbers):
    """The words of the command line: which tests; other programs, each with the one that it is if neither the line nor
    the environment names another; numbers likewise; and the program, else the script `nrm` at the top."""
    words = argparse.ArgumentParser(usage=manual)
    words.add_argument("pattern", nargs="?", default="")
    for name in others or ():
        words.add_argument(f"--{name}", nargs="+")
    for name, number in numbers.items():
        words.add_argument(f"--{name}", type=int, default=number)
    add_program(words)
    given = words.parse_args()
    given.program = itself(placed(given.program))
    for name, path in (others or {}).items():
        said = getattr(given, name)
        setattr(given, name, itself(placed(said) if said else named(f"NRM_{name.upper()}", path)))
    return given


def program_of(manual):
    """The program of a command line that names nothing else."""
    words = argparse.ArgumentParser(usage=manual)
    add_program(words)
    return itself(placed(words.parse_args().program))


def add_program(words):
    words.add_argument("--program", nargs="+", default=[os.path.join(TOP, "nrm")])


def named(variable, path):
    """The words of the program that a variable of the environment names, or else the one at a path."""
    return placed(shlex.split(os.environ.get(variable, "")) or [path])


def placed(words):
    """The words of a program, which may run in another folder; if it isn't there the tests end, and that is told."""
    words = [os.path.abspath(it) if os.path.exists(it) else it for it in words]
    if not shutil.which(words[0]):
        sys.exit(f"{os.path.basename(sys.argv[0])}: {words[0]} isn't a program that can be run; the scripts at the top "
                 "prove and build theirs, as `./nrm --build`")
    return words


def want_of_itself(ran, name, usage):
    """Whether a program that is run, with its output as text, answers `--help` with its usage line and more, and
    `--version` with the version at the top; both as the only word."""
    with open(os.path.join(TOP, "VERSION")) as file:
        want(ran("--version"), (f"{name} {file.read().strip()}\n", 0), "--version")
    text, status = ran("--help")
    want((text.startswith(usage), text.endswith("\n"), status), (True, True, 0), f"--help: {text}")
    want_in(text, "docs/commands.md")
    for word in "--help", "--version":
        for words in ((word, "x"), ("x", word), (word, word, word), (word[:-1],), (word[1:],)):
            want(ran(*words), (usage, 2), words)
        with open("/dev/full", "wb") as full:
            want(ran(word, stdout=full)[1], 5, f"{word} to a full output")


def itself(words):
    """The words of a program: in the place of a script at the top, which answers some words by itself, those of what the
    script builds if need be."""
    name = os.path.basename(words[0])
    program = os.path.join(TOP, "crates", name, "out", name)
    is_script = words[0] == os.path.join(TOP, name) and name in SCRIPTS
    return [program, *words[1:]] if is_script and is_built([words[0], "--build"]) else words


def is_built(program):
    """Whether there is a program; its script builds it if need be."""
    return subprocess.run(program, stdin=subprocess.DEVNULL, stdout=subprocess.DEVNULL).returncode != NOT_BUILT


def built(name, said=None):
    """Where the program of a name is: the one that is said, else the one that its script builds if need be; None if it
    can't be built."""
    if not said and not is_built([os.path.join(TOP, name)]):
        return None
    return placed([said or os.path.join(TOP, "crates", name, "out", name)])[0]


def tried(tests, place_of):
    """Runs tests, each with what is made of a folder of its own, tells what fails, and gives the status."""
    passed, failed = 0, 0
    for it in tests:
        with tempfile.TemporaryDirectory() as folder:
            try:
                it(place_of(folder))
                passed += 1
            except Wrong as wrong:
                failed += 1
                print(f"{it.__name__}: {wrong}")
    return ended(passed, failed)


def ended(passed, failed):
    """Prints the last line of a file of tests, and gives its status."""
    print(f"{passed} passed, {failed} failed")
    return 0 if passed and not failed else 1
