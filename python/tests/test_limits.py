"""The limits are those of the crates."""
from __future__ import annotations

import re
import unittest

from harness import TOP
from nrm import limits

PLACES = [*sorted(TOP.glob("crates/*/src/limits.rt")), TOP / "crates/nrm_dual/src/written.rt",
          TOP / "crates/nrm_fraction/src/lib.rt", TOP / "crates/nrm_stream/src/parse.rt",
          TOP / "crates/nrm_why_cli/src/top.rt"]
CONSTANT = re.compile(r"^(?:pub(?:\([a-z]+\))? )?const ([A-Z_]+): [a-z0-9]+ = (.*);$", re.M)
NUMBERS = {"i64::MAX": str(2 ** 63 - 1), "u64::MAX": str(2 ** 64 - 1)}


def constants() -> dict[str, int]:
    """The constants of the crates, by their names; each is a number, or worked out of others."""
    texts: dict[str, str] = {}
    for path in PLACES:
        for name, value in CONSTANT.findall(path.read_text()):
            for words, number in NUMBERS.items():
                value = value.replace(words, number)
            texts.setdefault(name, re.sub(r" as [a-z0-9]+", "", value))
    known: dict[str, int] = {}
    while len(known) < len(texts):
        before = len(known)
        for name, text in texts.items():
            words = re.sub(r"[A-Z][A-Z_]+", lambda it: str(known.get(it[0], it[0])), text)
            if re.fullmatch(r"[0-9_ +*<-]+", words):
                known[name] = int(eval(words, {}))
        if len(known) == before:
            raise ValueError(f"these aren't read: {texts.keys() - known.keys()}")
    return known


class Limits(unittest.TestCase):
    def test_each_limit_is_that_of_the_crates(self) -> None:
        wanted = constants()
        ours = {name: value for name, value in vars(limits).items() if name.isupper()}
        self.assertGreaterEqual(len(ours), 20)
        self.assertEqual(ours, {name: wanted.get(name) for name in ours})
