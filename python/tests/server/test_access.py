"""The file of desks: how it is read, what is refused in it, and how a token is made."""
from __future__ import annotations

import os
import re
from pathlib import Path
from unittest import mock

from harness import WithinTest, meanwhile
from nrm import Stop
from nrm.server import access
from nrm.server.access import CLOCK, RIGHTS, Right, add_desk, hash_of, read_access

ONE = "sha256:6b86b273ff34fce19d6b804eff5a3f5747ada4eaa22f1d49c01e52ddb7875b4b"  # of `1`, as sha256sum has it
TWO = "sha256:d4735e3a265e16eee03f59718b9b5d03019c07d8b6c51f90da3a666eec13ab35"  # of `2`
SECRET = "0123456789abcdef" * 4


def entry(name: str = "D1", token: str = ONE, rights: str = '["look"]') -> str:
    """An entry of a file."""
    return f'[{name}]\ntoken = "{token}"\nrights = {rights}\n'


class Files(WithinTest):
    def test_a_token_is_known_by_its_hash(self) -> None:
        self.file("desks", "# mine\n" + entry("C-7", ONE, '["book", "look"]') + '["0-9"]\nrights=[\n"plan",\n]\n'
                  f"token='{TWO}' # two\n")
        found = read_access("desks")
        one, two = Right("C-7", ONE, ("look", "book")), Right("0-9", TWO, ("plan",))
        self.assertEqual((found.named(b"1"), found.named(b"2")), (one, two))
        self.assertEqual([found.named(it) for it in (b"", b"3", b"1\n", b"1 ", ONE.encode(), b"\xff")], [None] * 6)
        others = Right("C-7", ONE, ("look",)), Right("C-7", TWO, ("plan",))
        self.assertEqual([found.has(it) for it in (one, *others)], [True, False, False])
        self.assertNotIn(ONE[7:], repr(one))

    def test_names_like_those_that_the_server_gives(self) -> None:
        """Its own desk is in no file, and stays whatever is there."""
        self.file("desks", entry("CLOCK-1", ONE) + entry("AT-1X", TWO))
        found = read_access("desks")
        self.assertEqual(sorted(it.name for it in found.desks.values()), ["AT-1X", "CLOCK-1"])
        self.assertEqual((found.has(CLOCK), found.has(Right("CLOCK", "", ("look", "book")))), (True, False))

    def test_what_is_refused_in_a_file(self) -> None:
        """With the entry, and without what may be a token."""
        for text, says in [
                ("[D1", "is no TOML"), (entry() + "=", "is no TOML at line 4"), (entry() * 2, "is no TOML"),
                ("a = " + "[" * 5000, "is no TOML"), (f"a = {'9' * 5000}", "is no TOML"),
                (b"\xff", "is no text in UTF-8"),
                ("token = 1", "[token]: that is no name"), ("[d1]", "[d1]: that is no name"),
                ('["D 1"]', "[D 1]: that is no name"), ('[""]', "[]: that is no name"),
                (entry("A" * 13), f"[{'A' * 13}]: that is no name"),
                (entry("CLOCK"), "[CLOCK]: that name is one that the server gives"),
                (entry("AT-0"), "[AT-0]: that name is one"), (entry("AT-1234567"), "[AT-1234567]: that name is one"),
                ("D1 = 5", "[D1]: token and rights are wanted"),
                (entry() + "roles = 1", "[D1]: nothing is called roles"),
                (entry() + f"{SECRET} = 1", "[D1]: nothing is called (a long text)"),
                (entry("D1.x"), "[D1]: nothing is called x"),
                ("[D1]\nrights = ['look']", "[D1]: as token"), ("[D1]\ntoken = 5\nrights = ['look']", "[D1]: as token"),
                (entry(token=SECRET), "[D1]: as token"), (entry(token=f"sha256:{SECRET.upper()}"), "[D1]: as token"),
                (entry(token=ONE + "0"), "[D1]: as token"), (entry(token=f"sha512:{SECRET}"), "[D1]: as token"),
                (f'[D1]\ntoken = "{ONE}"', "[D1]: a list of rights"),
                (entry(rights='"look"'), "[D1]: a list of rights"),
                (entry(rights="[]"), "[D1]: at least one right"),
                (entry(rights='["bok"]'), "[D1]: there is no right bok"),
                (entry(rights="[[1]]"), "[D1]: there is no right [1]"),
                (entry(rights=f'["{SECRET}"]'), "[D1]: there is no right (a long text)"),
                (entry("D1") + entry("D2"), "[D2] has the same token as [D1]")]:
            self.file("desks", text)
            with self.assertRaises(Stop) as raised:
                read_access("desks")
            self.want_in(str(raised.exception), f"desks {says}" if says.startswith("is") else f"desks: {says}")
            self.assertNotIn(SECRET, str(raised.exception).lower())

    def test_a_python_without_a_reader_says_so(self) -> None:
        self.file("desks", entry())
        with mock.patch.object(access, "READERS", ("none", "tomli2")), self.assertRaises(Stop) as raised:
            read_access("desks")
        self.want_in(str(raised.exception), "python3-tomli2")


class Made(WithinTest):
    def made(self, *words: str) -> str:
        """The token that the command prints, alone."""
        told = self.told("token", "desks", *words)
        self.assertTrue(re.fullmatch("[0-9a-f]{64}\n", told), told)
        return told[:-1]

    def rights(self) -> dict[str, tuple[str, ...]]:
        """What each desk may do."""
        return {it.name: it.rights for it in read_access("desks").desks.values()}

    def test_a_token_is_made_for_a_desk(self) -> None:
        first, second = self.made("C-7", "book", "look"), self.made("WEB", *RIGHTS)
        self.assertNotEqual(first, second)
        self.assertEqual(self.rights(), {"C-7": ("look", "book"), "WEB": RIGHTS})
        for name, token in (("C-7", first), ("WEB", second)):
            self.assertEqual(read_access("desks").named(token.encode()).name, name)
            self.assertNotIn(token, Path("desks").read_text())
        self.assertEqual(os.stat("desks").st_mode & 0o777, 0o600)
        self.assertEqual(os.listdir(), ["desks"], "nothing is left beside it")

    def test_what_stands_there_stays(self) -> None:
        """Comments, the form, and the rights of the file; a link too."""
        text = ("# ours\n\n['C-7'] # the counter\nrights = [ # both\n  'look', 'book' ]\n"
                f"  token='{ONE}'\n\n# the web\n{entry('WEB', TWO).rstrip()}")
        self.file("there", text)
        os.chmod("there", 0o640)
        os.symlink("there", "desks")
        token = self.made("C-7", "--again")
        self.assertEqual(Path("there").read_text(), text.replace(f"'{ONE}'", f'"{hash_of(token.encode())}"'))
        self.made("C-7", "plan", "--again")
        self.want_in(Path("there").read_text(), 'rights = ["plan"]\n')
        self.made("NEW", "look")
        self.assertEqual(self.rights(), {"C-7": ("plan",), "WEB": ("look",), "NEW": ("look",)})
        self.want_in(Path("there").read_text(), '\nrights = ["look"]\n\n[NEW]\n')
        self.assertEqual((os.stat("there").st_mode & 0o777, os.path.islink("desks")), (0o640, True))

    def test_what_is_refused(self) -> None:
        """And the file stays as it was."""
        self.file("desks", entry("C-7") + f"[X]\n{'token'!r} = '{TWO}'\nrights = ['look']\n")
        for words, says in [(("C-7", "look"), "--again gives it another token"), (("D1",), "at least one right"),
                            (("D1", "--again"), "has no D1"), (("d1", "look"), "[d1]: that is no name"),
                            (("D1", "bok"), "there is no right bok"), (("C-7", "bok", "--again"), "no right bok"),
                            (("X", "--again"), "stands there in a form")]:
            before = Path("desks").read_bytes()
            self.stopped("token", "desks", *words, says=says)
            self.assertEqual((Path("desks").read_bytes(), os.listdir()), (before, ["desks"]), words)
        self.stopped("token", "none/desks", "D1", "look", says="none: No such file")
        self.stopped("token", ".", "D1", "look", says="is no plain file")
        self.file("desks", "[[")
        self.stopped("token", "desks", "D1", "look", says="is no TOML")

    def test_a_file_that_has_the_token_is_its_owners_alone(self) -> None:
        """Whatever the umask, and though one that others may read was there."""
        umask = os.umask(0)
        self.addCleanup(os.umask, umask)
        for words in (("C-7", "look"), ("C-7", "--again")):
            self.assertEqual(self.told("token", "desks", *words, "--out", "made"), "")
            found = os.stat("made").st_mode & 0o777, read_access("desks").named(Path("made").read_bytes().strip())
            self.assertEqual((found[0], found[1] and found[1].name), (0o600, "C-7"))
            os.chmod("made", 0o644)
        self.assertEqual(sorted(os.listdir()), ["desks", "made"], "nothing is left beside them")
        before = Path("desks").read_bytes()
        os.symlink("made", "link")
        for out, says in (("none/made", "--out none/made: No such file"), (".", "isn't a plain file"),
                          ("link", "isn't a plain file"), ("./desks", "is the file of desks")):
            self.stopped("token", "desks", "WEB", "look", "--out", out, says=says)
        self.stopped("token", "desks", "WEB", "look", "--out", "", status=2)
        self.stopped("token", "desks", "C-7", "look", "--out", "other", says="--again")
        self.assertEqual((Path("desks").read_bytes(), sorted(os.listdir())), (before, ["desks", "link", "made"]))

    def test_it_is_whole_at_each_moment(self) -> None:
        """A fault before its end leaves the old one, and many at once lose nothing."""
        self.file("desks", entry())
        with mock.patch.object(os, "fsync", side_effect=OSError(28, "No space left")):
            self.stopped("token", "desks", "D2", "look", says="No space left")
        self.assertEqual((Path("desks").read_text(), os.listdir()), (entry(), ["desks"]))
        for it in [meanwhile(add_desk, "desks", f"N{at}", ["look"], False) for at in range(8)]:
            it.join()
        self.assertEqual(sorted(self.rights()), ["D1", *(f"N{at}" for at in range(8))])
