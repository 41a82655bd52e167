"""A text journal of an earlier release becomes a network of a journal: each file is written out, with what it gives.

Such a journal has the lines that the program got, those of desks and the empty ones that some sent behind theirs; and
the file beside it the numbers of those that were answered `memory` or `store`.
"""
from __future__ import annotations

import os
from pathlib import Path

from server.serves import ServeTest, rows_in, talk

NETWORK = "periods,1,2\nleg,AB,10\nleg,BC,4\nproduct,THRU,500,AB,BC\nproduct,LOC,200,AB\n"
OLD = (b"book THRU 3\n" b"leg AB\n" b"\n" b"book LOC 2\n" b"book THRU 2\n" b"plan\n" b"\n" b"nonsense\n" b"book X 1\n"
       b"reoptimise 2\n" b"cancel 1\r\n" b"hindsight\n" b"book LOC 0\n" b"reoptimise 2\n" b"cancel 1\n" b"book THRU 4\n"
       b"book LOC 9")
VOID = b"4\n10\n"  # the first `book LOC 2`, answered `store`, and the first `reoptimise 2`, answered `memory`
ROWS = [(1, "IMPORT", 1, "book THRU 3", "ok 1"), (2, "IMPORT", 2, "book THRU 2", "no BC"),
        (3, "IMPORT", 3, "book X 1", "unknown"), (4, "IMPORT", 4, "cancel 1", "cancelled 1 1500"),
        (5, "IMPORT", 6, "reoptimise 2", "optimised none"), (6, "IMPORT", 7, "cancel 1", "unknown"),
        (7, "IMPORT", 8, "book THRU 4", "ok 2")]


class Importing(ServeTest):
    def setUp(self) -> None:
        super().setUp()
        self.old, self.network = self.folder / "old", self.file("network.csv", NETWORK)
        self.old.write_bytes(OLD)
        self.with_it = ["--program", *self.desks_program.words]
        self.told("journal", "begin", "journal")

    def imported(self, *more: object, name: str = "one", old: object = None) -> list[object]:
        """The words of an import."""
        return ["journal", "import", "journal", name, "first", self.network, old or self.old, *self.with_it, *more]

    def test_its_lines_are_carried_out_once_more(self) -> None:
        """But for looks, those that changed nothing, and half a line at the end. A server goes on behind them."""
        (self.folder / "old.void").write_bytes(VOID)
        self.assertEqual(self.told(*self.imported()), f"7 lines of {self.old} are in journal; left out: lines of "
                         f"{self.old}.void 2, lines that change nothing 7, bytes after the last line feed 10\n")
        journal = self.folder / "journal"
        self.same(rows_in(journal), *ROWS)
        self.assertEqual(rows_in(journal, "SELECT name, mode, file, halted FROM network"),
                         [("one", "first", Path(self.network).read_bytes(), None)])
        with self.served(journal) as serve:
            self.assertEqual(talk(serve, b"desk IMPORT\n"), b"at 9\n")
            self.assertEqual(talk(serve, b"desk D1\ncancel 2\n"), b"at 1\ncancelled 2 2000\n")
            self.stopped(*self.imported(name="two"), says="another server has the journal")

    def test_without_numbers_beside_it_all_lines_count(self) -> None:
        self.old.write_bytes(b"book LOC 2\nbook LOC 3\n")
        self.assertEqual(self.told(*self.imported()), f"2 lines of {self.old} are in journal\n")
        self.same(rows_in(self.folder / "journal", "SELECT line, reply FROM line"), ("book LOC 2", "ok 1"),
                  ("book LOC 3", "ok 2"))

    def test_many_lines_are_imported(self) -> None:
        """More than are carried out at a time; an empty file is a journal too."""
        self.old.write_bytes(b"book LOC 1\ncancel 1\n" + b"book LOC 11\n" * 4998)
        self.told(*self.imported())
        self.same(rows_in(self.folder / "journal", "SELECT reply, count(*) FROM line GROUP BY reply ORDER BY 2"),
                  ("cancelled 1 200", 1), ("ok 1", 1), ("no AB", 4998))
        self.old.write_bytes(b"")
        self.assertEqual(self.told(*self.imported(name="two")), f"0 lines of {self.old} are in journal\n")

    def test_half_a_number_at_the_end_is_none(self) -> None:
        """The reply to its line was never sent."""
        self.old.write_bytes(b"book LOC 1\nbook LOC 1\nbook LOC 1\n")
        (self.folder / "old.void").write_bytes(b"1\n3")
        self.assertEqual(self.told(*self.imported()),
                         f"2 lines of {self.old} are in journal; left out: lines of {self.old}.void 1\n")

    def test_numbers_of_other_lines_are_refused(self) -> None:
        """A line that was acknowledged would be left out. Nothing is put into the journal."""
        self.old.write_bytes(b"book LOC 1\nbook LOC 1\nbook LOC 1\nbook")
        void = self.folder / "old.void"
        for numbers, line in [(b"4\n", 1), (b"2\n1\n", 2), (b"2\n2\n", 2), (b"1\n" + b"9" * 4301 + b"\n", 2),
                              (b"x\n", 1), (b"1\n\n", 2), (b"01\n", 1), (b"1\xb2\n", 1), (b"0\n", 1)]:
            void.write_bytes(numbers)
            self.stopped(*self.imported(), says=f"{void}: line {line} isn't the number of a further one of the 3 lines of")
        self.assertEqual(rows_in(self.folder / "journal", "SELECT name FROM network"), [])

    def test_what_cannot_be_imported_leaves_nothing(self) -> None:
        os.mkfifo(self.folder / "fifo")
        for old, says in ((self.folder / "none", "none: No such file"), (self.folder / "fifo", "fifo isn't a plain file"),
                          (self.folder, f"{self.folder} isn't a plain file")):
            self.stopped(*self.imported(old=old), says=says)
        self.stopped("journal", "import", "journal", "one", "first", self.file("bad.csv", "periods,1,1\nleg,ab,1\n"),
                     self.old, *self.with_it, says="bad.csv` ended with status 3: refused row 2")
        self.stopped("journal", "import", "journal", "one", "best", self.network, self.old, *self.with_it, status=2,
                     says="isn't one of: first, bid, davn")
        self.stopped("journal", "import", "journal", "one", "first", self.network, status=2, says="and 3 were given")
        self.assertEqual(rows_in(self.folder / "journal", "SELECT name FROM network"), [])
        self.told(*self.imported())
        self.stopped(*self.imported(), says="has a network one already")
