"""Names that stand for texts of a log: those of a list stay, and each is a name of its own."""
from __future__ import annotations

from harness import PlaceTest
from records.made_log import CUT_ONCE, HEADS


class Names(PlaceTest):
    def test_takes_a_list_of_names_that_was_written_anew(self) -> None:
        """As a spreadsheet writes it, with semicolons; the names are those that a person chose."""
        rows = "2025-03-01,2025-03-07,Zürich-Genève flex,1\n2025-03-01,2025-03-07,new one,1\n"
        words = [self.file("log.csv", HEADS + rows), *CUT_ONCE, "--names", "names.csv"]
        for form in ("utf-8-sig", "cp1252", "utf-16"):
            self.file("names.csv", "name;stands for\r\nZRH-GVE-F;Zürich-Genève flex\r\n".encode(form))
            self.assertEqual(self.told("log", *words), "periods,1,2\ndemand,NEW-ONE,1,0,1\ndemand,ZRH-GVE-F,1,0,1\n")
        self.assertEqual((self.folder / "names.csv").read_text(),
                         "name,stands for\nNEW-ONE,new one\nZRH-GVE-F,Zürich-Genève flex\n")

    def test_a_list_is_kept_and_new_names_are_added(self) -> None:
        log = self.file("log.csv", HEADS + "2025-03-01,2025-03-07,zv q,1\n2025-03-01,2025-03-07,zv_q,1\n")
        self.file("names.csv", "name,stands for\nZV-Q,zv_q\nOLD,gone\n")
        self.told("log", log, *CUT_ONCE, "--names", "names.csv")
        self.assertEqual((self.folder / "names.csv").read_text(), "name,stands for\nOLD,gone\nZV-Q,zv_q\nZV-Q-2,zv q\n")

    def test_a_list_that_is_none_is_refused_with_its_line(self) -> None:
        log = self.file("log.csv", HEADS + "2025-03-01,2025-03-07,new_one,1\n")
        for names, sentence in (("A,a\n", "its first row must be `name,stands for`"), ("", "its first row must be"),
                                ("name,stands for\nA,a\nA,b\n", "line 3 must have a name of its own"),
                                ("name,stands for\nA,a\nB,a\n", "line 3 must have"),
                                ("name,stands for\nb,a\n", "line 2 must have"),
                                ("name,stands for\nB\n", "line 2 must have")):
            self.stopped("log", log, *CUT_ONCE, "--names", self.file("names.csv", names), says=sentence)
