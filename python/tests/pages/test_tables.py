"""Tables are laid out by their widest cells."""
from __future__ import annotations

import unittest
from fractions import Fraction

from nrm.pages.tables import Table, told_of


class Tables(unittest.TestCase):
    def test_columns_are_as_wide_as_their_widest_cell(self) -> None:
        table = Table("Title", ["", "first", "b"], [["name", 7, None], ["n", Fraction(10, 4), "long"]])
        self.assertEqual(table.text(), "Title\n\n        first     b\n  name      7\n  n       5/2  long\n")

    def test_decimals_stand_in_the_place_of_fractions_alone(self) -> None:
        self.assertEqual(Table("", [], [["n", Fraction(1, 3), 7, None]], decimal=True).cells(),
                         [["n", "0.33", "7", ""]])

    def test_numbers_have_commas_but_for_a_spreadsheet(self) -> None:
        table = Table("", [], [["n", 1234567, Fraction(20000, 10), Fraction(20000, 3), "1234"]])
        self.assertEqual(table.cells(), [["n", "1,234,567", "2,000", "20000/3", "1234"]])
        plain = Table("", [], [["n", 1234567, Fraction(20000, 10)]], decimal=True)
        self.assertEqual(plain.cells(), [["n", "1234567", "2000.00"]])

    def test_tables_of_nothing_but_zeros_go_and_are_named(self) -> None:
        zeros = [Table(name, ["", "a"], [["0 first", value], ["b", None]])
                 for name, value in (("A", 0), ("B", "0.0 %"), ("C", Fraction(0)), ("D", "-0.00"))]
        others = [Table("E", ["", "a"], [["n", value]]) for value in (1, "0.1 %", "most", Fraction(1, 3), "10")]
        shown, left_out = told_of([zeros[0], *others, *zeros[1:]])
        self.assertEqual((shown, left_out), (others, ["All numbers are 0 in: A; B; C; D."]))
        self.assertEqual(told_of(others), (others, []))
