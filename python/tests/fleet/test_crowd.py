"""What holds whatever happens: a fleet in trouble, and mistakes that it must find."""
from __future__ import annotations

import os
import unittest

import databases  # of the folder tests at the top
from fleet.crowd import TRIAL
from fleet.wrong_forms import FORMS
from harness import IS_LONG, PlaceTest, needs
from trials.mistakes import not_there, see_that_each_is_found

A_MINUTE = ("--networks", 8, "--desks", 80, "--kills", 6, "--stops", 2, "--failovers", 2)


class Mistakes(unittest.TestCase):
    def test_each_is_one_of_the_code(self) -> None:
        """Where there is no database too."""
        self.assertEqual(len(FORMS), 12)
        for name, form in FORMS.items():
            self.assertEqual(not_there(form), [], name)


@unittest.skipUnless(databases.is_there(), databases.WANTING)
@needs("psycopg")
class Crowds(PlaceTest):
    def test_nothing_that_was_answered_is_lost_or_carried_out_twice(self) -> None:
        """At length 200 desks at 20 networks, with 100 kills of servers, 20 stops and 10 losses of the primary."""
        self.assertTrue(self.program and self.desks_program)
        os.chmod(self.folder, 0o755)
        self.assertEqual(TRIAL.judged(self.folder / "crowd", *(() if IS_LONG else A_MINUTE)), [])

    @unittest.skipUnless(IS_LONG, "mistakes that the trial of a fleet must find take some minutes: NRM_LONG=1")
    def test_mistakes_are_found(self) -> None:
        os.chmod(self.folder, 0o755)
        see_that_each_is_found(self, FORMS)
