"""What holds whatever happens: a crowd of desks in trouble, copies of its journal, and mistakes that it must find."""
from __future__ import annotations

import unittest

from harness import IS_LONG
from server.crowd import TRIAL
from server.forms import FORMS
from server.serves import ServeTest
from server.troubles import KILLS, OTHERS
from trials.mistakes import not_there, see_that_each_is_found

CALM = ("--kills", 0, "--troubles", 0, "--pause", 0.02)


class Crowds(ServeTest):
    def judged(self, *words: object) -> None:
        self.assertTrue(self.program and self.desks_program)
        self.assertEqual(TRIAL.judged(self.folder / "crowd", *words), [])

    def test_nothing_that_was_answered_is_lost_or_carried_out_twice(self) -> None:
        """200 desks at 20 networks, with each kill twice and each other trouble once; at length, in 300 kills."""
        self.judged("--copies", 2, *(("--rounds", 6, "--kills", 50, "--troubles", 22) if IS_LONG else ()))

    def test_nobody_is_taken_for_the_one_before_at_its_place(self) -> None:
        """Places are few, so that they are used all the time, and strays are closed in all ways; at length with 200
        desks at 20 networks, in 200 kills."""
        few = ("--networks", 20, "--desks", 200, "--kills", 200, "--strays", 40) if IS_LONG else (
            "--networks", 3, "--desks", 24, "--kills", 3, "--strays", 8)
        self.judged("--places", 6, "--pause", 0.05, "--copies", 0, "--troubles", 0, *few)

    def test_copies_under_load_are_whole(self) -> None:
        self.judged(*CALM, "--copies", 100 if IS_LONG else 5, "--between", 0.1)

    def test_each_mistake_can_be_made(self) -> None:
        """What is edited stands in the code once, and the test or the troubles that must find it are there."""
        found = unittest.TestLoader()
        for name, form in FORMS.items():
            with self.subTest(name):
                self.assertEqual(not_there(form), [])
                self.assertEqual([old for _, old, new in form.edits if old == new], [])
                self.assertTrue(form.edits or form.program)
                if form.check[0] == "unittest":
                    found.loadTestsFromName(form.check[1])
                else:
                    only = form.check[form.check.index("--only") + 1]
                    self.assertLessEqual({*only.split(",")}, {*KILLS, *OTHERS})
        self.assertEqual(found.errors, [])

    @unittest.skipUnless(IS_LONG, "mistakes that the crowd must find take some minutes: NRM_LONG=1")
    def test_mistakes_are_found(self) -> None:
        see_that_each_is_found(self, FORMS)
