"""What stands at the head of a page says what it was made of."""
from __future__ import annotations

import datetime
import hashlib
import os
import sys
import unittest
from pathlib import Path
from unittest import mock

from nrm import Stop, __version__
from nrm.pages.heads import lines_of, made_of, today
from nrm.program import Program


class Heads(unittest.TestCase):
    def test_the_files_the_day_the_seed_and_the_versions(self) -> None:
        with mock.patch.dict(os.environ, {"SOURCE_DATE_EPOCH": "86400"}):
            made = made_of({"networks": {"a.csv": b"", "b.csv": b"abc"}}, Program((sys.executable,)), 7)
        with open(sys.executable, "rb") as file:
            checksum = hashlib.sha256(file.read()).hexdigest()
        self.assertEqual(lines_of(made), [
            "networks: a.csv (sha256 e3b0c44298fc..), b.csv (sha256 ba7816bf8f01..)", "date: 1970-01-02", "seed: 7",
            f"versions: nrm-tools {__version__}, {Path(sys.executable).name} (sha256 {checksum[:12]}..)"])

    def test_where_the_program_lies_isnt_told(self) -> None:
        self.assertNotIn(os.path.dirname(sys.executable), lines_of(made_of({}, Program((sys.executable,))))[-1])

    def test_where_there_is_no_seed_none_is_told(self) -> None:
        made = made_of({"network": {"a.csv": b""}}, Program((sys.executable,)))
        self.assertEqual([name for name, _ in made], ["network", "date", "versions"])

    def test_the_day_is_that_of_the_clock_or_of_source_date_epoch(self) -> None:
        before = datetime.date.today().isoformat()
        with mock.patch.dict(os.environ, {"SOURCE_DATE_EPOCH": ""}):
            self.assertIn(today(), (before, datetime.date.today().isoformat()))
        for wrong in ("yesterday", "9" * 30):
            with mock.patch.dict(os.environ, {"SOURCE_DATE_EPOCH": wrong}), self.assertRaises(Stop):
                today()
