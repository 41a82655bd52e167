"""The steps of a line through the server, as a page names them."""
from __future__ import annotations

import importlib
import re
import unittest

from harness import TOP

HEAD, PAGE = "\n## A line through the server\n", TOP / "docs" / "developer" / "map.md"


class Steps(unittest.TestCase):
    def test_each_step_has_a_function_that_is_there(self) -> None:
        section = PAGE.read_text().partition(HEAD)[2].partition("\n## ")[0]
        steps = re.findall(r"^\| (\d)\. .* \| (`.*`) \|$", section, re.MULTILINE)
        self.assertEqual([int(number) for number, _ in steps], [*range(1, 10)])
        for _, functions in steps:
            for name in functions.split(", "):
                module, kind, function = name.strip("`").split(".")
                found = getattr(importlib.import_module(f"nrm.server.{module}"), kind)
                self.assertIn(function, vars(found), name)
