"""Which room of the package may use which, that no import comes back, and that each name is given once."""
from __future__ import annotations

import ast
import subprocess
import sys
import unittest
from collections import defaultdict
from pathlib import Path
from typing import Iterable

from harness import SOURCES, TOP

PACKAGE = SOURCES / "nrm"
STANDS_ALONE = "nrm.audit"
MAY_USE = {  # a room may use itself and, but for the last two lines, the modules that stand in no room
    "pages": "",
    "legs": "pages",
    "seasons": "legs pages",
    "records": "legs seasons",
    "journal": "",
    "accounts": "journal pages",
    "server": "journal",
    "web": "journal pages server",
    "commands": "accounts journal legs pages records seasons server web",
    "": "",  # no room: `desk`, `network`, `program`, `replies` and others, which all rooms may use
    "__main__": "commands",
}
FILES_BY_INTENT = {"__init__.py"}  # names that several files have
CLASSES_BY_INTENT = {  # names that several classes have
    "Leg": "of a network, and the answer `leg` to a desk",
    "Nest": "of a plan, and the auditor's own, who shares nothing",
    "Network": "that which all use, and the auditor's own",
}


def name_of(path: Path) -> str:
    """The name of the module at a path."""
    return ".".join(path.relative_to(SOURCES).with_suffix("").parts).replace(".__init__", "")


MODULES = {name_of(it): it for it in PACKAGE.rglob("*.py")}


def room_of(name: str) -> str:
    """The room in which a module stands; the command line is none, and nobody may use it."""
    _, _, below = name.partition(".")
    return below.partition(".")[0] if (PACKAGE / below.partition(".")[0]).is_dir() or below == "__main__" else ""


def is_for_types(node: ast.AST) -> bool:
    """Whether a part of a module is there for mypy alone."""
    return isinstance(node, ast.If) and isinstance(node.test, ast.Name) and node.test.id == "TYPE_CHECKING"


def parts_of(node: ast.AST) -> Iterable[ast.AST]:
    """All of a module that is run."""
    for it in node.orelse if isinstance(node, ast.If) and is_for_types(node) else ast.iter_child_nodes(node):
        yield it
        yield from parts_of(it)


def imports_in(text: str) -> set[str]:
    """The modules of the package that a text imports, at its head or within a function."""
    found: set[str] = set()
    for node in parts_of(ast.parse(text)):
        if isinstance(node, ast.Import):
            found |= {it.name for it in node.names}
        elif isinstance(node, ast.ImportFrom) and node.module:
            below = {f"{node.module}.{it.name}" for it in node.names}
            found |= below & MODULES.keys() or {node.module}
    return found & MODULES.keys()


GRAPH = {name: imports_in(path.read_text()) for name, path in MODULES.items()}


def ring_in(graph: dict[str, set[str]]) -> list[str]:
    """A way of uses that comes back to where it was; empty if there is none."""
    left = {name: used - {name} for name, used in graph.items()}
    while free := [name for name, used in left.items() if not used & left.keys()]:
        for name in free:
            del left[name]
    way = [*left][:1]
    while way and way[-1] not in way[:-1]:
        way.append(min(left[way[-1]] & left.keys()))
    return way[way.index(way[-1]):] if way else []


def refused_in(graph: dict[str, set[str]]) -> list[str]:
    """The imports that the table doesn't allow."""
    return [f"{name} uses {it}" for name, used in sorted(graph.items()) for it in sorted(used)
            if room_of(it) not in {room_of(name), "", *MAY_USE[room_of(name)].split()}]


def given_twice(places: dict[str, list[str]], by_intent: Iterable[str]) -> dict[str, list[str]]:
    """The names that several have though that isn't meant, and those of which it is meant and which but one has."""
    return {name: some for name, some in places.items() if (len(some) > 1) != (name in by_intent)}


class Imports(unittest.TestCase):
    def test_each_room_uses_what_it_may(self) -> None:
        self.assertEqual({room_of(it) for it in MODULES}, MAY_USE.keys())
        self.assertEqual(refused_in(GRAPH), [])
        self.assertEqual(refused_in({"nrm.journal.looking": {"nrm.server.clock"}, "nrm.program": {"nrm.web.routes"}}),
                         ["nrm.journal.looking uses nrm.server.clock", "nrm.program uses nrm.web.routes"])

    def test_no_import_comes_back(self) -> None:
        self.assertGreaterEqual(sum(map(len, GRAPH.values())), 60, "the graph is drawn")
        self.assertEqual(ring_in(GRAPH), [])
        self.assertEqual(ring_in({room: {*used.split()} for room, used in MAY_USE.items()}), [])
        self.assertEqual(ring_in({"a": {"b", "d"}, "b": {"c"}, "c": {"b"}, "d": set()}), ["b", "c", "b"])

    def test_the_auditors_file_shares_nothing(self) -> None:
        self.assertEqual(GRAPH[STANDS_ALONE], set())
        self.assertEqual([name for name, used in GRAPH.items() if STANDS_ALONE in used], [])

    def test_a_desk_is_in_the_package_and_is_read_when_it_is_named(self) -> None:
        text = "import sys, nrm; print('nrm.desk' in sys.modules); from nrm import Desk; print(Desk.__module__)"
        told = subprocess.check_output([sys.executable, "-c", text], cwd=SOURCES, text=True)
        self.assertEqual(told, "False\nnrm.desk\n")

    def test_each_file_stands_in_a_room(self) -> None:
        self.assertEqual([str(it) for it in MODULES.values() if len(it.relative_to(PACKAGE).parts) > 2], [])
        tests = TOP / "python" / "tests"
        self.assertEqual([str(it) for it in tests.rglob("*.py") if len(it.relative_to(tests).parts) > 2], [])

    def test_a_name_is_given_once(self) -> None:
        files, classes = defaultdict(list), defaultdict(list)
        for name, path in sorted(MODULES.items()):
            files[path.name].append(name)
            for node in ast.walk(ast.parse(path.read_text())):
                if isinstance(node, ast.ClassDef):
                    classes[node.name].append(name)
        self.assertEqual(given_twice(files, FILES_BY_INTENT), {})
        self.assertEqual(given_twice(classes, CLASSES_BY_INTENT), {})
        self.assertEqual(given_twice({"A": ["a", "b"], "B": ["a"], "C": ["c"], "D": ["a", "c"]}, ["C", "D"]),
                         {"A": ["a", "b"], "C": ["c"]})

    def test_nobody_writes_the_path_of_imports(self) -> None:
        for path in (TOP / "python").rglob("*.py"):
            if path != Path(__file__).resolve():
                self.assertNotIn("sys.path", path.read_text(), path)

    def test_every_public_function_has_types(self) -> None:
        """Where mypy isn't installed too: each argument but `self` and `cls`, and what is given back."""
        for name, path in MODULES.items():
            for node in ast.walk(ast.parse(path.read_text())):
                if isinstance(node, (ast.FunctionDef, ast.AsyncFunctionDef)):
                    untyped = [it.arg for it in node.args.args + node.args.kwonlyargs if not it.annotation
                               and it.arg not in ("self", "cls")]
                    self.assertEqual((untyped, node.returns is None), ([], False), f"{name}: {node.name}")
