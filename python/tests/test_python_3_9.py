"""Nothing in the package or its tests takes a later Python than 3.9, whichever one runs them."""
from __future__ import annotations

import ast
import builtins
import io
import tokenize
import unittest
from typing import Iterator

from harness import TOP

LATER = {  # names of the standard library that came later
    "pairwise", "batched", "TaskGroup", "Runner", "StrEnum", "UTC", "file_digest", "aclosing", "bit_count", "cbrt",
    "enterContext", "enterClassContext", "Self", "TypeAlias", "TypeGuard", "ParamSpec", "Never",
    "assert_never", "override",
    "tomllib", "NotRequired", "LiteralString", "dataclass_transform", "ExceptionGroup"}
LATER_WORDS = {("zip", "strict"), ("dataclass", "slots"), ("dataclass", "kw_only"), ("bisect_left", "key"),
               ("bisect_right", "key"), ("bisect", "key"), ("insort", "key")}
FOUND_IN = [
    "match a:\n    case 1:\n        pass\n", "try:\n    pass\nexcept* OSError:\n    pass\n", "zip(a, b, strict=True)",
    "from itertools import pairwise", "itertools.pairwise(a)", "import tomllib",
    "@dataclass(slots=True)\nclass A:\n    b = 1", "isinstance(a, int | str)", "A = Leg | None", "A = list[int] | Plan",
    "cast(Leg | Plan, a)", "def f(a: int | None): pass", "with (\n    open(a) as b, open(c) as d\n):\n    pass\n",
    "with (open(a) as b):\n    pass\n"]
NOT_FOUND_IN = [
    "a | b", "SOME | OTHERS", "{1} | {2}", "a.keys() | SOME", "fcntl.LOCK_EX | fcntl.LOCK_NB", "zip(a, b)",
    "from __future__ import annotations\ndef f(a: int | None) -> list[int] | str:\n    b: int | str = 1",
    "with open(a) as b, open(c) as d:\n    pass\n", "with (a or b):\n    pass\n",
    "with suppress(A), (b if c else d) as e:\n    pass\n"]


def annotations_of(tree: ast.AST) -> Iterator[ast.AST]:
    """The annotations of a module, which Python leaves as text where the module asks for it."""
    for node in ast.walk(tree):
        for it in ("annotation", "returns"):
            if isinstance(found := getattr(node, it, None), ast.AST):
                yield found


def is_type(node: ast.AST) -> bool:
    """Whether an expression is that of a type: None, a built-in one, a name as of classes, or one of these of some."""
    if isinstance(node, ast.Subscript):
        return is_type(node.value)
    if isinstance(node, ast.Name):
        return isinstance(getattr(builtins, node.id, None), type) or node.id[0].isupper() and not node.id.isupper()
    return isinstance(node, ast.Constant) and node.value is None


def has_with_in_brackets(text: str) -> bool:
    """Whether a `with` has brackets around what it names by `as`."""
    tokens = [it.string for it in tokenize.generate_tokens(io.StringIO(text).readline) if it.string.strip()]
    for at, (word, following) in enumerate(zip(tokens, tokens[1:])):
        depth = 0
        for it in tokens[at + 1:] if (word, following) == ("with", "(") else ():
            depth += (it in "([{") - (it in ")]}")
            if depth == 1 and it == "as":
                return True
            if depth == 0:
                break
    return False


def later_in(text: str) -> Iterator[str]:
    """What a module takes of later Pythons."""
    try:
        tree = ast.parse(text, feature_version=(3, 9))
    except SyntaxError as fault:
        yield str(fault)
        return
    if has_with_in_brackets(text):
        yield "with ( .. as ..)"
    left_as_text = [*annotations_of(tree)] if "from __future__ import annotations" in text else []
    unevaluated = {id(it) for some in left_as_text for it in ast.walk(some)}
    for node in ast.walk(tree):
        names = [it.name for it in node.names] if isinstance(node, (ast.Import, ast.ImportFrom)) else []
        names += [node.attr] if isinstance(node, ast.Attribute) else []
        yield from LATER.intersection(names)
        if isinstance(node, ast.Call):
            called = getattr(node.func, "attr", getattr(node.func, "id", ""))
            yield from (f"{called}({it.arg}=)" for it in node.keywords if (called, it.arg) in LATER_WORDS)
        if isinstance(node, ast.BinOp) and isinstance(node.op, ast.BitOr) and id(node) not in unevaluated:
            if is_type(node.left) or is_type(node.right):
                yield f"a union in line {node.lineno}"


class Pythons(unittest.TestCase):
    def test_what_is_later_is_found(self) -> None:
        for text in FOUND_IN:
            self.assertTrue([*later_in(text)], text)
        for text in NOT_FOUND_IN:
            self.assertEqual([*later_in(text)], [], text)

    def test_nothing_is_later(self) -> None:
        paths = [*(TOP / "python").rglob("*.py")]
        self.assertGreater(len(paths), 100)
        for path in paths:
            self.assertEqual([*later_in(path.read_text(encoding="utf-8"))], [], path)
