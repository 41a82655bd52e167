#!/usr/bin/env python3
"""What each must-fail edit shows: the function and the goal at which it was refused. Run by hand, and not by the gate.

    tests/edits.py CRATE..           tries the edits of these crates by `rt must-fail`, which runs the prover
    tests/edits.py --read FILE       reads what `rt must-fail` printed before; - is standard input

A row has the edit, the functions that it changes, the function and the goal where it was refused, and, where that shows
nothing of a contract, why:

    proof file      it was refused inside a proof: an answer that no longer fits, or a name that is gone
    side goal       at a sum, a cast, an index, a divisor or an end of a loop, which are asked of any contract
    elsewhere       neither in a function that the edit changes nor in one that calls it
    limit           only by a limit of the prover, which gave no verdict
    not refused     or not tried: `rt` says why

A goal of a call's condition, `f-requires`, is shown and not marked: it tells something of the contract of `f`. The last
line is `N edits, M show nothing`; the status is 1 where M isn't 0.
"""
import argparse
import os
import re
import subprocess
import sys

TOP = os.path.dirname(os.path.dirname(os.path.realpath(__file__)))
SIDE = re.compile(r"overflow_|nonzero_|bounds-|slice_bounds-|offset_bounds-|index-requires|prove-unreachable|decreases-"
                  r"|.*-smaller$")
SAID = re.compile(r"(?:rt: )?must-fail (\w+)/([\w.-]+)\.edit: (.*)")
IN_SOURCE = re.compile(r"(src/\S+?):(\d+):\d+: (.*)")
IN_PROOF = re.compile(r"proofs/(?:\S+/)?(\w+)/\w+\.antt:\d+:\d+: error: (?:`([^`]*)`)?")
FUNCTION = re.compile(r"\s*(?:pub(?:\(\w+\))? )?(?:const )?fn (\w+)")


def source_of(crate, path):
    with open(os.path.join(TOP, "crates", crate, path), encoding="utf-8") as file:
        return file.read().split("\n")


def function_at(lines, number):
    """The function that a line, counted from 1, stands in, or above which its contract, comment or attribute stands."""
    while number < len(lines) and lines[number - 1].lstrip().startswith("#["):
        number += 1
    for line in reversed(lines[:number]):
        found = FUNCTION.match(line)
        if found:
            return found[1]
    return None


def functions_of(crate):
    """The name and the text of each function of a crate."""
    found = []
    for place, _, names in os.walk(os.path.join(TOP, "crates", crate, "src")):
        for name in names:
            with open(os.path.join(place, name), encoding="utf-8") as file:
                for line in file:
                    head = FUNCTION.match(line)
                    if head:
                        found.append([head[1], ""])
                    elif found:
                        found[-1][1] += line
    return found


def changed_by(crate, edit):
    """The names of the functions that an edit changes; of a text outside of any, the first name in it."""
    changed, path = [], None
    with open(os.path.join(TOP, "crates", crate, "must-fail", f"{edit}.edit"), encoding="utf-8") as file:
        for line in file.read().split("\n"):
            if line.startswith("file: "):
                path = line[len("file: "):]
            elif line.startswith("old: "):
                old, lines = line[len("old: "):].strip(), source_of(crate, path)
                at = next((number for number, it in enumerate(lines, 1) if old in it), None)
                name = function_at(lines, at) if at else None
                named = re.search(r"(?:const|struct|enum) (\w+)", old)
                name = named[1] if named else name
                changed += [name] if name and name not in changed else []
    return changed


def refusal(crate, said):
    """Where an edit was refused and at which goal, and why that shows nothing, as far as the place tells."""
    proof = IN_PROOF.search(said)
    source = IN_SOURCE.search(said)
    if "NOT REFUSED" in said or "NOT TRIED" in said or "BAD EDIT" in said:
        return "", "", "not refused"
    limit = "limit" if "only by a limit" in said else ""
    if source:
        goal = re.search(r"\(`([^`]+)`\)", source[3])
        name = function_at(source_of(crate, source[1]), int(source[2])) or f"{source[1]}:{source[2]}"
        goal = goal[1] if goal else source[3][:60]
        return name, goal, limit or ("side goal" if SIDE.match(goal) else "")
    if proof or "proofs/" in said:
        return proof[1] if proof else "", (proof[2] or "") if proof else "", "proof file"
    return "", said[:60], limit or "elsewhere"


def row_of(crate, edit, said, functions):
    changed = changed_by(crate, edit)
    place, goal, nothing = refusal(crate, said)
    callers = {name for name, text in functions if any(re.search(rf"\b{it}\b", text) for it in changed)}
    if not nothing and place not in changed and place not in callers:
        nothing = "elsewhere"
    return edit, ", ".join(changed), place, goal, nothing


def told(rows):
    """The rows in columns."""
    head = ("edit", "changes", "refused in", "goal", "shows nothing")
    widths = [max(len(row[at]) for row in [head, *rows]) for at in range(4)]
    return [" | ".join(f"{it:<{width}}" for it, width in zip(row, [*widths, 0])).rstrip(" |") for row in [head, *rows]]


def main():
    parser = argparse.ArgumentParser(usage=__doc__)
    parser.add_argument("--read")
    parser.add_argument("crates", nargs="*")
    given = parser.parse_args()
    if bool(given.read) == bool(given.crates):
        sys.exit(__doc__)
    if given.read:
        with sys.stdin if given.read == "-" else open(given.read, encoding="utf-8") as file:
            text = file.read()
    else:
        words = ["rt", "must-fail", *given.crates]
        text = subprocess.run(words, cwd=TOP, stdout=subprocess.PIPE, stderr=subprocess.STDOUT, text=True).stdout
    found = {}
    for it in SAID.finditer(text):
        found.setdefault(it[1], {})[it[2]] = it[3]
    if not found:
        sys.exit(text or "there is nothing to read")
    count = empty = 0
    for crate, edits in found.items():
        functions = functions_of(crate)
        rows = [row_of(crate, edit, said, functions) for edit, said in edits.items()]
        count, empty = count + len(rows), empty + sum(bool(row[-1]) for row in rows)
        print(crate, *told(rows), "", sep="\n")
    print(f"{count} edits, {empty} show nothing")
    return 1 if empty else 0


if __name__ == "__main__":
    sys.exit(main())
