#!/usr/bin/env python3
"""Says of each file of definitions whether a public contract reaches it.

    tests/definitions.py            checks: a file outside specs/Inner that no public contract reaches, and one inside
                                    it that one does, is a fault (status 1)
    tests/definitions.py --list     prints the files to read, layer by layer from below, each with its first line
    tests/definitions.py --of CALL  prints how many lines of each crate the clauses of one call reach, such as
                                    `nrm_desks_cli::run_desks`: those of each definition, with the comment above it

A public contract is a clause of a function, method or trait that leaves its crate, or a member of an `impl` of such a
type. A clause reaches the files that its names come from, and each of those the files that it uses in its turn.
"""
import os
import re
import sys
from collections import OrderedDict

TOP = os.path.dirname(os.path.dirname(os.path.abspath(__file__)))
CRATES = os.path.join(TOP, "crates")


def read(path):
    with open(path, encoding="utf-8") as file:
        return file.read()


def crate_order():
    """The crates in the order of crates.txt, which is that of their layers."""
    lines = read(os.path.join(TOP, "crates.txt")).splitlines()
    return [line.partition(":")[0].split()[0] for line in lines if line.strip() and not line.startswith("#")]


def spec_files(crate):
    """Each spec file of a crate by its module path, but for the lists of modules."""
    found = OrderedDict()
    base = os.path.join(CRATES, crate, "specs")
    for folder, _, names in sorted(os.walk(base)):
        for name in sorted(names):
            if name.endswith(".antt"):
                path = os.path.join(folder, name)
                module = os.path.relpath(path, base)[:-5].replace(os.sep, ".")
                if module not in ("Lib", "Inner"):
                    found[f"{crate}.{module}"] = path
    return found


def imports(text, keyword):
    """Pairs of a spec module and the names that are taken from it."""
    text = re.sub(r"--.*", "", text)
    for module, names, alias in re.findall(
        keyword + r"\s+Rattle\.(\w+\.specs\.[\w.]+?)(?:\.\{([^}]*)\}|\s+as\s+(\w+))\s*;?", text
    ):
        crate, _, rest = module.partition(".specs.")
        if rest.startswith(("declared", "contracts")):
            continue
        taken = [alias] if alias else [n.split(" as ")[-1].strip() for n in names.split(",")]
        yield f"{crate}.{rest}", taken


def exported(crate):
    """The names that leave a crate."""
    lib = os.path.join(CRATES, crate, "src", "lib.rt")
    if not os.path.exists(lib):
        return set()
    names = set()
    for path in re.findall(r"pub use ([^;]+);", read(lib)):
        inner = re.search(r"\{(.*)\}", path, re.S)
        for name in (inner.group(1) if inner else path.split("::")[-1]).split(","):
            if name.strip():
                names.add(name.split(" as ")[-1].strip())
    return names


def blocks(text):
    """The top items of a file: (head, body)."""
    lines = text.split("\n")
    item, depth = [], 0
    for line in lines:
        item.append(line)
        code = re.sub(r"//.*", "", line)
        depth += code.count("{") - code.count("}")
        if depth == 0 and (code.rstrip().endswith(";") or code.rstrip() in ("}", "{}", "};")):
            yield "\n".join(item)
            item = []


def public_text(crate):
    """For each source file, its imports for clauses and the text of its public clauses."""
    leaves = exported(crate)
    base = os.path.join(CRATES, crate, "src")
    for folder, _, names in os.walk(base):
        for name in sorted(names):
            if not name.endswith(".rt") or "tests" in name:
                continue
            text = re.sub(r"#\[cfg\(test\)\]\s*mod tests \{.*", "", read(os.path.join(folder, name)), flags=re.S)
            uses = list(imports(text, "ghost use"))
            public = ""
            for item in blocks(text):
                head = re.search(r"^(?:pub(?:\(crate\))? )?(?:const )?(fn|struct|enum|trait|impl)\b(.*)", item, re.M)
                if not head or item.lstrip().startswith("ghost use"):
                    continue
                kind, rest = head.group(1), head.group(2)
                if kind == "impl":
                    for_type = re.search(r"for\s+&?(\w+)", rest)
                    own = re.search(r"^(?:<[^>]*(?:>[^>]*)?>)?\s*(\w+)", rest)
                    of = for_type.group(1) if for_type else (own.group(1) if own else "")
                    if of not in leaves:
                        continue
                    if for_type:
                        public += item
                    else:
                        for part in re.split(r"\n(?=    (?:///|//|#\[|pub|fn|const|ghost))", item):
                            if re.search(r"^\s*(?:#\[.*\]\s*)*(?:///.*\s*)*pub (?:const )?fn", part):
                                public += part
                else:
                    named = re.search(r"(\w+)", rest)
                    if named and named.group(1) in leaves and re.search(r"^pub ", item, re.M):
                        public += item
            yield uses, re.sub(r"//.*", "", public)


def named_in(uses, text, files):
    """The modules of which a text has a name."""
    found = set()
    for module, names in uses:
        forms = [r"(?<![\w.])" + re.escape(it) + r"(?!\w)" for it in names if it]
        if module in files and any(re.search(it, text) for it in forms):
            found.add(module)
    return found


def with_those_below(modules, files):
    """These modules, and those that they use in their turn."""
    below = {module: {m for m, _ in imports(read(path), "use") if m in files} for module, path in files.items()}
    reached, queue = set(modules), list(modules)
    while queue:
        for module in below[queue.pop()] - reached:
            reached.add(module)
            queue.append(module)
    return reached


def definitions_of(path):
    """The definitions of a file, each with the comment above it: (names that it gives, its text without comments, its lines)."""
    lines = [line for line in read(path).split("\n") if not line.startswith("use ")]
    for block in "\n".join(lines).split("\n\n"):
        kept = [line for line in block.split("\n") if line.strip()]
        text = "\n".join(line for line in kept if not line.lstrip().startswith("--"))
        names = set(re.findall(r"^(?:abbrev )?pub (?:data |record )?([^\s:]+)", text, re.M))
        if re.search(r"^pub data ", text, re.M):
            names |= set(re.findall(r"^  ([^\s:]+) :", text, re.M))
        if names:
            yield names, text, len(kept)


def words_in(text):
    """The names that a text has, also those that stand before a point."""
    words = set(re.findall(r"[^\s(){}\[\],;]+", text))
    return words | {word.split(".")[0] for word in words}


def public_call(crate, name, files):
    """The definitions that the clauses of a public call name: pairs of a module and a name."""
    for uses, public in public_text(crate):
        for item in blocks(public):
            if re.search(r"^pub (?:const )?fn " + re.escape(name) + r"\b", item, re.M):
                words = words_in(item)
                yield from ((module, it) for module, names in uses if module in files for it in names if it in words)


def lines_of(call, files):
    """How many lines have the definitions of each crate that the clauses of a call reach, such as `nrm_desks_cli::run_desks`."""
    crate, _, name = call.partition("::")
    given = {module: list(definitions_of(path)) for module, path in files.items()}
    taken = {module: list(imports(read(path), "use")) for module, path in files.items()}
    queue, reached = list(public_call(crate, name, files)), set()
    while queue:
        module, name = queue.pop()
        for place, (names, text, _) in enumerate(given[module]):
            if name in names and (module, place) not in reached:
                reached.add((module, place))
                words = words_in(text)
                queue += [(module, it) for others, _, _ in given[module] for it in others & words]
                queue += [(other, it) for other, its in taken[module] if other in files for it in its if it in words]
    lines = OrderedDict()
    for module, definitions in given.items():
        count = sum(size for place, (_, _, size) in enumerate(definitions) if (module, place) in reached)
        if count:
            lines[module.partition(".")[0]] = lines.get(module.partition(".")[0], 0) + count
    return lines


def main():
    files, order = OrderedDict(), crate_order()
    for crate in order:
        files.update(spec_files(crate))
    if sys.argv[1:2] == ["--of"]:
        lines = lines_of("".join(sys.argv[2:3]), files)
        for crate, count in lines.items():
            print(f"{crate}: {count}")
        if not lines:
            print(f"tests/definitions.py: no public call {' '.join(sys.argv[2:3])!r} has clauses; say it as CRATE::NAME", file=sys.stderr)
        return 0 if lines else 2
    reached = set()
    for crate in order:
        for uses, public in public_text(crate):
            reached |= named_in(uses, public, files)
    reached = with_those_below(reached, files)
    if "--list" in sys.argv[1:]:
        for module in files:
            if module in reached:
                first = read(files[module]).split("\n", 1)[0].lstrip("- ")
                print(f"{os.path.relpath(files[module], TOP)}: {first}")
        return 0
    faults = 0
    for module, path in files.items():
        inner = ".Inner." in module
        if inner == (module in reached):
            faults += 1
            why = "a public contract reaches it" if inner else "no public contract reaches it"
            print(f"{os.path.relpath(path, TOP)}: {why}")
    print(f"{len(files)} files of definitions, {len(reached)} of them reached by public contracts, {faults} out of "
          "place")
    return 1 if faults else 0


if __name__ == "__main__":
    sys.exit(main())
