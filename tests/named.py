#!/usr/bin/env python3
"""Whether what README.md, CONTRIBUTING.md, the proofs, the claims and the map name is there, and all links.

    tests/named.py           checks
    tests/named.py --map     writes the drawing of docs/developer/map.md as crates.txt has the layers

Of claims.md it checks each file of definitions or proofs (`nrm_lp/specs/Ends`, or in a list `nrm_lp/specs`: `Ends`,
`Laws`), each public function (`nrm_lp::weakly_dual`), each clause that is named with a function (`nrm_cli::run`, clause
`ends`, or clause `ends` of `run` and of `run_kept`), and that a file has the names that stand behind it. claims.md must
name each file of definitions that a public contract reaches, and beside each claim what carries it. In crates.txt no
crate may depend on one of a higher layer, the drawing of map.md is compared with its layers, and each layer must have a
paragraph there that names its crates; crates whose names end in `_tests` alone have tests. A word of the lexicon in
glossary.md may stand in the names of files and types of those rooms of the package and those crates that its row names:
elsewhere it would have a second meaning. README.md
must have a line for each layer, from above, and at most 120 lines and 1,100 words. Of CONTRIBUTING.md each path must be
there (`nrm_stream/src/command.rt`, `docs/commands.md`), and each clause that it quotes must be a line of the code. Each
link of a page must lead to a file and to a heading in it, and to none that a release leaves out. Each page must
be on a shelf, a folder of docs/ for one kind of reader, or with the rules in docs/ itself, and README.md beside it
must lead to it. What isn't so is printed; the last line is `N names, M not there`.
"""
import glob
import os
import re
import subprocess
import sys
import textwrap
from pathlib import Path

import pages

TOP = os.path.dirname(os.path.dirname(os.path.realpath(__file__)))
FILE = r"nrm\w*/(?:specs|proofs)(?:/\w+)+"
LIST = r"\s*((?:`[\w-]+`(?:,\s+|\s+and\s+)?)+)"
MOST_LINES, MOST_WORDS = 120, 1100  # of the first page
TOP_CALLS = {"run": "nrm_cli", "run_kept": "nrm_kept_cli", "run_why": "nrm_why_cli", "run_desks": "nrm_desks_cli"}
SHELVES = ("analyst", "operator", "auditor", "developer")
TYPES = {  # how a file declares types, by its ending
    ".py": r"^ *class (\w+)", ".antt": r"^ *(?:abbrev |pub )*(?:record|data) ([\w-]+)",
    ".rt": r"^ *(?:pub(?:\(\w+\))? |ghost )*(?:struct|enum|trait|type) (\w+)"}
PARTS = re.compile(r"[A-Z]+(?![a-z])|[A-Z]?[a-z]+")  # of a name
OTHERWISE = (  # names in a room or crate that have a word of the lexicon with another meaning, and this meaning
    ("server", "Places", "where a server listens"),
    ("nrm_dual", "Place place", "what a line of a certificate is of: the value, a product or a leg"),
    ("nrm_keeper_tests", "Place", "a folder for a test"),
    ("nrm_row", "in_place", "in place, as the field says it"),
    ("nrm_dlp", "Programs programs", "the linear program, as the crate's name says"),
    ("nrm_lp", "Program ProgramValue program", "the linear program, as the crate's name says"),
    ("nrm_samples", "Programs programs", "linear programs, for the tests of those crates"),
    ("nrm_hub", "Seats", "the place of a client"))
EXCEPTED = {(room, name) for room, names, _ in OTHERWISE for name in names.split()}
NOT_RELEASED = re.compile(r"\]\(((?:\.\./)*(?:crates|tests|tools|\.ci|python/tests)/[^)]*)\)")


def read(path):
    with open(os.path.join(TOP, path), encoding="utf-8") as file:
        return file.read()


def ticked(text):
    return re.findall(r"`([\w-]+)`", text)


def items_of(path):
    """The names that a file of definitions or proofs declares; None if it isn't there."""
    path = os.path.join("crates", f"{path}.antt")
    if not os.path.exists(os.path.join(TOP, path)):
        return None
    text = read(path)
    cases = re.findall(r"^ *(?:pub )?data .* where\n((?:(?: .*)?\n)+)", text, re.M)
    in_module, at_top = r" +(?:abbrev )?pub (?:record |data )?", r"(?:abbrev |pub |record |data )*"
    declared = re.findall(rf"^(?:{in_module}|{at_top})([\w-]+)(?: \(| \{{| :|$)", text, re.M)
    return {*declared, *re.findall(r"^ +([\w-]+) :", "".join(cases), re.M)}


def functions_of(crate):
    """The clauses of each public function of a crate, by its name; its public types have none."""
    found = {}
    for place, _, names in os.walk(os.path.join(TOP, "crates", crate, "src")):
        for name in sorted(names):
            text = read(os.path.join(place, name))
            for part in re.split(r"^(?= *(?:pub(?:\(crate\))? )?(?:const )?fn )", text, flags=re.M):
                public = re.match(r" *pub (?:const )?fn (\w+)", part)
                if public:
                    clauses = re.findall(r"^ +ensures (\w+) \{", part, re.M)
                    found.setdefault(public[1], set()).update(clauses)
            for known in re.findall(r"^ *pub (?:struct|enum|trait|type) (\w+)", text, re.M):
                found.setdefault(known, set())
    return found


class Names:
    """What was looked for, and what of it isn't there."""

    def __init__(self):
        self.count, self.missing, self.functions = 0, [], {}

    def look(self, document, name, is_there):
        self.count += 1
        if not is_there:
            self.missing.append(f"{document}: {name}")

    def function(self, document, crate, name, clauses=()):
        if crate not in self.functions:
            self.functions[crate] = functions_of(crate)
        known = self.functions[crate].get(name)
        self.look(document, f"{crate}::{name}", known is not None)
        for clause in clauses:
            self.look(document, f"{crate}::{name}, clause {clause}", clause in (known or ()))

    def laws(self, document, laws):
        """Laws that are named without their crate."""
        for law in laws:
            self.look(document, f"law {law}", any(law in it for it in self.all_laws()))

    def all_laws(self):
        paths = glob.glob(os.path.join(TOP, "crates", "*", "src", "laws.rt"))
        return [re.findall(r"^pub fn (\w+)", read(path), re.M) for path in paths]

    def items(self, document, path, names):
        known = items_of(path)
        self.look(document, path, known is not None)
        for name in names:
            self.look(document, f"{path}: {name}", name in (known or ()))


def look_everywhere(document, names):
    """The files, functions and clauses that a document names."""
    text = read(document)
    for path in re.findall(rf"`({FILE})`", text):
        names.items(document, path, [])
    for folder, files in re.findall(rf"`(nrm\w*/specs)`(?::|\s\(){LIST}", text):
        for file in ticked(files):
            names.items(document, f"{folder}/{file}", [])
    for crate, path in re.findall(r"`(nrm\w*)::((?:\w+::)*\w+)`", text):
        for name in path.split("::"):
            names.function(document, crate, name)
    for crate, name, clauses in re.findall(rf"`(nrm\w*)::(?:\w+::)*(\w+)`, clauses?{LIST}", text):
        names.function(document, crate, name, ticked(clauses))
    for clauses, calls in re.findall(rf"[Cc]lauses?{LIST}\s*((?:(?:\sand\s)?of\s`run\w*`)+)", text):
        for call in ticked(calls):
            names.function(document, TOP_CALLS.get(call, call), call, ticked(clauses))
    for laws in re.findall(rf"\b[Ll]aws?{LIST}", text):
        names.laws(document, [law for law in ticked(laws) if "::" not in law])


def look_for_definitions(document, names):
    """Whether a document names each file of definitions that a public contract reaches."""
    text = read(document)
    lists = re.findall(rf"`(nrm\w*/specs)`(?::|\s\(){LIST}", text)
    named = {f"{folder}/{file}" for folder, files in lists for file in ticked(files)}
    named |= {f"{crate}/specs/Laws" for crates in re.findall(rf"`Laws` of{LIST}", text) for crate in ticked(crates)}
    program = [sys.executable, os.path.join(TOP, "tests", "definitions.py"), "--list"]
    reached = subprocess.run(program, stdout=subprocess.PIPE, text=True, check=True).stdout
    for file in re.findall(r"^crates/(.*)\.antt:", reached, re.M):
        names.look(document, f"among the definitions to believe {file}", file in named)


def look_in_tables(document, names):
    """The names behind each file, and beside each claim what carries it."""
    text = read(document)
    for path, listed in re.findall(rf"`({FILE})`: {LIST}", text):
        names.items(document, path, ticked(listed))
    for claim, carriers, _ in re.findall(r"^\| (.*?) \| (.*?) \| (.*?)\|$", text.partition("\n## The ")[0], re.M):
        names.look(document, f"a clause, law or function beside: {claim}",
                   re.search(r"clauses? `|laws? `|`nrm\w*::|the same|function|^Clause", carriers))


def listed_layers():
    """The layers of crates.txt from below: of each its crates, and what these depend on, in the order of the file.

    A comment right above crates is the name of their layer.
    """
    layers = {}
    for block in read("crates.txt").split("\n\n"):
        head, *rest = block.strip().splitlines()
        crates = [line.partition(":") for line in rest if not line.startswith("#")]
        if crates:
            layers[head.lstrip("# ")] = {name.strip(): below.split() for name, _, below in crates}
    return layers


def listed_crates():
    """What each crate of crates.txt depends on, in its order."""
    return {crate: below for crates in listed_layers().values() for crate, below in crates.items()}


def drawn(text):
    """The map with its drawing of the layers as crates.txt has them, the highest first, without the crates of tests."""
    layers = listed_layers()
    width = max(map(len, layers))
    lines = [textwrap.fill("  ".join(it for it in crates if not it.endswith("_tests")), 120,
                           initial_indent=f"     {layer:{width}}  ", subsequent_indent=" " * (width + 7)) + "\n"
             for layer, crates in reversed(layers.items())]
    return re.sub(r"(?:^ {5,}.*  nrm.*\n)+", lambda _: "".join(lines), text, count=1, flags=re.M)


def look_at_edges(document, names, layers):
    """Whether each crate depends on crates of its own layer and of lower ones alone, and stands behind them."""
    layer_of = {crate: layer for layer, crates in layers.items() for crate in crates}
    behind = set()
    for crate, below in ((crate, below) for crates in layers.values() for crate, below in crates.items()):
        for it in below:
            if it in layer_of:
                names.look(document, f"{it} ({layer_of[it]}), on which {crate} ({layer_of[crate]}) depends, above it in "
                           "the file", it in behind)
        behind.add(crate)


def look_at_layers(document, names):
    """Whether no crate depends on one of a higher layer, and each folder of crates has a line."""
    look_at_edges(document, names, listed_layers())
    behind = set(listed_crates())
    folders = {path.parent.name for path in Path(TOP, "crates").glob("*/src")}
    names.look(document, f"a layer and a line for each folder of crates: {sorted(folders ^ behind)}", folders == behind)


def look_in_map(document, names):
    """The drawing of the layers, and a paragraph for each, from below, that names its crates."""
    text, layers = read(document), listed_layers()
    names.look(document, "the layers as crates.txt has them", drawn(text) == text)
    paragraphs = dict(re.findall(r"^\*\*(.+?)\.\*\* ((?:.+\n)+)", text, re.M))
    names.look(document, "a paragraph for each layer, from below", [it.lower() for it in paragraphs] == list(layers))
    for layer, crates in layers.items():
        named = re.findall(r"`(nrm\w*)`", paragraphs.get(layer.capitalize(), ""))
        for crate in crates:
            names.look(document, f"{crate} in the paragraph of its layer, {layer}", crate in named)


def look_at_first_page(document, names):
    """Whether the first page is short, and draws the layers as crates.txt has them, the highest first."""
    text = read(document)
    lines, words = len(text.splitlines()), len(text.split())
    names.look(document, f"a page of {MOST_LINES} lines and {MOST_WORDS} words at most: {lines} lines, {words} words",
               lines <= MOST_LINES and words <= MOST_WORDS)
    layers = list(reversed(listed_layers()))
    names.look(document, "a line for each layer of crates.txt, the highest first",
               "\n".join(layers) in "\n".join(re.findall(r"^ {4}(\S+(?: \S+)*) {2,}", text, re.M)))


def look_at_shelves(names):
    """Whether each page below docs/ is on a shelf or with the rules, and the first page there leads to it."""
    docs = Path(TOP, "docs")
    first = {docs / shelf / "README.md" for shelf in ("", *SHELVES)}
    for page in sorted({*docs.rglob("*.md"), *first}):
        shown = page.relative_to(TOP).as_posix()
        names.look(shown, "its folder among the shelves", page.parent / "README.md" in first)
        names.look(shown, "the page", page.exists())
        above = (docs if page in first else page.parent) / "README.md"
        link = page.relative_to(above.parent).as_posix()
        if above.exists() and above != page:
            names.look(above.relative_to(TOP).as_posix(), f"a link to {link}", f"]({link}" in above.read_text())


def lexicon_in(text):
    """The words of the house, and in which rooms and crates each may name files and types."""
    rows = re.findall(r"^\| ([a-z ]+?) +\| .* \|([^|]*)\|$", text.partition("\n## The house's words\n")[2], re.M)
    return {word: list(listed_crates()) if rooms.strip() == "each crate" else ticked(rooms) for word, rooms in rows}


def given_names():
    """The name of each file and type of the package and of the crates: its room or crate, the name, and its path."""
    package, crates = Path(TOP, "python", "src", "nrm"), Path(TOP, "crates")
    paths = [(path, path.relative_to(package.parent).parts[:-1][-1]) for path in sorted(package.rglob("*.py"))]
    paths += [(path, path.relative_to(crates).parts[0]) for below in ("src", "specs")
              for path in sorted(crates.glob(f"*/{below}/**/*")) if path.suffix in TYPES]
    for path, room in paths:
        for name in (path.stem, *re.findall(TYPES[path.suffix], path.read_text(encoding="utf-8"), re.M)):
            yield room, name, path.relative_to(TOP).as_posix()


def look_for_second_meanings(document, names, lexicon, given):
    """Whether the words of the lexicon are in the names of their own rooms and crates alone, but for what is excepted."""
    needed = set()
    for room, name, path in given:
        parts = [it.lower() for it in PARTS.findall(name)]
        for word, rooms in lexicon.items():
            size = word.count(" ") + 1
            found = [" ".join(parts[at:at + size]) for at in range(len(parts) - size + 1)]
            if room not in rooms and (word in found or f"{word}s" in found):
                needed.add((room, name))
                where = ", ".join(rooms[:9]) or "no file or type"
                names.look(path, f"another name than {name}: {document} has the word {word} for {where} alone",
                           (room, name) in EXCEPTED)
    for room, name in sorted(EXCEPTED):
        names.look("tests/named.py", f"a need to except {name} in {room}", (room, name) in needed)
    for word, rooms in lexicon.items():
        for room in rooms:
            names.look(document, f"the room or crate {room}, which the row of {word} names",
                       any(Path(TOP, it).is_dir() for it in (f"crates/{room}", f"python/src/nrm/{room}")))


def look_at_planted(names):
    """Whether the checks of edges and of second meanings see what they are for."""
    planted = Names()
    look_at_edges("crates.txt", planted, {"base": {"nrm_low": ["nrm_high"]}, "above": {"nrm_high": ["nrm_low"]}})
    names.look("tests/named.py", "the refusal of a planted edge upward", planted.missing == [
        "crates.txt: nrm_high (above), on which nrm_low (base) depends, above it in the file"])
    lexicon = lexicon_in(read("docs/glossary.md"))
    for room, name, is_refused in (
            ("server", "SeatOfClient", True), ("records", "door", True), ("web", "Door", False), ("web", "page_views", True),
            ("nrm_control", "hubs", True), ("nrm_hub", "Hub", False), ("nrm_edge", "TopCall", True),
            ("nrm_lp", "Program", False), ("nrm_lp", "ProgramFile", True), ("legs", "looking", False),
            ("nrm_cli", "laws", False)):
        planted = Names()
        look_for_second_meanings("docs/glossary.md", planted, lexicon, [(room, name, "planted")])
        refused = [it for it in planted.missing if it.startswith("planted: ")]
        names.look("tests/named.py", f"the {'refusal' if is_refused else 'right'} of a planted {name} in {room}",
                   bool(refused) == is_refused)


def look_for_tests(document, names):
    """Whether tests are in crates of their own alone, as a document says."""
    for crate in listed_crates():
        sources = Path(TOP, "crates", crate, "src").rglob("*.rt")
        tested = any("#[test]" in path.read_text(encoding="utf-8") for path in sources)
        names.look(document, f"{crate} with tests or without, as its name says", tested == crate.endswith("_tests"))


def look_for_paths(document, names):
    """The paths that a document names: from the top, or of a file of a crate from crates/."""
    for path in re.findall(r"`((?:nrm\w*|crates|docs|tests|tools|python|bench|\.ci)/[\w./-]+)`", read(document)):
        if not re.search(r"NAME|FOLDER", path):
            names.look(document, path, any((Path(TOP) / below / path).exists() for below in ("", "crates")))


def look_for_clauses(document, names):
    """The clauses that a document quotes, each a whole line of the code."""
    code = {line.strip() for path in Path(TOP, "crates").glob("*/src/**/*.rt")
            for line in path.read_text(encoding="utf-8").splitlines()}
    for clause in re.findall(r"^ {8}((?:requires|ensures) .*)$", read(document), re.M):
        names.look(document, f"the clause {clause}", clause in code)


def look_at_links(names):
    """The links of all pages."""
    linked = [Path(TOP, "CONTRIBUTING.md"), Path(TOP, "CHANGELOG.md"), *pages.PAGES]
    faults, links = pages.faulty_links(linked)
    names.count += links
    names.missing += faults
    for page in linked:
        if page != Path(TOP, "README.md"):  # what it says of the checkout is cut from it
            names.missing += [f"{page.relative_to(TOP)}: a release has no {link}"
                              for link in NOT_RELEASED.findall(page.read_text())]


def main():
    if sys.argv[1:] == ["--map"]:
        Path(TOP, "docs", "developer", "map.md").write_text(drawn(read("docs/developer/map.md")), encoding="utf-8")
        return 0
    names = Names()
    look_everywhere("docs/auditor/claims.md", names)
    look_for_definitions("docs/auditor/claims.md", names)
    look_in_tables("docs/auditor/claims.md", names)
    look_at_layers("crates.txt", names)
    look_in_map("docs/developer/map.md", names)
    look_for_tests("docs/developer/map.md", names)
    look_for_second_meanings("docs/glossary.md", names, lexicon_in(read("docs/glossary.md")), given_names())
    look_at_planted(names)
    look_at_first_page("README.md", names)
    look_for_paths("CONTRIBUTING.md", names)
    look_for_clauses("CONTRIBUTING.md", names)
    look_at_shelves(names)
    look_at_links(names)
    print(*names.missing, sep="\n", end="\n" if names.missing else "")
    print(f"{names.count} names, {len(names.missing)} not there")
    return 0 if names.count and not names.missing else 1


if __name__ == "__main__":
    sys.exit(main())
