"""Every refused row is told, with its line, its field and how to mend it; the first is the program's."""
from __future__ import annotations

import os
import random
import re
import sys
import tempfile
from collections import Counter
from pathlib import Path

import reference
import run
from harness import EXAMPLES, SOURCES, WithinTest
from made import SECOND
from nrm.network import rows_of, text_of
from nrm.records.network_faults import refusals_of

MANY_FAULTS = """Heading,name,seats

periods,3,3,,
leg,ZRH-VIE,1020,200,90
leg,lh454_27Nov,6,150,160
# remark
product,ZV-Y,"1,250",ZRH-VIE
product,ZV-Q,110.50,ZRH-VIE,ZRH-VIE
product,VB-Y,200,ZRH-VEI
product,"VB-Q
",200,ZRH-VIE
demand,ZV-Y,4,1,2,3
demand,ZV-Q,1,500,500,3
demand,LATE,1,5,5,3
,,,,
product,LATE,07,ZRH-VIE
demand,ZV-Q,2,1,1,1
"""

FAULTS_OF_MANY = [  # the row, the cause, the line of the editor, the field, and a part of the advice
    (1, "1 kind", 1, "field 1, the kind: Heading", "can't have a row of headings"), (2, "3 fields", 3, None, "padded it with commas"),
    (3, "7 range", 4, "field 3, the seats: 1020", "0 to 999"),
    (4, "5 name", 5, "field 2, the name: lh454_27Nov", "LH454-27NOV"),
    (5, "1 kind", 6, "field 1, the kind: # remark", "can't have comments"),
    (6, "6 number", 7, "field 3, the fare: 1,250", "1250"),
    (7, "6 number", 8, "field 3, the fare: 110.50", "round it"),
    (8, "9 missing", 9, "field 4, leg 1: ZRH-VEI", "is it ZRH-VIE of line 4?"),
    (9, "5 name", 10, "field 2, the name: 'VB-Q\\n'", "VB-Q"), (10, "7 range", 12, "field 3, the history: 4", "1 to 3"),
    (11, "11 sum", 13, None, "1003 together"), (12, "9 missing", 14, "field 2, the product: LATE", "line 16, below"),
    (13, "1 kind", 15, "field 1, the kind: ''", "the row is empty"),
    (14, "6 number", 16, "field 3, the fare: 07", "write 7")]

FAULTS_OF_VERSION_2 = """refund,ZV-Y,50
periods,3,3,02
leg,ZRH-VIE,40
leg,VIE-BUD,40,1090,200
leg,BUD-SOF,40,36,90,90
leg,SOF-IST,1000,09
product,ZV-Y,250,ZRH-VIE
product,ZV-Q,110,ZRH-VIE
refund,ZV-Q,33.5
refund,ZV-Y,33%
refund,ZV-M,20
refund,ZV-Q,120
Refund,ZV-Q,20
refund,ZV-Q,20,
refund,zv_q,20
fare,ZV-Y,3
product,ZV-M,170,ZRH-VIE
"""

FAULTS_TOLD_OF_VERSION_2 = [  # the row, the cause, the field, and a part of the advice
    (1, "1 kind", "field 1, the kind: refund", "the row of periods comes first: move up line 2"),
    (2, "6 number", "field 4, the version: 02", "write 2"),
    (3, "3 fields", None, "takes leg,NAME,SEATS,AUTHORISED and up to 9 thresholds, since line 2 says version 2"),
    (4, "7 range", "field 4, the authorised seats: 1090", "it must be 0 to 999; is it a threshold?"),
    (5, "10 thresholds", "field 6, threshold 2: 90", "below 90"),
    (6, "6 number", "field 4, the authorised seats: 09", "write 9"),
    (9, "6 number", "field 3, the percentage: 33.5", "write a whole number, a percentage: round it"),
    (10, "6 number", "field 3, the percentage: 33%", "write digits alone: 33"),
    (11, "9 missing", "field 2, the product: ZV-M", "line 17, below, makes it"),
    (12, "7 range", "field 3, the percentage: 120", "it must be 0 to 100"),
    (13, "1 kind", "field 1, the kind: Refund", "write refund, in lower case"),
    (14, "3 fields", None, "takes refund,PRODUCT,PERCENTAGE"),
    (15, "5 name", "field 2, the product: zv_q", "write ZV-Q"),
    (16, "1 kind", "field 1, the kind: fare", "one of periods, leg, product, refund and demand")]

TWO_VERSIONS = [  # a file, and the first advice
    ("periods,1,1\nleg,AB,9,12,300,100\nproduct,P,5,AB\n",
     "if 12 are authorised seats, the file must have version 2, with ,2 at the end of line 1"),
    ("periods,1,1\nleg,AB,9\nproduct,P,5,AB\nrefund,P,50\n",
     "a file of version 1 has no refunds: make it version 2, with ,2 at the end of line 1"),
    ("periods,1,1\nleg,AB,9\nproduct,P,5,AB\nRefund,P,50\n", "a file of version 1 has no refunds"),
    ("periods,1,1,1\nleg,AB,9\nproduct,P,5,AB\n", "it must be 2, or be left out for version 1"),
    ("periods,1,1,\nleg,AB,9\nproduct,P,5,AB\n", "a number is missing; if the row ends in commas"),
    ("periods,1,1,,\nleg,AB,9,,\nproduct,P,5,AB,\n", "a spreadsheet padded it"),
    ("periods,1,1,3\nleg,AB,9,9\nproduct,P,5,AB\nrefund,P,0\n", "it must be 2, or be left out"),
    ("periods,1,1,2\nleg,AB,9,9\nproduct,P,5,AB\nrefund,P,50\nrefund,P,100\n",
     "line 4 has the refund of P: delete one of the two"),
    ("leg,AB,9,9\nproduct,P,5,AB\nrefund,P,50\n",
     "the row of periods comes first: add periods,HISTORIES,PERIODS,2 above"),
    ("periods,1,1,2\nproduct,P,5,AB\n", "no row makes a leg of this name")]

KINDS_SPELT_OTHERWISE = """#sep=;
Art;Name;Seats
Periods,1,1
Leg,A,5
 leg,B,5
prodcut,P,5,A,B
demand,P,1,4
product;Q;5;A
LEG,A,6
"""


def files_of(case):
    """The words of a case that name files."""
    words = [it.decode("utf-8", "surrogateescape") for it in case.words]
    if case.program == "nrm_kept":
        return words[1:2]
    begin, end = {"print": (1, None), "check": (1, None), "run": (2, None), "plan": (2, None), "cuts": (1, 2),
                  "dp": (1, 2)}.get(words[0] if words else "", (0, 0))
    return words[begin:end]


def spoilt(fields, draw):
    """A row with one fault."""
    kind, *rest = fields
    ways = [["X" + kind, *rest], [kind, *rest, *["1"] * 20], [kind, rest[0].lower() + "_", *rest[1:]],
            [kind, rest[0], "0" + rest[1], *rest[2:]], [kind, rest[0], "100000000", *rest[2:]]]
    return draw.choice(ways)


def spoilt_anywhere(data, draw):
    """The bytes of a file with some of them changed, left out or put in."""
    for _ in range(draw.randint(1, 4)):
        at = draw.randrange(len(data) + 1)
        put = draw.choice([b"", b"", b",", b'"', b"\n", b"\r\n", b"\r", b"0", b"9", b"999", b"a", b"A", b" ", b",2",
                           b"\xef\xbb\xbf", b"\xff", b"\nleg,", b"\nproduct,", b"\nrefund,", b"refund"])
        data = data[:at] + put + data[at + draw.choice([0, 0, 1, 1, 2, 9]):]
    return data


class ExplainedRows(WithinTest):
    def explained(self, case):
        """What `nrm-tools explain` writes of the files of a case, and its status."""
        words = files_of(case)
        with tempfile.TemporaryDirectory() as folder:
            if case.fifos or case.stdin or case.stdin_missing or case.stdin_fails or case.stdin_breaks:
                case.words = [it.encode("utf-8", "surrogateescape") for it in words]
                told = run.Run(case, [sys.executable, str(SOURCES), "explain", "--"], folder)
                return told.out.decode(), told.status
            case.lay(folder)
            os.chdir(folder)
            out, _, status = self.ran("explain", "--", *words)
            return out, status

    def test_tells_first_what_the_program_tells(self) -> None:
        refused, taken = 0, 0
        for case in run.cases_of(""):
            is_output_gone = case.stdout_full or case.stdout_closed or case.stdout_missing or case.disk is not None
            if case.status in (3, 9) and not is_output_gone:
                wanted = case.stdout.decode()
                out, status = self.explained(case)
                self.assertEqual((out.partition("\n")[0] + "\n", status), (wanted, case.status), case.name)
                refused += 1
            elif case.words[:1] == [b"print"] and case.status == 0 and not is_output_gone:
                out, status = self.explained(case)
                self.assertEqual((": no row is refused; " in out.partition("\n")[0], status), (True, 0),
                                 f"{case.name} {out[:200]}")
                taken += 1
        self.assertGreaterEqual(refused, 300, "there are fewer cases than there were")
        self.assertGreaterEqual(taken, 20, "there are fewer cases than there were")

    def entries(self, text, faults):
        """What is told of each row of a file that is refused, which must be the faults that are wanted."""
        out, _, status = self.ran("explain", self.file("many.csv", text))
        entries = re.split(r"^(?=refused )", out, flags=re.M)[1:]
        self.assertEqual((len(entries), status), (len(faults), 3), out)
        for entry, (row, why, line, field, advice) in zip(entries, faults):
            self.want_in(entry, f"refused row {row} why {why}\n    line {line}{f', {field}' if field else ''}\n")
            self.want_in(entry, advice)
        return entries

    def test_tells_every_row_with_its_line_and_how_to_mend_it(self) -> None:
        entries = self.entries(MANY_FAULTS, FAULTS_OF_MANY)
        self.want_in(entries[6], "    line 8, field 5, leg 2: ZRH-VIE\n        the product has this leg already")
        few = self.file("few.csv", "periods,33,17\nleg,AB,3,9,9\nproduct,P,5,AB\ndemand,P,1,1000\n")
        out = self.ran("explain", few).out
        for wanted in ("field 2, the histories: 33", "field 3, the periods: 17", "field 5, threshold 2: 9",
                       "field 4, period 1: 1000"):
            self.want_in(out, f", {wanted}\n")

    def test_tells_every_row_of_version_2(self) -> None:
        faults = [(row, why, row, *told) for row, why, *told in FAULTS_TOLD_OF_VERSION_2]
        entries = self.entries(FAULTS_OF_VERSION_2, faults)
        self.want_in(entries[5], "    line 6, field 3, the seats: 1000\n")
        self.want_in(entries[7], "    line 10, field 2, the product: ZV-Y\n        line 1 has the refund of ZV-Y")

    def test_tells_the_two_versions_apart(self) -> None:
        for text, advice in TWO_VERSIONS:
            path = self.file("versions.csv", text)
            out, err, status = self.ran("explain", path)
            told = err, status, out.partition("\n")[0] + "\n"
            self.assertEqual(told, ("", 3, self.nrm("print", path, status=3)), repr(text))
            self.want_in(out.splitlines()[2], advice)
        for at in (3, 4, 6):
            self.assertEqual(self.ran("explain", self.file("one.csv", TWO_VERSIONS[at][0])).out.count("refused row"), 1)

    def test_tells_a_padded_row_once(self) -> None:
        text = "periods,1,1\nleg,A,5\nproduct,P,5,A,,,\nproduct,,5,A\nproduct,,5,A\n"
        out = self.ran("explain", self.file("padded.csv", text)).out
        self.assertEqual(re.findall("^    line (.*)", out, re.M),
                         [*[f"3, field {it}, leg {it - 3}: ''" for it in (5, 6, 7)],
                          "4, field 2, the name: ''", "5, field 2, the name: ''"])

    def test_takes_a_row_for_the_kind_that_it_seems_to_be(self) -> None:
        """So that no other row is told for its fault."""
        out, _, status = self.ran("explain", self.file("kinds.csv", KINDS_SPELT_OTHERWISE))
        self.assertEqual(re.findall("^refused row (.*)", out, re.M),
                         [f"{it} why 1 kind" for it in (1, 2, 3, 4, 5, 6, 8, 9)])
        self.assertEqual(re.findall("^        (.{12})", out, re.M),
                         ["a network fi", "a network fi", "write period", "write leg, i", "write leg, i",
                          "it must be o", "the fields a", "write leg, i"])
        for heads, wanted in (("Period,Legs\n", ["1 why 1 kind"]), ("Period,Legs\nperiods,1,1\n", ["1 why 1 kind"]),
                              ("Leg,Name\n", ["1 why 1 kind", "2 why 2 order"])):
            out = self.ran("explain", self.file("heads.csv", f"{heads}leg,A,5\nproduct,P,5,A\n")).out
            self.assertEqual(re.findall("^refused row (.*)", out, re.M), wanted)

    def test_tells_the_spoilt_rows_and_no_others(self) -> None:
        rows = [it.fields for it in rows_of((EXAMPLES / "season" / "network.csv").read_bytes())]
        for seed in range(40):
            draw = random.Random(seed)
            at = sorted(draw.sample([it for it, row in enumerate(rows) if row[0] == "demand"], draw.randint(1, 12)))
            made = [spoilt(row, draw) if it in at else row for it, row in enumerate(rows)]
            path = self.file("spoilt.csv", text_of(made))
            told = [str(it) for refusal in refusals_of(Path(path).read_bytes()) for it in refusal.lines()
                    if it.startswith("refused")]
            self.assertEqual([int(it.split()[2]) for it in told], [it + 1 for it in at])
            if seed < 10:
                self.assertEqual(told[0] + "\n", self.nrm("print", path, status=3))

    def test_explanation_and_reader_agree_with_the_reference_on_any_bytes(self) -> None:
        files = [(EXAMPLES / it / "network.csv").read_bytes() for it in ("two-legs", "hub", "log", "certificate")]
        files += [SECOND.encode(), b"periods,2,1,2\nleg,A,3,4\nproduct,P,5,A\nrefund,P,50\ndemand,P,1,3\n"]
        refused, draw = Counter(), random.Random(9)
        for _ in range(2000):
            data = spoilt_anywhere(draw.choice(files), draw)
            rows = [[it.decode("utf-8", "backslashreplace") for it in row] for row in reference.rows_of(data)]
            self.assertEqual([row.fields for row in rows_of(data)], rows, repr(data))
            try:
                reference.network_of(data)
                wanted = None
            except reference.Refused as refusal:
                wanted = refusal.line
            refusals = refusals_of(data)
            self.assertEqual(next(refusals[0].lines()) if refusals else None, wanted, repr(data))
            refused[wanted and wanted.split()[-1]] += 1
        if len(refused) < 8 or refused[None] < 20:
            self.fail(f"too few causes came: {refused}")
