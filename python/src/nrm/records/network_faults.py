"""Every row of a network file that is refused: which fields are at fault, and how to mend them."""
from __future__ import annotations

import difflib
from dataclasses import dataclass
from typing import Collection, Iterator, Mapping, Sequence

from nrm.limits import (MOST_DEMAND, MOST_FARE, MOST_HISTORIES, MOST_LEGS, MOST_LEGS_OF_A_PRODUCT, MOST_NETWORK_BYTES,
                        MOST_PERIODS, MOST_PRODUCTS, MOST_REFUND, MOST_SEATS, MOST_THRESHOLDS)
from nrm.network import NAME, WHOLE, Row, rows_of
from nrm.records.fitting_names import fitting
from nrm.records.mending import (OF_VERSION_2, SHAPES, WITHOUT_PADDING, how_to_mend_a_kind, how_to_mend_a_name,
                                 how_to_mend_a_number, how_to_mend_a_range, is_no_csv, is_refund, kind_meant, shown)

WORDS = {1: "kind", 2: "order", 3: "fields", 4: "many", 5: "name", 6: "number", 7: "range", 8: "twice", 9: "missing",
         10: "thresholds", 11: "sum", 12: "empty", 13: "size"}


@dataclass(frozen=True)
class Fault:
    """Why a row is refused: the number of the cause, the field if it is one of them, and how to mend it."""
    why: int
    field: int | None
    advice: str


@dataclass(frozen=True)
class RowRefusal:
    """A row that is refused, with its faults, in a file of some version; the first is the one that the program tells.
    Where the file as a whole is refused, the row has no fields."""
    row: Row
    faults: Sequence[Fault]
    version: int

    def lines(self) -> Iterator[str]:
        """The lines that tell it."""
        number, line, fields = self.row.number, self.row.line, self.row.fields
        yield f"refused row {number} why {self.faults[0].why} {WORDS[self.faults[0].why]}"
        for fault in self.faults:
            if fault.field is None:
                place = f"line {line}" if fields else "the whole file"
            else:
                name = name_of_field(fields[0], fault.field, self.version)
                place = f"line {line}, field {fault.field + 1}, {name}: {shown(fields[fault.field])}"
            yield f"    {place}"
            yield f"        {fault.advice}"


def of_no_row(number: int, fault: Fault, version: int) -> RowRefusal:
    """A refusal of the file as a whole, told of the number of a row that isn't there."""
    return RowRefusal(Row(number, 0, []), [fault], version)


def name_of_field(kind: str, at: int, version: int) -> str:
    """What stands in a field of a row of some kind."""
    authorised = ["the authorised seats"] if version == 2 else []
    names = {"periods": ["the histories", "the periods", "the version"],
             "leg": ["the name", "the seats", *authorised, *[f"threshold {it + 1}" for it in range(MOST_THRESHOLDS)]],
             "product": ["the name", "the fare", *[f"leg {it + 1}" for it in range(MOST_LEGS_OF_A_PRODUCT)]],
             "refund": ["the product", "the percentage"],
             "demand": ["the product", "the history", *[f"period {it + 1}" for it in range(MOST_PERIODS)]]}
    return ["the kind", *names.get(kind, [])][at]


def value_of(digits: str) -> int:
    """The number that digits say; of more than any limit has it is one above all limits."""
    return int(digits[:len(str(MOST_FARE)) + 1])


class Explanation:
    """The rows of a network file as they are read: what was made so far, with the line of each, and the refusals."""

    def __init__(self, rows: Sequence[Row]) -> None:
        self.rows = rows
        self.made: dict[str, dict[str, int]] = {"leg": {}, "product": {}, "refund": {}}
        self.demands: dict[tuple[str, str], int] = {}
        spelt = (row for row in rows if row.fields[0] == "periods")
        meant = (row for row in rows if kind_meant(row.fields[0]) == "periods")
        self.first_periods = next(spelt, None) or next(meant, None)
        self.histories, self.periods = self.sizes()
        self.version = self.version_meant()
        self.shapes = OF_VERSION_2 if self.version == 2 else SHAPES
        self.first_threshold = 4 if self.version == 2 else 3
        self.known_rows = 0  # those of a known kind
        self.lines_of_names: dict[str | None, dict[str, int]] = {"leg": {}, "product": {}}
        for row in reversed(rows):
            if row.fields[1:]:
                self.lines_of_names.get(kind_meant(row.fields[0]), {})[row.fields[1]] = row.line

    def sizes(self) -> tuple[int | None, int | None]:
        """The histories and the periods, or None where the row that says them doesn't say them well."""
        fields = self.first_periods.fields if self.first_periods else []
        limited = zip(fields[1:], (MOST_HISTORIES, MOST_PERIODS))
        if len(fields) < 3 or not all(WHOLE.fullmatch(it) and 1 <= value_of(it) <= most for it, most in limited):
            return None, None
        return int(fields[1]), int(fields[2])

    def version_meant(self) -> int:
        """The version that the row of periods says, or seems to be meant to say where it has more commas or says 1."""
        if not self.first_periods:
            return 2 if any(is_refund(row) for row in self.rows) else 1
        return 1 if "".join(self.first_periods.fields[3:]).strip() in ("", "1") else 2

    def refusals(self) -> Iterator[RowRefusal]:
        """The rows that are refused, in their order."""
        for row in self.rows:
            faults = list(self.faults(row))
            if faults:
                yield RowRefusal(row, faults, self.version)
            if faults and is_no_csv(row.fields[0]):
                return  # what is wrong with the file as a whole is told once
            self.take(row)
        for kind in ("leg", "product"):
            if not self.made[kind]:
                fault = Fault(12, None, f"there is no row {self.shapes[kind]}: add one")
                yield of_no_row(len(self.rows) + 1, fault, self.version)
                return

    def take(self, row: Row) -> None:
        """Makes known what a row makes, be it refused or not."""
        word, *rest = row.fields
        self.known_rows += word in SHAPES
        kind = kind_meant(word)  # one that is spelt otherwise makes its name known too
        if kind in self.made and rest:
            self.made[kind].setdefault(rest[0], row.line)
        elif kind == "demand" and len(rest) > 1:
            self.demands.setdefault((rest[0], rest[1]), row.line)

    def faults(self, row: Row) -> list[Fault]:
        """The faults of a row in the order in which the program looks for them: of its shape one, of its fields all."""
        fault = self.fault_of_shape(row)
        if fault:
            return [fault]
        faults = [*faulty_names(row), *self.faulty_numbers(row)]
        at_fault = {it.field for it in faults}
        of_names = [*self.taken_names(row), *self.missing_names(row)]
        return faults + [it for it in of_names if it.field not in at_fault] or list(self.faulty_lists(row))

    def fault_of_shape(self, row: Row) -> Fault | None:
        """Why a row has not the form of one, or stands where it can't."""
        kind, count, periods = row.fields[0], len(row.fields), self.first_periods
        if kind not in SHAPES or kind == "refund" and (self.version == 1 or row.number == 1):
            of_kind = how_to_mend_a_kind(row.fields, not self.known_rows, self.version)
            return Fault(1, 0, self.how_to_mend_a_refund(row) or of_kind)
        if kind != "periods" and not self.known_rows and not (periods and periods.number < row.number):
            return Fault(2, 0, self.how_to_begin())
        if kind == "periods" and periods and row is not periods:
            return Fault(2, 0, f"line {periods.line} is the row of periods, and a file has only one: delete this one")
        allowed = self.counts_allowed(kind)
        if count not in allowed:
            return Fault(3, None, self.how_to_mend_a_count(row, count, allowed))
        most = {"leg": MOST_LEGS, "product": MOST_PRODUCTS}.get(kind)
        if most and len(self.made[kind]) >= most:
            return Fault(4, None, f"a file takes {most} rows of this kind: `nrm-tools split` cuts a timetable into "
                                  "files, if it falls apart into legs that no product joins")
        return None

    def counts_allowed(self, kind: str) -> Collection[int]:
        """How many fields a row of some kind may have."""
        counts: Mapping[str, Collection[int]] = {
            "periods": [3, 4], "refund": [3], "product": range(4, 4 + MOST_LEGS_OF_A_PRODUCT),
            "leg": range(self.first_threshold, self.first_threshold + MOST_THRESHOLDS + 1),
            "demand": [3 + self.periods] if self.periods else range(4, 4 + MOST_PERIODS)}
        return counts[kind]

    def how_to_begin(self) -> str:
        """What is said of a row above the row of periods."""
        if self.first_periods:
            return f"the row of periods comes first: move up line {self.first_periods.line}"
        return f"the row of periods comes first: add {self.shapes['periods']} above"

    def how_to_mend_a_refund(self, row: Row) -> str | None:
        """What is said of a row of a refund where there can be none; nothing where it is no such row."""
        if not is_refund(row) or self.version == 2 and self.first_periods and row.number > 1:
            return None
        if self.version == 2 or not self.first_periods:
            return self.how_to_begin()
        return ("a file of version 1 has no refunds: make it version 2, with ,2 at the end of line "
                f"{self.first_periods.line} and after the seats of each leg its authorised seats; or delete the line")

    def how_to_mend_a_count(self, row: Row, count: int, allowed: Collection[int]) -> str:
        """What is said of a row that has too few fields, or too many."""
        filled = max(at for at, field in enumerate(row.fields, 1) if field)
        wanted = f"it has {count} fields, and takes {self.shapes[row.fields[0]]}"
        if row.fields[0] == "leg" and count == 3:
            wanted += f", since line {self.first_periods.line} says version 2" if self.first_periods else ""
        if row.fields[0] == "demand" and self.periods:
            wanted = (f"it has {count} fields, and takes {3 + self.periods}: "
                      f"demand,PRODUCT,HISTORY and {self.periods} numbers")
        if filled in allowed and not row.fields[-1]:
            return f"{wanted}; a spreadsheet padded it with commas: {WITHOUT_PADDING}"
        return wanted

    def faulty_numbers(self, row: Row) -> Iterator[Fault]:
        """The fields that are to be numbers and are none, and then those that are out of their range."""
        limits = self.limits(row)
        for at, _, _ in limits:
            if not WHOLE.fullmatch(row.fields[at]):
                yield Fault(6, at, how_to_mend_a_number(row.fields[at], row.fields[0]))
        for at, least, most in limits:
            if WHOLE.fullmatch(row.fields[at]) and not least <= value_of(row.fields[at]) <= most:
                yield Fault(7, at, how_to_mend_a_range(row.fields[0], at, least, most, self.version))

    def limits(self, row: Row) -> list[tuple[int, int, int]]:
        """Each field that is a number, with its least and its greatest value."""
        kind, count = row.fields[0], len(row.fields)
        if kind == "periods":
            return [(1, 1, MOST_HISTORIES), (2, 1, MOST_PERIODS), *[(at, 2, 2) for at in range(3, count)]]
        if kind == "leg":
            first = self.first_threshold
            return [(at, *((0, MOST_SEATS) if at < first else (1, MOST_FARE))) for at in range(2, count)]
        if kind == "product":
            return [(2, 1, MOST_FARE)]
        if kind == "refund":
            return [(2, 0, MOST_REFUND)]
        return [(2, 1, self.histories or MOST_HISTORIES), *[(at, 0, MOST_DEMAND) for at in range(3, count)]]

    def taken_names(self, row: Row) -> Iterator[Fault]:
        """The fields whose names were made before, and may be made once."""
        kind, name, *rest = row.fields
        line = self.made.get(kind, {}).get(name)
        if line and kind == "refund":
            yield Fault(8, 1, f"line {line} has the refund of {shown(name)}: delete one of the two")
        elif line:
            yield Fault(8, 1, f"line {line} makes the same name: choose another, or delete one of the two")
        if kind == "product":
            for at, leg in enumerate(rest[1:], 3):
                if leg in row.fields[3:at]:
                    yield Fault(8, at, "the product has this leg already: name each leg once")
        if kind == "demand" and (name, rest[0]) in self.demands:
            line = self.demands[name, rest[0]]
            yield Fault(8, 2, f"line {line} has the demand of {shown(name)} in this history: add the two up in one row")

    def missing_names(self, row: Row) -> Iterator[Fault]:
        """The fields that name what no row above makes."""
        kind, count = row.fields[0], len(row.fields)
        what = "leg" if kind == "product" else "product"
        for at in {"product": range(3, count), "refund": [1], "demand": [1]}.get(kind, []):
            if row.fields[at] not in self.made[what]:
                yield Fault(9, at, self.how_to_find(row.fields[at], what))

    def how_to_find(self, name: str, kind: str) -> str:
        """What is said of a name that isn't there."""
        if below := self.lines_of_names[kind].get(name):
            return f"line {below}, below, makes it: move that line up"
        if name.isdigit() and kind == "leg":
            return ("no row makes a leg of this name; is it the end of a fare with a thousands mark? "
                    "Write the fare in digits alone")
        made = self.made[kind]
        close = [it for it in made if fitting(it) == fitting(name)] or difflib.get_close_matches(name, made, 1)
        found = f"; is it {close[0]} of line {made[close[0]]}?" if close else ": add it above"
        return f"no row makes a {kind} of this name{found}"

    def faulty_lists(self, row: Row) -> Iterator[Fault]:
        """What is wrong with the numbers of a row together, each of them being right."""
        if row.fields[0] == "leg":
            for at in range(self.first_threshold + 1, len(row.fields)):
                if int(row.fields[at]) >= int(before := row.fields[at - 1]):
                    hint = self.hint_of_authorised(row, at)
                    yield Fault(10, at, f"thresholds fall: it must be below {before}{hint}")
        if row.fields[0] == "demand":
            seats = sum(map(int, row.fields[3:]))
            if seats > MOST_DEMAND:
                yield Fault(11, None, f"the seats of the row are {seats} together, and {MOST_DEMAND} are allowed: "
                                      "split the product in two")

    def hint_of_authorised(self, row: Row, at: int) -> str:
        """What more is said of a second threshold above the first, which may be meant as authorised seats."""
        first = row.fields[self.first_threshold]
        if self.version == 2 or at != 4 or int(first) > MOST_SEATS or not self.first_periods:
            return ""
        return (f"; if {first} are authorised seats, the file must have version 2, "
                f"with ,2 at the end of line {self.first_periods.line}")


def faulty_names(row: Row) -> Iterator[Fault]:
    """The fields that are to be names, and haven't the form of one."""
    kind, count = row.fields[0], len(row.fields)
    for at in {"periods": [], "product": [1, *range(3, count)]}.get(kind, [1]):
        if not NAME.fullmatch(row.fields[at]):
            yield Fault(5, at, how_to_mend_a_name(row.fields[at]))


def refusals_of(data: bytes) -> list[RowRefusal]:
    """The refusals of a network file's bytes."""
    if len(data) > MOST_NETWORK_BYTES:
        fault = Fault(13, None, f"it has more than {MOST_NETWORK_BYTES} bytes: leave out rows of demand that are 0, "
                                "and quotes; `nrm-tools split` cuts a timetable into files")
        return [of_no_row(0, fault, 1)]
    return list(Explanation(list(rows_of(data))).refusals())
