"""Cancellations with their bookings, what is there twice, and rows that are left out: each is told, with its line."""
from __future__ import annotations

from records.made_export import BOOKINGS, COLUMNS, FARES, HEADS, STOPS, ExportTest

CANCELLED = """9;void;2025-03-06;2025-03-07;;Aachen;Bonn;Flex;1;40,00 €
2;void;2025-03-06;2025-03-07;;Aachen;Cassel;Flex;2;-90,00 €
3;void;2025-03-08;2025-03-07;;Bonn;Cassel;Saver;-1;-20,50 €
"""  # of no booking; of 2 whole; of 3 a seat, after the departure
OF_IDS = ["--id", "No", "--cancels", "Status", "void"]
DEMAND = ["demand,AAC-BON-FLEX,1,1,1", "demand,AAC-CAS-FLEX,1,2,0", "demand,AAC-CAS-FLEX,2,1,0",
          "demand,BON-CAS-SAVE,1,0,3", "demand,BON-CAS-SAVE,2,0,1"]
ENDED = ("void", "Cancelled", "STORNIERT", "annulé", "anulada", "annullato", "refunded", "x", "-1", "2025-03-06",
         "06.03.2025")


class Cancellations(ExportTest):
    def test_pairs_cancellations_in_rows_of_their_own(self) -> None:
        """Booking 2 is cancelled whole, 3 in part, and 9 is none. What was cancelled was asked for, and has no fare."""
        out, err, _ = self.read(*OF_IDS, rows=BOOKINGS + CANCELLED)
        self.assertEqual(out.splitlines()[3:], [
            "product,AAC-BON-FLEX,45,AAC-BON", "product,AAC-CAS-FLEX,93,AAC-BON,BON-CAS",
            "product,BON-CAS-SAVE,21,BON-CAS", *DEMAND])
        self.want_in(err, "cancellations without a booking of their number, departure, product and as many seats, "
                     "which don't count: 1, line 8\n")
        self.want_in(err, "bookings 6, of them cancelled 1, 1 more in part, in rows of their own, of which 2 were "
                     "paired; without --net `nrm-tools simulate --cancel 0.1667` plays such seasons\n")
        self.want_in(err, "departures on 2 days, from 2025-03-07 to 2025-03-14")
        self.want_in(err, "rows that cancel by the column Status: void 3; that don't: sold 6\n")

    def test_a_row_that_cancels_another_wants_its_number(self) -> None:
        """As seats or an amount below 0 show; where its number is of no booking, it is told."""
        err = self.refused("", "--cancels", "Status", "void", rows=BOOKINGS + CANCELLED)
        for line in (9, 10):
            self.want_in(err, f"line {line}: it cancels a booking of another row: use --id with the column of the "
                         "booking's number\n")
        others = CANCELLED.replace("2;void", "12;void").replace("3;void", "13;void")
        self.want_in(self.read(*OF_IDS, rows=BOOKINGS + others).err, "which don't count: 3, lines 8, 9, 10\n")

    def test_what_stands_alone_counts_if_asked_for(self) -> None:
        out = self.read(*OF_IDS, "--net", rows=BOOKINGS + CANCELLED).out
        self.assertEqual(out.splitlines()[6:], [DEMAND[0], DEMAND[2], "demand,BON-CAS-SAVE,1,0,2", DEMAND[4]])

    def test_a_cancellation_may_be_above_its_booking(self) -> None:
        """As in an export that begins with the newest row."""
        rows = (BOOKINGS + CANCELLED).splitlines(keepends=True)
        self.assertEqual(*[self.read(*OF_IDS, rows="".join(it)).out for it in (rows, reversed(rows))])

    def test_a_booking_may_be_cancelled_seat_by_seat(self) -> None:
        """On one day too; more than it has is no cancellation of it."""
        row = "3;void;2025-03-06 {}:00;2025-03-07;;Bonn;Cassel;Saver;1;-20,50 €\n"
        out, err, _ = self.read(*OF_IDS, "--net", rows=BOOKINGS + "".join(row.format(it) for it in (10, 11, 12, 13)))
        self.assertNotIn("demand,BON-CAS-SAVE,1,", out)
        self.want_in(err, "and as many seats, which don't count: 1, line 11\n")
        self.want_in(err, "bookings 6, of them cancelled 1, in rows of their own, of which 3 were paired; ")

    def test_a_cancellation_may_be_a_status(self) -> None:
        """By a text, by a word that is known in some language, by an amount below 0, or by the day of it."""
        heads = HEADS.replace("Status", "Ended")
        for text in ENDED:
            rows = BOOKINGS.replace("sold", "", 6).replace("1;;2025", f"1;{text};2025", 1)
            more = ["--cancels", "ended", *(["void"] if text == "void" else [])]
            for numbered in ([], ["--id", "No"]):
                out, err, _ = self.read(*more, *numbered, rows=rows, heads=heads)
                self.assertEqual(out.splitlines()[6:], DEMAND, err)
                self.want_in(out, "product,AAC-BON-FLEX,50,")
                self.want_in(err, "bookings 6, of them cancelled 1, by their own row; without --net `nrm-tools "
                             "simulate --cancel 0.1667` plays such seasons\n")

    def test_a_column_without_a_cancellation_is_refused(self) -> None:
        self.refused("no row is a cancellation by the column status, which has sold 6; name the texts that mean "
                     "one, --cancels status TEXT..", "--cancels", "status")
        self.refused("no row is a cancellation", "--cancels", "status", "void")

    def test_what_leaves_nothing_is_refused(self) -> None:
        void = BOOKINGS.replace("sold", "void")
        self.refused("no booking of the log stands", "--cancels", "Status", "void", "--net", rows=void)
        self.refused("has no booking: each row cancels one", *OF_IDS, rows=CANCELLED)
        self.refused("no request that counts departs up to 2025-03-01", "--until", "1.3.2025")
        self.refused("the log has no departure on a tue", "--weekday", "tue")

    def test_products_of_other_seasons_are_told(self) -> None:
        """They are in the network, without demand."""
        rows = BOOKINGS.replace("Aachen;Cassel;Flex;1;93", "Bonn;Cassel;Flex;1;93")
        out, err, _ = self.read("--until", "2025-03-07", rows=rows)
        self.want_in(out, "product,BON-CAS-FLEX,93,BON-CAS\n")
        self.assertNotIn("demand,BON-CAS-FLEX", out)
        self.want_in(err, "nobody asked for 1 of the products in these seasons: BON-CAS-FLEX\n")

    def test_what_was_cancelled_before_it_could_be_booked_is_refused(self) -> None:
        """A row of its own may be behind the departure, and a booking not."""
        rows = BOOKINGS.replace("1;sold;2025-03-01 10:00", "1;void;2025-03-08")
        self.refused("bookings that are cancelled were made after their departure, in line 2: fix or remove them",
                     "--cancels", "status", "void", rows=rows)

    def test_fares_of_what_was_cancelled_stand_in_where_nothing_stands(self) -> None:
        rows = BOOKINGS.replace("2;sold", "2;void").replace("5;sold", "5;void")
        out, err, _ = self.read("--cancels", "status", "void", rows=rows)
        self.want_in(out, "product,AAC-CAS-FLEX,91,")
        self.want_in(err, "products of which no booking stands, whose fares are those of cancelled bookings: 1, "
                     "Aachen - Cassel Flex\n")


class Twice(ExportTest):
    def test_what_is_there_twice_counts_once(self) -> None:
        """Of the same number and alike; what has a number twice and differs counts, and is told."""
        rows = BOOKINGS.splitlines(keepends=True)
        more = "".join([*rows, rows[1], rows[3].replace("Flex", "Saver"), rows[1]])
        out, err, _ = self.read("--id", "No", rows=more)
        self.want_in(out, "demand,AAC-CAS-FLEX,1,2,0\n")
        self.want_in(out, "demand,AAC-BON-SAVE,1,0,1\n")
        self.want_in(err, "rows that occur twice, which count once: 2, lines 8, 10\n")
        self.want_in(err, "rows with the number of another booking, which differ from it and count: 1, line 9\n")
        self.want_in(self.read(rows=more).out, "demand,AAC-CAS-FLEX,1,6,0\n")
        self.refused("line 3: it has nothing in No", "--id", "No", rows=BOOKINGS.replace("2;", ";", 1))


class LeftOut(ExportTest):
    FAULTS = ('Total;;;;;;;;9;\n7;"sold;2025-03-01;2025-03-07;;Aachen;Bonn;Flex;1;40,00 €\n'
              '8;sold;2025-03-09;2025-03-07;;A;B;Flex;1;1 €\n')
    TOLD = ["line 8: it has no day of departure\n",
            "line 9 can't be read: a quote is opened in it and isn't closed in it",
            "line 10: it was made on 2025-03-09, after its departure on 2025-03-07\n"]

    def test_leaves_out_as_many_rows_as_may_be(self) -> None:
        """Each is told with its line; if they are more, all are told and nothing is written."""
        out, err, _ = self.read("--leave-out", "3", rows=BOOKINGS + self.FAULTS)
        self.assertEqual(out, self.read().out)
        self.want_in(err, "rows read 8 of 10 lines; down to the headings 1, empty 0, open or broken quotes 1\n")
        for it in self.TOLD:
            self.want_in(err, f"nrm-tools log: left out: {it}")
        for most in ("2", "0"):
            err = self.refused("", "--leave-out", most, rows=BOOKINGS + self.FAULTS)
            for it in self.TOLD:
                self.want_in(err, f"\n    {it}")

    def test_a_total_at_the_foot_and_a_mark_at_the_head(self) -> None:
        """A mark of UTF-8 before a text in Windows-1252, with CRLF."""
        data = (HEADS + BOOKINGS + "Total;;;;;;;;9;\n").replace("Aachen", "Köln").replace("\n", "\r\n")
        path = self.file("export.csv", b"\xef\xbb\xbf" + data.encode("cp1252"))
        self.file("seats.csv", "Köln-Bonn,8\nBonn-Cassel,5\n".encode("cp1252"))
        words = [*COLUMNS, *STOPS, *FARES, "--seats-of", "seats.csv", "--id", "no", "--leave-out", "1"]
        self.assertEqual(self.told("log", path, *words).splitlines()[1], "leg,KOL-BON,8")


TWICE = """11;void;2025-03-01;2025-03-07;;Aachen;Bonn;Flex;2;80,00 €
12;void;2025-03-02;2025-03-07;;Bonn;Cassel;Saver;4;82,00 €
13;void;2025-03-03;2025-03-14;;Aachen;Cassel;Flex;1;93,00 €
11;void;2025-03-05;2025-03-07;;Aachen;Bonn;Flex;-2;-80,00 €
12;void;2025-03-05;2025-03-07;;Bonn;Cassel;Saver;-3;-61,50 €
"""  # three bookings that are cancelled by their own row, of which two have refunds in rows of their own
IN_ALL = 9 + 2 + 4 + 1  # seats of BOOKINGS and of these three


class ToldTwice(ExportTest):
    """A booking that is cancelled by its own row, whose refund stands in another one, was asked for once."""

    def seats(self, *words: str, rows: str) -> int:
        """The seats that count as demand."""
        made = [it.split(",") for it in self.read(*words, rows=rows).out.splitlines() if it.startswith("demand")]
        return sum(int(seats) for it in made for seats in it[3:])

    def test_what_was_cancelled_counts_once_in_the_demand(self) -> None:
        """Wherever the refunds stand; none of the seats is in what stands."""
        rows = TWICE.splitlines(keepends=True)
        for some in (TWICE, "".join(reversed(rows))):
            self.assertEqual(self.seats(*OF_IDS, rows=BOOKINGS + some), IN_ALL)
            self.assertEqual(self.seats(*OF_IDS, "--net", rows=BOOKINGS + some), 9)
        err = self.read(*OF_IDS, rows=BOOKINGS + TWICE).err
        self.want_in(err, "bookings 9, of them cancelled 3, by their own row (refunds that say so again 2, which don't "
                     "count); without --net `nrm-tools simulate --cancel 0.3333` plays such seasons\n")
        self.assertNotIn("cancellations without a booking", err)

    def test_it_is_as_if_the_refunds_were_left_out(self) -> None:
        """By a text that they alone have."""
        rows = BOOKINGS + TWICE.replace("void;2025-03-05", "refund;2025-03-05")
        out = self.read("--id", "No", "--cancels", "Status", "void", "refund", rows=rows).out
        self.assertEqual(out, self.read("--id", "No", "--cancels", "Status", "void", "--without", "Status", "refund",
                                        rows=rows).out)

    def test_the_stream_has_the_day_of_the_refund(self) -> None:
        """Three of the four seats of 12 were refunded on 5 March; on which day the fourth fell isn't said."""
        made = self.read(*OF_IDS, "--stream", "2025-03-07", rows=BOOKINGS + TWICE)
        self.assertEqual(sum(it.startswith("cancel ") for it in made.out.splitlines()), 3)
        self.want_in(made.err, "requests 7, cancellations 3\n")
        self.want_in(made.err, "cancellations whose day the export doesn't have: 1")

    def test_a_number_of_several_rows_is_taken_row_by_row(self) -> None:
        """Of one number a seat stands, and one of the same kind is cancelled by its own row and refunded."""
        more = """21;sold;2025-03-01;2025-03-07;;Aachen;Bonn;Flex;1;40,00 €
21;void;2025-03-01;2025-03-07;;Aachen;Bonn;Flex;1;40,00 €
21;void;2025-03-04;2025-03-07;;Aachen;Bonn;Flex;-1;-40,00 €
"""
        self.assertEqual(self.seats(*OF_IDS, rows=BOOKINGS + TWICE + more), IN_ALL + 2)
        self.assertEqual(self.seats(*OF_IDS, "--net", rows=BOOKINGS + TWICE + more), 9 + 1)

    def test_a_cancellation_and_its_refund_in_rows_of_their_own(self) -> None:
        """Beside their booking: it is cancelled once, and the second row is told."""
        more = """21;void;2025-03-04;2025-03-07;;Aachen;Bonn;Flex;1;40,00 €
21;void;2025-03-04;2025-03-07;;Aachen;Bonn;Flex;-1;-40,00 €
"""
        sold = "21;sold;2025-03-01;2025-03-07;;Aachen;Bonn;Flex;1;40,00 €\n"
        self.assertEqual(self.seats(*OF_IDS, rows=BOOKINGS + sold + more), 9 + 1)
        self.assertEqual(self.seats(*OF_IDS, "--net", rows=BOOKINGS + sold + more), 9)

    def test_where_no_refund_has_a_number_it_is_refused(self) -> None:
        """With what to say, by the texts if these differ; and what it says is right."""
        rows = BOOKINGS + TWICE.replace("\n11;void;2025-03-05", "\n91;refund;2025-03-05").replace(
            "\n12;void;2025-03-05", "\n92;refund;2025-03-05")
        words = ["--id", "No", "--cancels", "Status", "void", "refund"]
        says = ("3 rows cancel something, and have neither an amount below 0 nor a booking or refund of their number: "
                "lines 8, 9, 10. Others have seats or amounts below 0. If the 3 are bookings that are cancelled by "
                "their own row, leave out the refunds with --without COLUMN TEXT, by refund; if they cancel bookings that "
                "the export doesn't have, leave them out with --leave-out 3")
        self.refused(says, *words, rows=rows)
        self.assertEqual(self.seats(*words, "--without", "Status", "refund", rows=rows), IN_ALL)
        self.assertEqual(self.seats(*words, "--leave-out", "3", rows=rows), 9)
        self.refused("by a text that they alone have in some column", *words, rows=rows.replace("refund", "void"))
