"""From a log to the demand of a network file: the same whatever its form, seasons, periods and what is left out."""
from __future__ import annotations

import csv
import datetime
import itertools
import re
from collections import Counter

from harness import EXAMPLES, PlaceTest
from made import SECOND
from nrm.network import Network, text_of
from records.made_log import COLUMNS, CUT_ONCE, HEADS, MadeLog


class Demands(PlaceTest):
    def test_makes_the_network_of_the_example(self) -> None:
        log = EXAMPLES / "log"
        made = self.told("log", log / "requests.csv", *COLUMNS, "--cuts", "30,7", "--network", log / "rows.csv",
                         "--names", "names.csv")
        self.assertEqual(made, (log / "network.csv").read_text())
        self.assertEqual(self.nrm("print", self.file("made.csv", made)).splitlines()[0], "periods,3,3,2")
        self.want_in((self.folder / "names.csv").read_text(), "ZV-Q,ZV_Q\n")

    def test_reads_every_form_to_the_same_rows(self) -> None:
        log, cuts = MadeLog(7), [60, 30, 7]
        words = ["log.csv", *COLUMNS, "--cuts", "60,30,7"]
        self.file("log.csv", log.text("%Y-%m-%d"))
        first = self.told("log", *words, "--names", "names.csv")
        for form in ("%Y%m%d", "%Y-%m-%dT%H:%M:%S", "%Y/%m/%d", "%Y. %m. %d.", "%a %d.%m.%Y, %H:%M", "%d.%m.%Y %H.%M",
                     "%B %d, %Y %I:%M %p", "%Y-%m-%d-%H.%M.%S", "%d/%m/%Y %Hh%M", "%Y%m%d%H%M%S", "%d%b%y", "%d-%b-%Y"):
            self.file("log.csv", log.text(form))
            self.assertEqual(self.told("log", *words), first, form)
        points = log.text("%d.%m.%Y", ";")
        for text in (log.text("%d.%m.%Y", ";", "\r\n"), log.text("%d/%m/%Y %H:%M", "\t"), log.text("%m/%d/%Y", "|"),
                     log.text("%Y-%m-%d", above="Export of today\n\n,,,\n"), b"\xef\xbb\xbf" + points.encode(),
                     points.encode("utf-16"), log.text("%Y-%m-%d").encode("cp1252")):
            self.file("log.csv", text)
            self.assertEqual(self.told("log", *words), first, text[:200])
        with open(self.folder / "names.csv", encoding="utf-8") as file:
            names = {row[0]: row[1] for row in csv.reader(file)}
        found = Counter[tuple[str, int, int]]()
        for kind, product, history, *seats in csv.reader(first.splitlines()[1:]):
            found.update({(names[product], int(history), period): int(it) for period, it in enumerate(seats, 1)})
        self.assertEqual((first.splitlines()[0], +found), ("periods,5,4", +log.demand(cuts)))

    def test_goes_on_to_a_session(self) -> None:
        """From the rows that it makes, with legs and fares put between, to a network that the program takes."""
        log = self.file("log.csv", MadeLog(3).text("%Y-%m-%d"))
        rows = self.told("log", log, *COLUMNS, "--cuts", "14").splitlines()
        products = sorted({it.split(",")[1] for it in rows[1:]})
        fares = [f"product,{it},{100 + 50 * at},LH454" for at, it in enumerate(products)]
        path = self.file("network.csv", "\n".join([rows[0], "leg,LH454,40,200", *fares, *rows[1:], ""]))
        self.assertEqual(self.nrm("print", path).splitlines()[:2], ["periods,5,2,2", "leg,LH454,40,40,200"])
        self.assertEqual(self.nrm("run", "bid", path, given=f"book {products[-1]} 1\n".encode()), "ok 1\n")
        completed = self.told("log", "log.csv", *COLUMNS, "--cuts", "30,7", "--network", path)
        self.assertEqual((completed.splitlines()[0], completed.count("\nleg,")), ("periods,5,3", 1))

    def test_keeps_the_version_of_the_network(self) -> None:
        """And its authorised seats and refunds; a padded row of periods is of version 1."""
        log = self.file("log.csv", HEADS + "2025-03-01,2025-03-07,AB,2\n")
        words = [log, *COLUMNS, "--cuts", "3", "--network"]
        made = self.told("log", *words, self.file("second.csv", SECOND)).splitlines()
        kept = [it for it in SECOND.splitlines() if not it.startswith(("periods", "demand"))]
        self.assertEqual(made, ["periods,1,2,2", *kept, "demand,AB,1,2,0"])
        first = "periods,9,9,,\nleg,X,3\nproduct,AB,5,X\n"
        made = self.told("log", *words, self.file("first.csv", first)).splitlines()
        self.assertEqual(made[:2], ["periods,1,2", "leg,X,3"])

    def test_joins_columns_to_a_product(self) -> None:
        rows = "".join(f"2025-03-07,2025-03-0{it}\n" for it in ("1,LH 454,Y", "2,LH 454,", "6,LH 454,Y"))
        words = ["--departs", "day", "--booked", "made", "--product", "flight", "class", "--cuts", "3"]
        made = self.told("log", self.file("log.csv", "Day,Made,Flight,Class\n" + rows), *words)
        self.assertEqual(made, "periods,1,2\ndemand,LH-454,1,1,0\ndemand,LH-454-Y,1,1,1\n")

    def test_leaves_out_rows(self) -> None:
        """Those that were cancelled, as a column says, in a file that `grep` doesn't read."""
        heads = "Made;Day;Product;Seats;;State\r\n"
        rows = [("lh 1", "2", "booked"), ("Cancelled 7", "3", " CANCELLED "), ("lh 1", "5", "Void"),
                ("Cancelled 7", "1", "booked")]
        text = [f'2025-03-01 10:20;"2025-03-07";"{product}";{seats};;"{state}"\r\n' for product, seats, state in rows]
        words = ["--departs", "day", "--booked", "made", "--product", "product", "--seats", "seats", "--cuts", "3"]
        few = self.told("log", self.file("few.csv", heads + text[0] + text[3]), *words)
        log = self.file("log.csv", (heads + "".join(text)).encode("utf-16"))
        self.assertEqual(self.told("log", log, *words, "--without", "state", "cancelled", "VOID"), few)
        without = ["--without", "state", "cancelled", "--without", "seats", "5", "--without", "state", "x"]
        out, err, status = self.ran("log", log, *words, *without)
        self.assertEqual((out, status), (few, 0))
        for told in ("left out 1, with cancelled in state\n", "left out 1, with 5 in seats\n",
                     "left out 0, with x in state; the column has booked\n"):
            self.want_in(err, f"nrm-tools log: rows {told}")

    def test_goes_on_to_a_timetable_that_is_too_large(self) -> None:
        """A log of more products than a file takes, whose rows are completed and then cut."""
        made = [f"2025-03-0{1 + it % 7},2025-03-07,P{it},{1 + it % 3}\n" for it in range(300)]
        log = self.file("log.csv", HEADS + "".join(made))
        words = [log, *COLUMNS, "--cuts", "3"]
        out, err, status = self.ran("log", *words)
        self.assertEqual((out.count("\n"), status), (301, 0))
        self.want_in(err, "nrm-tools log: a network file takes at most 256 products: "
                          "once it has legs and fares, `nrm-tools split` splits it into files\n")
        self.assertEqual(re.findall("^product,.*", err, re.M), sorted(f"product,P{it}," for it in range(300)))
        rows = [["periods", 1, 1], *[["leg", f"L{it}", 9] for it in range(100)],
                *[["product", f"P{it}", 50 + it, f"L{it % 100}"] for it in range(300)]]
        path = self.file("timetable.csv", self.told("log", *words, "--network", self.file("rows.csv", text_of(rows))))
        self.told("split", path, "parts")
        parts = [str(it) for it in (self.folder / "parts").glob("part-*.csv")]
        demand = sum(it.demand_in_all() for path in parts for it in Network.read(path).products.values())
        self.assertEqual(demand, sum(1 + it % 3 for it in range(300)))
        self.assertEqual(len(parts), 100)

    def test_takes_the_latest_seasons(self) -> None:
        log = MadeLog(5, seasons=40)
        path = self.file("log.csv", log.text("%Y-%m-%d"))
        self.stopped("log", path, *CUT_ONCE,
                     says="40 days of departure, and a network file takes 32 histories: use --last 32")
        log.requests = [it for it in log.requests if it[0] in log.departures[-6:]]
        few = self.told("log", self.file("few.csv", log.text("%Y-%m-%d")), *CUT_ONCE)
        self.assertEqual(self.told("log", path, *CUT_ONCE, "--last", "6"), few)

    def test_takes_the_seasons_of_a_weekday(self) -> None:
        log = MadeLog(8, seasons=21)
        log.departures = [log.departures[0] + datetime.timedelta(it) for it in range(21)]
        log.requests = [(day, day - datetime.timedelta(it % 60), f"P{it % 3}", 1)
                        for it, day in enumerate(itertools.islice(itertools.cycle(log.departures), 500))]
        path = self.file("log.csv", log.text("%Y-%m-%d"))
        log.requests = [it for it in log.requests if it[0].strftime("%a") == "Tue"]
        tuesdays = self.told("log", self.file("few.csv", log.text("%Y-%m-%d")), *CUT_ONCE)
        self.assertEqual(tuesdays.splitlines()[0], "periods,3,2")
        self.assertEqual(self.told("log", path, *CUT_ONCE, "--weekday", "tue"), tuesdays)
        self.stopped("log", "few.csv", *CUT_ONCE, "--weekday", "fri", says="the log has no departure on a fri")
