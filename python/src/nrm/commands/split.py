"""Splits a timetable that is too large for one network file into files where no product connects its legs.

    nrm-tools split TIMETABLE FOLDER [--leave-out LIST]

TIMETABLE is written like a network file, but may have any number of legs and products. Legs that a product joins belong
together, and so do those that products join to them in turn: what is sold in such a part is worth the same whatever
happens in another. Each part becomes a file of its own, FOLDER/part-1.csv and so on in the order of their first legs,
with its products, their refunds and demand, and the row of periods; it has the version of TIMETABLE. FOLDER/parts.csv
says for each product which file it is in, so that a request goes to the right session. The output says how many
products the files have, and then describes each part in a line. A leg without a product is in no file, and is named; so
is a part of an earlier run that is still in the folder.

A part with more than 64 legs or 256 products isn't written. It is described too, with its legs and with the products
without any one of which it would fall apart, and the status is 1. The output also proposes which products to leave out
so that files take the rest: those whose worth, the seats asked for in all histories times the fare, is least in all. It
lists them, the cheapest first, with their shares of the worth of the whole timetable. FOLDER/left-out.csv has all of
them, with their legs and what was asked for in a season. Products of more than four legs are named, and the status is 1
then too.

With --leave-out LIST the products in the first fields of LIST, which may be that file or an edited one, are left out.
FOLDER/parts.csv has no file for them, and you have to sell them otherwise, such as by hand on seats that are held back.
Without them a season of plans is worth less by at most the worth of what was asked for of them.

WHAT IS TRIED. Legs are put into an order: that of TIMETABLE, and from each leg, or from as many as there is time for,
the one in which each leg has most in common with those before it. Each order is cut into files in the best way. So if
the legs of one line are in their order in TIMETABLE, no cheaper products can be left out; elsewhere you may find
something cheaper by hand.
"""
from __future__ import annotations

from typing import Sequence

from nrm.commands.running import parser
from nrm.network import Network
from nrm.records.timetable_cutting import Cut, names_in
from nrm.writing_files import Output


def run(given: Sequence[str]) -> int:
    """Cuts a timetable into the files of a folder."""
    words = parser("split", __doc__)
    words.add_argument("timetable")
    words.add_argument("folder")
    words.add_argument("--leave-out", metavar="LIST")
    asked = words.parse_args(given)
    with Output() as output:
        without = names_in(asked.leave_out) if asked.leave_out else ()
        cut = Cut(Network.read(asked.timetable), asked.folder, output, without)
        told = list(cut.write())
        print(cut.verdict(asked.timetable), "", *told, sep="\n")
    return 0 if cut.is_whole else 1
