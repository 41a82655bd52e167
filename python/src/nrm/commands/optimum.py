"""Compares EMSR-b with the optimum on one leg: the protection levels of each, and what each earns.

    nrm-tools optimum NETWORK LEG [--out FOLDER] [--names FILE] [--program WORD...]

The classes are the products whose only leg is LEG, 1 to 10 of them. They have all its authorised seats to themselves:
products of several legs have no part in this. The optimum is that of `nrm dp`. EMSR-b's protection levels are those of
`nrm plan davn` on a network of this leg and these classes alone, with a bucket for each fare. The tables have for each
class its fare, its mean demand in a history, and how many seats each method protects from it for the classes above.
Then come the mean revenue of a history by each method, the second one computed in exact fractions by the same model,
and its share of the optimum.

With --out FOLDER it also draws, as optimum.png and optimum.svg, the revenue over the number of seats, what each further
seat adds to it, which is the bid price of that seat, and the protection levels. This needs matplotlib (Debian's
python3-matplotlib).

WHAT THE NUMBERS MEAN. In the model the classes come one after the other, from the lowest fare to the highest. Each
class asks for what it asked for in one of the histories, all equally likely, whatever the other classes ask for. If
demand comes like this, no control earns more on average than the optimum. If it doesn't, the optimum is neither a bound
nor a forecast. If classes come in another order, the demand of a dear class may be known before the seats are gone, and
a control that uses this can earn more. If the demand of the classes rises and falls together, because some days are
busy for all, the same protection levels earn more or less than is printed here. EMSR-b itself reads the histories as
they are, with what the classes have in common. So the share says how close EMSR-b's rule comes on this leg in a plain
model. `nrm-tools replay` says what protection levels earn in your seasons, with the other legs and with new plans.
"""
from __future__ import annotations

from typing import Sequence

from nrm import said
from nrm.commands.running import asked_with_texts, lacking, parser, see_libraries
from nrm.legs.leg_classes import LegAlone, remarks, tables, verdict
from nrm.program import Program
from nrm.writing_files import Output


def run(given: Sequence[str]) -> int:
    """It prints the tables, and draws the pictures if they are asked for."""
    words = parser("optimum", __doc__)
    words.add_argument("network")
    words.add_argument("leg", metavar="LEG")
    words.add_argument("--out", metavar="FOLDER")
    asked, texts = asked_with_texts(words, given)
    if asked.out is not None:
        see_libraries("optimum", given, "matplotlib")
    leg = LegAlone(asked.network, asked.leg, Program.found(asked.program))
    emsr = leg.emsr()
    print(verdict(leg, emsr))
    for table in tables(leg, emsr):
        table.with_texts(texts).show()
    for remark in remarks(leg, emsr):
        print("\n" + remark)
    if asked.out is None or lacking("optimum", "matplotlib"):
        return 0
    from nrm.legs import leg_pictures as pictures
    from nrm.pages.figures import written
    print()
    with Output() as output:
        for path in written([("optimum", lambda: pictures.optimum(leg.classes, leg.optimal, emsr))], asked.out, output):
            print(said(path))
    return 0
