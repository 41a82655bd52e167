"""Writes the linear program of a network for another solver, and a certificate of what that solver found.

    nrm-tools lp NETWORK [--solution FILE]

Without --solution it writes the program in the LP format of CPLEX. With it, it writes the certificate of the solution
that `glpsol -w` or `esolver -O` (of QSopt_ex) wrote into FILE, for `nrm check` and `nrm-tools audit`:

    nrm-tools lp NETWORK > PROGRAM.lp
    glpsol --exact --lp PROGRAM.lp -w SOLUTION        or    esolver -O SOLUTION PROGRAM.lp
    nrm-tools lp NETWORK --solution SOLUTION > CERTIFICATE

The program is that of period 1 with every authorised seat left, which `nrm plan bid` solves and with which `nrm check`
compares. It is for all `N` histories together, so that each number in it is whole: a leg gives `N` times its authorised
seats, which in a file of version 1 are its seats, and a product takes at most its demand in all histories. So its value
is `N` times the plan's `value`, which is the mean of a history; its seats are `N` times the plan's; and its marginals
of the legs are the bid prices. Names may have characters that the format doesn't allow, so products are `p1`, `p2` and
so on, and legs `l1`, `l2`, in the order of the file; a comment says the name of each.

`esolver` writes fractions, `glpsol` decimals. Each decimal becomes the simplest fraction that it can stand for, so
0.333333333333333 becomes 1/3; the check, which is exact, says whether these are the right ones. The value is what the
seats earn at the fares, and must equal the solver's. A leg without a product isn't in the program, and its price is 0.
"""
from __future__ import annotations

from typing import Sequence

from nrm import bytes_in
from nrm.commands.running import parser
from nrm.network import Network
from nrm.records.solver_files import Solution, certificate, linear_program


def run(given: Sequence[str]) -> int:
    """Writes the program, or the certificate of a solution."""
    words = parser("lp", __doc__)
    words.add_argument("network")
    words.add_argument("--solution", metavar="FILE", help="the solution that `glpsol -w` or `esolver -O` wrote")
    asked = words.parse_args(given)
    network = Network.read(asked.network)
    if asked.solution is None:
        print(*linear_program(network), sep="\n")
        return 0
    solution = Solution.of(network, asked.solution, bytes_in(asked.solution).decode("ascii", "replace"))
    print(*certificate(network, solution), sep="\n")
    return 0
