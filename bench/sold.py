"""Makes the log of an airline or a railway: bookings, closures, and beside them the requests that it wouldn't have.

    bench/sold.py NETWORK FOLDER [--departures N] [--mode MODE] [--demand KIND] [--scale X] [--down P] [--again P]
                  [--seed S] [--opens DAYS] [--cuts DAYS,DAYS..] [--program WORD...]

The departures are Fridays, with demand about that of NETWORK, sold under a plan that is made of as many others of
which all requests are known. KIND is poisson, factor or rough: bench/departures.py says what they are. Into FOLDER go
bookings.csv, closures.csv, requests.csv, and truth.csv with the mean demand of each product. The cuts are to be those
of the periods of NETWORK.
"""
import csv
import datetime
import itertools
import os
import random

from departures import Board, Clock, Demand, add_departures, counted
from nrm import make_folder
from nrm.commands.running import parser
from nrm.network import Network, whole
from nrm.program import Program
from running import NAME, end

FIRST = datetime.datetime(2025, 3, 7)
HEADS = ["Booked on", "Departure", "Product", "Seats"]


def words_given():
    words = parser(NAME, __doc__)
    add_departures(words)
    words.add_argument("folder")
    words.add_argument("--opens", type=whole, default=90)
    return words.parse_args()


def moment(departure, days):
    """A moment of a departure, in days about its day."""
    return FIRST + datetime.timedelta(days=7 * departure + days)


def rows_of(clock, departure, periods):
    """The rows of a log for requests of a departure."""
    for number, requests in enumerate(periods):
        for time, name in requests:
            made = moment(departure, clock.moment((number, time)))
            yield [f"{made:%Y-%m-%d}", f"{moment(departure, 0):%Y-%m-%d}", name, 1]


def closures_of(clock, departure, closed):
    """The rows of a file of closures for those of a departure."""
    for name, since, until in closed:
        begins, ends = (f"{moment(departure, clock.moment(it)):%Y-%m-%d %H:%M}" if it else "" for it in (since, until))
        yield [f"{moment(departure, 0):%Y-%m-%d}", name, begins, ends]


def write(folder, name, heads, rows):
    with open(os.path.join(folder, name), "w", newline="", encoding="ascii") as file:
        csv.writer(file, lineterminator="\n").writerows([heads, *rows])


def main():
    given = words_given()
    network, draw = Network.read(given.network), random.Random(given.seed)
    demand, clock = Demand(network, given), Clock(network, given.cuts, given.opens)
    make_folder(given.folder)
    board = Board(network, Program.found(given.program), given.mode, given.folder)
    board.plan_by([counted(network, demand.departure(draw)) for _ in range(given.departures)])
    bookings, requests, closures = [], [], []
    for departure in range(given.departures):
        sale = board.sell(demand.departure(draw))
        requests += rows_of(clock, departure, sale.asked)
        bookings += rows_of(clock, departure, map(list, map(itertools.compress, sale.asked, sale.sold)))
        closures += closures_of(clock, departure, sale.closures())
    write(given.folder, "bookings.csv", HEADS, sorted(bookings))
    write(given.folder, "requests.csv", HEADS, sorted(requests))
    write(given.folder, "closures.csv", ["Departure", "Product", "Closed from", "Closed to"], sorted(closures))
    means = [[name, f"{sum(by_period):.3f}"] for name, by_period in demand.means.items()]
    write(given.folder, "truth.csv", ["product", "mean demand"], means)
    print(f"departures {given.departures}, requests {len(requests)}, bookings {len(bookings)}, closures "
          f"{len(closures)}")


if __name__ == "__main__":
    end(main)
