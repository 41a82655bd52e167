"""Plays one season in the three modes: its numbers as tables, four pictures of them, and a page with both.

    nrm-tools season NETWORK STREAM [--out FOLDER] [--leg LEG] [--decimal] [--names FILE]
                     [--program WORD...]

`nrm` answers the lines of STREAM on NETWORK under `first`, `bid` and `davn`. The output says in a sentence what each
mode earns, and what it was made of: the files, the day and the versions. Then come tables: the revenue of each mode
beside the bound of hindsight; what it withheld of cancelled bookings, if the refund of some product is below 100 per
cent; the bid prices of each leg, at the opening, at each line `reoptimise` and at the end; the seats of one leg, sold,
left and protected; and how many requests for each product were refused. The seats left are those of the authorised
seats. A table that has nothing but zeros is omitted, and named.

Tables go to standard output. Pictures go to FOLDER, by default the current one, each as PNG and as SVG, and are the
same each time. They need matplotlib (Debian's python3-matplotlib). Tables and pictures are in season.html too, a page
in one file without scripts; it needs jinja2 (python3-jinja2). If the Python that runs this lacks one of the two and
/usr/bin/python3 has both, the command of a checkout continues under that one, as `simulate` does. It reports what it
can't make, and prints the tables in any case. LEG is the leg whose seats are drawn, by default the one of which most
seats were asked for. With --decimal the tables have decimals instead of fractions, for a spreadsheet.

JOINED LEGS. If the list of --names says that a leg was joined at some stops, and the stream asks for more seats of it
than it has, the first sentence says that the amounts are of another train than the one that ran.

HOW REPLIES ARE TOLD APART. The command puts the lines `plan`, `leg LEG` for each leg, and `hindsight` into the stream:
before the first line, after each line `reoptimise K` of a period that the network has, and after the last line. None of
them changes the reply to another line. Each line has one reply, and each reply one line, but for two: the text of a
plan continues with lines that begin with `product`, `leg` and a fraction, `nest` or `protect`, and that of a leg with
lines that begin with `on`. So the command matches the replies to the lines in order, and removes those to its own.
"""
from __future__ import annotations

import os
from pathlib import Path
from typing import Iterator, Sequence

from nrm import bytes_in, make_folder, said
from nrm.commands.running import asked_with_texts, lacking, parser, see_libraries
from nrm.pages.heads import lines_of, made_of
from nrm.pages.tables import told_of
from nrm.program import Program
from nrm.seasons.season_course import Season, page, tables, verdict
from nrm.writing_files import Output

LIBRARIES = ("matplotlib", "jinja2")


def run(given: Sequence[str]) -> int:
    """It prints the tables of a season, and writes its pictures and its page."""
    words = parser("season", __doc__)
    words.add_argument("network")
    words.add_argument("stream")
    words.add_argument("--out", metavar="FOLDER", default=".")
    words.add_argument("--leg")
    words.add_argument("--decimal", action="store_true")
    asked, texts = asked_with_texts(words, given)
    see_libraries("season", given, *LIBRARIES)
    program = Program.found(asked.program)
    season = Season.played(asked.network, asked.stream, asked.leg, program, texts)
    told, left_out = told_of(it.with_texts(texts) for it in tables(season, asked.decimal))
    made = made_of({"network": {asked.network: bytes_in(asked.network)},
                    "stream": {asked.stream: bytes_in(asked.stream)}}, program)
    print(verdict(season), "", *lines_of(made), "", *left_out, *([""] if left_out else []), sep="\n")
    print("Each point of the season comes after a line of the stream:",
          *[f"{name} {number}" for number, name in season.stream.points],
          sep="\n  ")
    for table in told:
        table.show()
    missing = lacking("season", *LIBRARIES)
    with Output() as output:
        pictures = list(drawn(season, asked.out, output)) if "matplotlib" not in missing else []
        print(*([""] if pictures else []), *map(said, pictures), sep="\n")
        if "jinja2" not in missing:
            make_folder(asked.out)
            shown = {Path(it).stem: output.text(it) for it in pictures if it.endswith(".svg")}
            print(said(output.add(os.path.join(asked.out, "season.html"), page(season, made, told, left_out, shown))))
    return 0


def drawn(season: Season, folder: str, output: Output) -> Iterator[str]:
    """Draws the pictures, and gives the paths of their files."""
    from nrm.pages.figures import written
    from nrm.seasons.season_pictures import figures
    yield from written(figures(season), folder, output)
