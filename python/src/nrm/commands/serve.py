"""Serves many desks at the networks of a journal: each line is in the journal before its reply is sent.

    nrm-tools serve JOURNAL [--socket PATH] [--listen HOST:PORT] [OPTION...]

`nrm-tools journal` begins JOURNAL and opens networks in it: it is a file, or a URI of PostgreSQL as below. Clients
connect to the Unix socket PATH, whose mode is 0600 or that of --mode, or to HOST:PORT, which must be in this machine's
loopback range unless --beyond-this-machine is given: anyone who can reach it can book. For each network the server
starts an `nrm_desks` at its first client, sends it the lines of the journal again, and ends it when it has had no
client for as long as --linger says. What a client sends goes to that program at once. What the program hands out to be
kept is written into the journal, in one commit for all networks that wait; then the program sends its replies. If there
are several networks, the first line of a client must name one, `desk NETWORK NAME` or `desk NETWORK NAME SEQUENCE`; if
there is one, it may.

With --desks a file says which desks may come, by which token, and what each may do: `nrm-tools token` writes it. A
client's first line `token TOKEN` is answered `token NAME`, or `closed token`; on HOST:PORT it is required, and on PATH
it is optional. HOST:PORT then needs --certificate and --key, with which it takes TLS alone. When these files change
they are read again, and a desk whose entry is gone or has changed is cut off.

If the journal has the times of a network, the desk CLOCK makes a plan for it when a period begins, once. With --every,
at least 60 seconds, or minutes such as 30m, or hours such as 2h, it makes another plan when that time has passed since
the last one and lines were written, until the departure.

A network is halted, while the others continue, if the program doesn't answer as the journal has it, or if the journal
doesn't take a row: `nrm-tools journal look JOURNAL` says why. A network that began with another program isn't answered,
and the log has both checksums. --program names the program, and lets it answer for networks without lines, and for
those that have ended. A second server at the same journal is refused while the first one lives.

If JOURNAL is postgresql://HOST:PORT[,HOST:PORT...]/DATABASE, several servers share its networks. Each owns some of
them, chosen by their names and its own, which --name says; if a server is lost, others take over its networks. A client
can connect to any server: it is passed on to the owner of its network, or with --send-on it gets `closed moved
HOST:PORT`, which is --listen there, or --address. --followers says for how many networks a server follows the lines
that others write, so that it could take over at once. Without --alone no server takes a database that waits for no
standby. After SIGTERM others take its networks first. `closed wait` means that no server owns the network at the
moment.

A client that is cut off gets one line, `closed WHY`, after the replies to those of its lines that were taken: `closed
clients` if there are as many as may be, `closed network` if it names none that the journal has, `closed halted`,
`closed version` if the network began with another program, `closed half` if the end of a line doesn't come, `closed
idle` if nothing does, `closed journal` if the journal can't be written, `closed token` if it may not come, `closed
status` if it asked for that and then something else, `closed stopping` when the server stops, `closed program STATUS`
when the network's program has ended, and what the program itself says. A client that doesn't take its replies can't get
this line.

The log goes to standard error, an event in each line: `key=value`, objects with --log json, and with --log systemd the
level before each line as the journal of systemd takes it. --log-level sets the least level. What happens more than once
a second is counted. A client whose first line is `status` gets what the server has counted, as `nrm-tools status`
prints it, and may ask again.

SIGTERM, SIGINT and SIGHUP stop it: it takes no more lines, and answers those that it has taken. The status is 0, 74 if
the journal couldn't be written or its files are gone, 78 if a later start has its name, 1 if it couldn't start or
another server has taken the journal, and 2 for a usage error.
"""
from __future__ import annotations

from typing import Sequence

from nrm.commands.running import parser
from nrm.commands.serve_words import (add_clock, add_guard, add_limits, add_log, add_places, add_sharing, guard_in,
                                      limits_in, places_in, sharing_in)
from nrm.journal.choosing_store import store_of
from nrm.program import Program
from nrm.server.event_log import LogForm
from nrm.server.programs import Answering
from nrm.server.serving import Server


def run(given: Sequence[str]) -> int:
    """Serves until it is told to end, and gives the status."""
    words = parser("serve", __doc__)
    words.add_argument("journal", metavar="JOURNAL")
    add_places(words)
    add_guard(words)
    add_limits(words)
    add_clock(words)
    add_log(words)
    add_sharing(words)
    asked = words.parse_args(given)
    places, guard, limits = places_in(words, asked), guard_in(words, asked), limits_in(words, asked)
    log = LogForm(asked.log, asked.log_level)
    store = store_of(asked.journal, asked.alone)
    sharing = sharing_in(words, asked, store.is_shared)
    program = Program.found(asked.program, "nrm_desks")
    answering = Answering(program, program.checksum(), bool(asked.program))
    return Server(store, answering, places, limits, guard, asked.every, log, sharing).run()
