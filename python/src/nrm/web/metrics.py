"""What a monitor is told: whether all is well, in a line, and what there is to count, as Prometheus reads it.

What is counted by network comes from the journal, and the rest from the line `status`. The text is written by Debian's
python3-prometheus-client.
"""
from __future__ import annotations

from dataclasses import dataclass
from datetime import datetime, timezone
from math import isinf
from typing import Any, Iterator, Sequence, cast

from nrm.libraries import is_there, lacks
from nrm.server.status_text import NoStatus, Status
from nrm.web.followed_journal import Followed, Following
from nrm.web.messages import HttpRefusal, HttpRequest, HttpResponse, text_of
from nrm.web.recent_status import RecentStatus

LIBRARY = "prometheus_client"
MOST_NAMED = 20  # networks in a sentence
STARTED = "%Y-%m-%dT%H:%M:%S.%fZ"


@dataclass(frozen=True)
class Watch:
    """The journal, and the server's status."""
    following: Following
    asked: RecentStatus

    def health(self, asked: HttpRequest) -> HttpResponse:
        """`ok`, or what is wrong."""
        status = self.asked.status()
        wrong = "; ".join(what_is_wrong(self.following, status))
        return text_of(wrong or "ok", 503 if wrong else 200)

    def metrics(self, asked: HttpRequest) -> HttpResponse:
        """All that is counted."""
        if not is_there(LIBRARY):
            raise HttpRefusal(501, "library", f"there are no metrics, since {lacks([LIBRARY])}")
        import prometheus_client as client
        registry = client.CollectorRegistry()
        registry.register(cast(Any, self))
        return HttpResponse(client.generate_latest(registry), client.CONTENT_TYPE_LATEST)

    def describe(self) -> list[Any]:
        """What the library would ask for before anything is counted."""
        return []

    def collect(self) -> Iterator[Any]:
        """What is counted, for the library."""
        status = self.asked.status()
        is_up = not isinstance(status, NoStatus)
        yield gauge("nrm_server_up", "Whether the server answers the line `status`", int(is_up))
        yield gauge("nrm_journal_read", "Whether the journal can be read", int(self.following.fault is None))
        yield from of_networks(list(self.following.networks.values()))
        if isinstance(status, Status):
            yield from of_server(status)
            yield from of_commits(status)
            yield from of_clients(status)
            yield from of_fleet(status)


def what_is_wrong(following: Following, status: Status | NoStatus) -> Iterator[str]:
    """What is wrong, a sentence each."""
    if isinstance(status, NoStatus):
        yield str(status)
    elif status.server.stopping:
        yield "the server is to end"
    if following.fault:
        yield following.fault
    seen = following.networks
    told = () if isinstance(status, NoStatus) else status.networks
    halted = sorted({it.name for it in seen.values() if it.halted} | {it.network for it in told if it.halted})
    if halted:
        yield f"halted: {named(halted)}"
    if unfit := [] if isinstance(status, NoStatus) else status.unfit():
        yield f"nobody answers, since the server has another program than these began with: {named(unfit)}"
    yield from (f"{it.name}: {it.fault}" for it in seen.values() if it.fault)


def named(names: Sequence[str]) -> str:
    """Some names of networks, as many as a sentence takes."""
    more = f" and {len(names) - MOST_NAMED} more" if len(names) > MOST_NAMED else ""
    return f"{', '.join(names[:MOST_NAMED])}{more}"


# The families of what is counted


def family(kind: str, name: str, told: str, labels: tuple[str, ...]) -> Any:
    """A family of a kind with labels."""
    from prometheus_client import core
    return getattr(core, f"{kind}MetricFamily")(name, told, labels=labels)


def gauge(name: str, told: str, value: float) -> Any:
    """What is now."""
    made = family("Gauge", name, told, ())
    made.add_metric([], value)
    return made


def counter(name: str, told: str, value: float) -> Any:
    """What was counted since the server began."""
    made = family("Counter", name, told, ())
    made.add_metric([], value)
    return made


def of_networks(networks: list[Followed]) -> Iterator[Any]:
    """What the journal tells of each network."""
    lines = family("Counter", "nrm_lines", "Lines of the journal by their replies",
                   ("network", "kind", "answer"))
    left = family("Gauge", "nrm_seats_left", "Authorised seats that aren't sold", ("network", "leg"))
    authorised = family("Gauge", "nrm_seats_authorised", "Seats that may be sold", ("network", "leg"))
    rows = family("Gauge", "nrm_journal_lines", "Lines of a network in the journal", ("network",))
    halted = family("Gauge", "nrm_network_halted", "Whether nobody answers for a network", ("network",))
    revenue = family("Gauge", "nrm_revenue", "What the bookings that stand earn, in currency units", ("network",))
    withheld = family("Gauge", "nrm_withheld", "What was retained of those that were cancelled", ("network",))
    for it in networks:
        for (kind, answer), count in sorted(it.seen.answers.items()):
            lines.add_metric([it.name, kind, answer], count)
        for leg in it.seen.legs:
            left.add_metric([it.name, leg.name], leg.left)
            authorised.add_metric([it.name, leg.name], leg.authorised)
        rows.add_metric([it.name], it.lines)
        halted.add_metric([it.name], int(it.halted is not None))
        revenue.add_metric([it.name], it.seen.revenue)
        withheld.add_metric([it.name], it.seen.withheld)
    yield from (lines, left, authorised, rows, halted, revenue, withheld)


def of_server(status: Status) -> Iterator[Any]:
    """What the server tells of itself and its programs."""
    from prometheus_client.core import InfoMetricFamily
    server, programs = status.server, status.programs
    yield InfoMetricFamily("nrm_server", "The server and its program", value={
        "version": server.version, "program": server.program, "epoch": str(server.epoch)})
    yield gauge("nrm_server_start_time_seconds", "When the server started, in seconds since 1970",
                datetime.strptime(server.started, STARTED).replace(tzinfo=timezone.utc).timestamp())
    yield gauge("nrm_journal_bytes", "The size of the journal", server.journal_bytes)
    yield counter("nrm_time_jumps", "Jumps of the machine's clock since the server started", server.time_jumps)
    yield gauge("nrm_programs", "Programs that answer now", programs.now)
    yield counter("nrm_programs_begun", "Programs that were started", programs.begun)
    memory = family("Counter", "nrm_memory_replies", "Replies `memory`, for which there was too little of it",
                    ("network",))
    answered = family("Gauge", "nrm_network_answered", "Whether the server may answer for a network: it isn't halted, "
                      "and began with the server's program or has ended", ("network",))
    unfit = set(status.unfit())
    for it in status.networks:
        memory.add_metric([it.network], it.memory)
        answered.add_metric([it.network], int(not it.halted and it.network not in unfit))
    yield from (memory, answered)


def of_commits(status: Status) -> Iterator[Any]:
    """What the server tells of its writing."""
    from prometheus_client.core import HistogramMetricFamily
    commits = status.commits
    buckets = [("+Inf" if isinf(bound) else f"{bound:g}", float(count)) for bound, count in status.commit_times]
    if buckets:
        yield HistogramMetricFamily("nrm_commit_seconds", "The seconds that commits took", buckets=buckets,
                                    sum_value=commits.seconds)
    yield gauge("nrm_commit_longest_seconds", "The longest commit", commits.longest)
    yield counter("nrm_rows_written", "Rows that were written", commits.rows)
    yield gauge("nrm_rows_waiting", "Rows that are given out and not yet written", commits.waiting)
    yield counter("nrm_commits_failed", "Commits that failed", commits.failed)


def of_clients(status: Status) -> Iterator[Any]:
    """What the server tells of who is connected and who was closed."""
    clients = status.clients
    yield gauge("nrm_desks_connected", "Clients that are connected", clients.now)
    yield gauge("nrm_desks_most", "The most clients that may be connected", clients.most)
    yield counter("nrm_clients", "Clients that came", clients.ever)
    yield counter("nrm_clients_turned_away", "Clients that were turned away because there were too many",
                  clients.turned_away)
    yield counter("nrm_clients_unread", "Clients that didn't take their replies", clients.unread)
    closed = family("Counter", "nrm_clients_closed", "Clients that were cut off", ("reason",))
    for reason, count in sorted(status.closed.items()):
        closed.add_metric([reason], count)
    yield closed


def of_fleet(status: Status) -> Iterator[Any]:
    """What a server tells of itself among several that share the journal; nothing where it has it alone."""
    if not status.fleet:
        return
    fleet = status.fleet
    yield gauge("nrm_fleet_servers", "Servers that this one sees, with itself", fleet.servers)
    yield gauge("nrm_networks_owned", "Networks that this server owns", fleet.owned)
    yield gauge("nrm_networks_followed", "Networks that this server follows", fleet.followed)
    yield counter("nrm_networks_taken", "Networks that this server took", fleet.taken)
    yield counter("nrm_networks_lost", "Networks that other servers took from it", fleet.lost)
    yield counter("nrm_clients_passed", "Clients that were passed on to other servers", fleet.passed)
    owner = family("Gauge", "nrm_network_owner", "1 for the server that owns a network", ("network", "owner"))
    for it in status.shares:
        owner.add_metric([it.network, it.owner], 1)
    yield owner
