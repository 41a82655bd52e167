"""Health and metrics: what is wrong is told in a line, and the text is what Prometheus reads."""
from __future__ import annotations

import re
import shutil
import socket
import subprocess
from typing import Mapping

from harness import TOP, needs, wait_for
from nrm.journal.sqlite_tables import using
from nrm.server.status_text import Status, status_of
from nrm.web.recent_status import RecentStatus
from server.serves import ONE
from web.webs import STATUS, WebTest, until_read

ALERTS = TOP / "examples" / "operating" / "alerts.yml"


def samples(text: str) -> Mapping[tuple[str, Mapping[str, str]], float]:
    """The samples of a text, by the name and the labels, as the library reads them."""
    from prometheus_client.parser import text_string_to_metric_families
    return {(it.name, frozenset(it.labels.items())): it.value  # type: ignore[misc]
            for family in text_string_to_metric_families(text) for it in family.samples}


class HealthTest(WebTest):
    def test_what_is_wrong_is_told_in_a_line(self) -> None:
        told = [STATUS]
        journal = self.journal("hub", "other", file=ONE.encode())
        with self.stub(lambda _: told[-1]) as place, self.web(journal, place) as web:
            web.web.watch.asked.every = 0
            self.assertEqual(web.get("/healthz")[:2], (200, "ok\n"))
            for status, wanted in (
                    (STATUS.replace("stopping no", "stopping yes"), "the server is to end\n"),
                    (STATUS.replace("halted no", "halted yes"), "halted: hub\n"),
                    (STATUS.replace("state answers", "state version"), "nobody answers, since the server has another "
                                                                       "program than these began with: hub\n"),
                    ("server a\n\n", "no pairs: 'a'\n")):
                told.append(status)
                self.assertEqual(web.get("/healthz")[:2], (503, wanted))
            told.append(STATUS)
            with using(str(journal), is_to_write=True) as connection:
                connection.execute("UPDATE network SET halted = 'row 1 is missing' WHERE name = 'other'")
            self.write(journal, [("book LOC 1", "ok 2")])
            wait_for(lambda: web.web.following.networks["hub"].fault, "the strange row")
            self.assertEqual(web.get("/healthz")[:2], (503, "halted: other; hub: row 1, `book LOC 1` with the reply "
                                                            "`ok 2`, isn't one that a server writes\n"))

    def test_a_server_that_is_gone(self) -> None:
        with self.web(self.journal(), self.folder / "none") as web:
            self.assertEqual(web.get("/healthz")[:2],
                             (503, f"no status of {self.folder / 'none'}: No such file or directory\n"))

    def test_a_server_that_says_nothing(self) -> None:
        with self.stub(lambda _: "") as place, self.web(self.journal(), place, seconds=0.2) as web:
            self.assertEqual(web.get("/healthz")[:2], (503, f"no status of {place}: timed out\n"))

    def test_the_server_is_asked_once_a_second(self) -> None:
        count = [0]

        def ask() -> Status:
            count[0] += 1
            return status_of(STATUS)
        asked = RecentStatus(ask)
        asked.status()
        asked.status()
        self.assertEqual(count, [1])
        asked.at -= 1
        asked.status()
        self.assertEqual(count, [2])


class MetricsTest(WebTest):
    @needs("prometheus_client")
    def test_what_is_counted(self) -> None:
        journal = self.journal("hub", file=ONE.encode())
        self.write(journal, [("book LOC 2", "ok 1"), ("book LOC 300", "no AB"), ("book LOC 299", "no AB"),
                             ("cancel 1", "cancelled 1 300"), ("book LOC 1", "ok 2")])
        with self.stub(lambda _: STATUS) as place, self.web(journal, place) as web:
            until_read(web, "hub", 5)
            told = web.get("/metrics")
            self.assertTrue(told.head["content-type"].startswith("text/plain; version="))
        found = samples(told.text)

        def value(name: str, **labels: str) -> float:
            return found[name, frozenset(labels.items())]  # type: ignore[index]
        self.assertEqual(value("nrm_lines_total", network="hub", kind="book", answer="sold"), 2)
        self.assertEqual(value("nrm_lines_total", network="hub", kind="book", answer="no leg"), 2)
        self.assertEqual(value("nrm_lines_total", network="hub", kind="cancel", answer="cancelled"), 1)
        self.assertEqual(value("nrm_seats_left", network="hub", leg="AB"), 299)
        self.assertEqual((value("nrm_revenue", network="hub"), value("nrm_withheld", network="hub")), (200, 100))
        self.assertEqual(value("nrm_journal_lines", network="hub"), 5)
        self.assertEqual([value("nrm_commit_seconds_bucket", le=it) for it in ("0.001", "0.5", "+Inf")],
                         [400, 811, 812])
        self.assertEqual((value("nrm_commit_seconds_sum"), value("nrm_commit_seconds_count")), (1.93, 812))
        self.assertEqual(value("nrm_server_start_time_seconds"), 1796117400.123)
        self.assertEqual(value("nrm_server_info", version="2.1.0", program="ab12", epoch="3"), 1)
        self.assertEqual(value("nrm_clients_closed_total", reason="program-137"), 4)
        self.assertEqual(value("nrm_memory_replies_total", network="hub"), 6)
        self.assertEqual(value("nrm_network_answered", network="hub"), 1)
        self.assertEqual([value(it) for it in (
            "nrm_server_up", "nrm_rows_waiting", "nrm_rows_written_total", "nrm_desks_connected",
            "nrm_clients_turned_away_total", "nrm_commits_failed_total", "nrm_clients_unread_total",
            "nrm_time_jumps_total")],
            [1, 3, 9000, 12, 7, 1, 2, 5])

    @needs("prometheus_client", "jinja2")
    def test_that_the_server_has_another_program(self) -> None:
        """Is told by health, metrics and both pages."""
        status = STATUS.replace("state answers", "state version")
        with self.stub(lambda _: status) as place, self.web(self.journal("hub", file=ONE.encode()), place) as web:
            until_read(web, "hub", 0)
            self.assertEqual(web.get("/healthz").status, 503)
            answered = "nrm_network_answered", frozenset({("network", "hub")})
            self.assertEqual(samples(web.get("/metrics").text)[answered], 0)  # type: ignore[index]
            for path in "/", "/networks/hub":
                wait_for(lambda: "Nobody answers for it, since the server has another program" in web.get(path).text,
                         f"what {path} says")

    @needs("prometheus_client")
    def test_without_the_server_what_the_journal_tells(self) -> None:
        with self.web(self.journal("hub", file=ONE.encode())) as web:
            until_read(web, "hub", 0)
            found = samples(web.get("/metrics").text)
        self.assertEqual(found["nrm_server_up", frozenset()], 0)  # type: ignore[index]
        left = found["nrm_seats_left", frozenset({("network", "hub"), ("leg", "AB")})]  # type: ignore[index]
        self.assertEqual(left, 300)
        self.assertNotIn("nrm_rows_waiting", {name for name, _ in found})

    def test_where_the_library_isnt_there(self) -> None:
        process = self.process("web", self.journal(), "--socket", "none", "--listen", "127.0.0.1:0", "--page",
                               env=self.blind("prometheus_client", "jinja2"), stderr=subprocess.PIPE)
        assert process.stderr
        with process.stderr:
            port = int(process.stderr.readline().split(b":")[-1])
            for path, package in (("/metrics", b"python3-prometheus-client"), ("/", b"python3-jinja2"),
                                  ("/networks/hub", b"python3-jinja2"), ("/networks/hub/events", b"python3-jinja2")):
                with socket.create_connection(("127.0.0.1", port)) as connection:
                    connection.sendall(b"GET %s HTTP/1.0\r\nHost: localhost\r\n\r\n" % path.encode())
                    told = connection.makefile("rb").read()
                self.assertIn(b" 501 ", told.splitlines()[0])
                self.assertIn(package, told)
            process.terminate()
            self.assertEqual(process.wait(), 0)


class AlertsTest(WebTest):
    @needs("prometheus_client")
    def test_alerts_name_metrics_that_are_there(self) -> None:
        with self.stub(lambda _: STATUS) as place, self.web(self.journal("hub", file=ONE.encode()), place) as web:
            until_read(web, "hub", 0)
            self.write(self.folder / "journal", [("book LOC 1", "ok 1")])
            until_read(web, "hub", 1)
            there = {name for name, _ in samples(web.get("/metrics").text)}
        named = set(re.findall(r"\bnrm_\w+", " ".join(re.findall(r"expr: (.*)", ALERTS.read_text()))))
        self.assertEqual((named - there, len(named) >= 5), (set(), True))

    def test_alerts_are_rules(self) -> None:
        if not shutil.which("promtool"):
            self.skipTest("there is no promtool (Debian has prometheus)")
        told = self.finished("promtool", "check", "rules", ALERTS)
        self.assertEqual((told.status, "SUCCESS: 5 rules found" in told.out + told.err), (0, True))
