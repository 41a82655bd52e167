"""What stands beside a fleet as it does beside one server: the page with its door, and the account of a line."""
from __future__ import annotations

import html
import os
import subprocess
import sys
from unittest import mock

from fleet.standing import Fleet, FleetTest, asked
from harness import SOURCES, needs, wait_for
from server.serves import Server
from web.webs import Running, WebTest

SECRET = "hush"
ALONE = """SET synchronous_commit = local; UPDATE head SET lines = 2;
           INSERT INTO line (number, sequence, at, network, epoch, desk, line, reply)
           SELECT 2, 9, 0, network, epoch, 'D9', 'book LOC 7', 'ok 2' FROM head"""


def sold(web: Running) -> int:
    """The seats that the page of the network says are sold."""
    return int(web.get("/networks/net").text.split(" of 300 seats")[0].split()[-1].rpartition(">")[2])


class Beside(FleetTest, WebTest):
    """A fleet with one network, whose database wants no password, and is asked with one."""

    def setUp(self) -> None:
        """The programs of the tests are on the path, where commands find them."""
        super().setUp()
        for name, program in (("nrm", self.program), ("nrm_why", self.why_program), ("nrm_desks", self.desks_program)):
            os.chmod(self.file(name, f'#!/bin/sh\nexec {" ".join(program.words)} "$@"\n'), 0o755)
        path = f"{self.folder}:{SOURCES.parents[1]}:{os.environ['PATH']}"
        patch = mock.patch.dict(os.environ, {"PATH": path, "NRM_WHY": str(self.folder / "nrm_why"),
                                             "NRM_PYTHON": sys.executable})
        patch.start()
        self.addCleanup(patch.stop)

    def two_servers(self) -> tuple[Fleet, Server]:
        """A fleet of two servers, and the one that hasn't the network."""
        fleet = self.fleet()
        fleet.start(0)
        fleet.start(1)
        self.assertEqual(asked(fleet.servers.values(), b"book LOC 3\n", 1), [b"ok 1"])
        [other] = fleet.others()
        return fleet, other

    def uri(self, fleet: Fleet) -> str:
        """Where its journal is, with a password."""
        return fleet.uri.replace("@", f":{SECRET}@", 1)

    @needs("jinja2")
    def test_a_page_and_a_door(self) -> None:
        """They are beside a server that passes on what it is asked; nothing that is shown has the password."""
        fleet, other = self.two_servers()
        with self.web(self.uri(fleet), other.path, has_accounts=True) as web:
            line = "/networks/net/desks/WEB/lines/1"
            self.assertEqual([web.post(line, "book LOC 2").text for _ in range(2)], ["ok 2\n", "ok 2\n"])
            wait_for(lambda: sold(web) == 5, "the booking on the page")
            told = [web.get(f"/networks/net/lines/2{it}").text for it in ("", "/why")]
            self.want_in(html.unescape(told[0]), f"nrm-tools why {fleet.uri} net 2")
            for it in "Sold: 2 seats of LOC", "steps hold.":
                self.want_in(told[1], it)
            self.assertFalse([it for it in told if SECRET in it])

    @needs("jinja2")
    def test_a_line_that_is_lost_is_shown_no_more(self) -> None:
        """A primary has a line that no standby has, and is lost: the page, which has shown it, begins anew."""
        fleet, other = self.two_servers()
        servers = self.databases
        lost, primary = servers.standbys(), servers.primary()
        with self.web(fleet.uri, other.path) as web:
            wait_for(lambda: sold(web) == 3, "the first booking on the page")
            for it in fleet.servers.values():
                it.kill()
            for name in lost:
                servers.kill(name)
            servers.asked(primary, ALONE, fleet.uri.rpartition("/")[2])
            wait_for(lambda: sold(web) == 10, "the line that the primary has alone")
            servers.kill(primary)
            for name in lost:
                servers.start(name)
            servers.promote()
            wait_for(lambda: sold(web) == 3, "the page without it")
            self.assertEqual(asked([fleet.start(2)], b"book LOC 1\n", 1, "D2"), [b"ok 2"])
            wait_for(lambda: sold(web) == 4, "another line in its place")
        servers.rejoin()

    def test_an_account_and_its_commands(self) -> None:
        """They lay the network file and the lines out, and compare the replies."""
        fleet, _ = self.two_servers()
        told = self.told("why", self.uri(fleet), "net", 1, env=os.environ)
        self.assertNotIn(SECRET, told)
        for it in f"Line 1 of net in {fleet.uri}, under first.", "steps hold.":
            self.want_in(told, it)
        commands = [it.strip() for it in told.splitlines() if it.startswith("    ") and "by-hand" in it]
        self.want_in(commands[1], f"psql -XAtq -d {fleet.uri} ")
        done = subprocess.run(["bash", "-ec", "\n".join(commands[:6])], cwd=self.folder, capture_output=True, text=True)
        self.assertEqual((done.returncode, done.stdout, done.stderr), (0, "", ""))
        self.assertEqual((self.folder / "by-hand/network.csv").read_text(), (self.folder / "net.csv").read_text())
        self.assertEqual((self.folder / "by-hand/replies").read_text(), "ok 1\n")
