"""What a manager of services hears of a run of `nrm-tools serve`, and of one of `nrm-tools web`."""
from __future__ import annotations

import http.client
import os
import re
import select
import subprocess
import time

from harness import SECONDS
from nrm.journal.networks import open_network
from nrm.journal.sqlite_tables import begin, using
from nrm.program import Program
from operating.managers import HANGS, LISTENS_LATE, FakeManager, see_signs
from server.servers import answers
from server.serves import ONE, Serve, ServeTest, talk


class Managed(ServeTest):
    def setUp(self) -> None:
        super().setUp()
        self.manager = FakeManager(self.folder)
        self.addCleanup(self.manager.close)

    def see_signs_of(self, process: subprocess.Popen[bytes]) -> None:
        see_signs(self.manager, process, self.folder)


class ServeManaged(Managed):
    def managed(self, *options: str, patch: str = "", **more: object) -> Serve:
        """A server that is begun by the manager."""
        variables = {**self.manager.variables(), **self.patched(patch)}
        return self.serve(self.journal(file=ONE.encode()), *options, variables=variables, **more)

    def test_it_is_ready_once_clients_may_come(self) -> None:
        """When it says so, one is taken at once; the status is told as it changes, and the end."""
        with self.managed(patch=LISTENS_LATE, status=0) as serve:
            told = self.manager.next()
            self.assertEqual(told, {"READY": "1", "STATUS": "0 clients, 0 programs, 0 lines written"})
            with serve.connect() as client:
                self.same(answers(client, b"desk D1\nbook LOC 1\n", 2), b"at 1\n", b"ok 1\n")
                while "1 clients, 1 programs, 1 lines written" not in told.get("STATUS", ""):
                    told = self.manager.until("STATUS")
            serve.end()
            self.manager.until("STOPPING")

    def test_it_says_that_it_ends_before_it_does(self) -> None:
        """At once, while a program still has lines; and where it ends by itself."""
        path = self.file("silent", "#!/bin/sh\nexec sleep 60\n")
        os.chmod(path, 0o755)
        with self.managed("--slow", "3", program=Program((path,))) as serve, serve.connect() as client:
            client.sendall(b"desk D1\nbook LOC 1\n")
            time.sleep(0.5)
            serve.process.terminate()
            self.manager.until("STOPPING", 2.5)
            self.assertIsNone(serve.process.poll(), "it isn't over yet")

    def test_signs_of_work_come_from_its_loop(self) -> None:
        with self.managed(patch=HANGS) as serve:
            self.see_signs_of(serve.process)
            serve.end()

    def test_nobody_need_hear_it(self) -> None:
        """Without a manager, and with one that is gone, it serves all the same."""
        for variables in ({}, {"NOTIFY_SOCKET": str(self.folder / "none"), "WATCHDOG_USEC": "9"}):
            journal = self.journal(file=ONE.encode(), at=f"journal-{len(variables)}")
            with self.served(journal, variables=variables) as serve:
                self.assertEqual(talk(serve, b"book LOC 1\n"), b"ok 1\n")
                time.sleep(1.5)
                self.assertEqual(talk(serve, b"ask LOC\n"), b"ask LOC 299 leg AB\n")


class WebManaged(Managed):
    def managed(self, patch: str) -> subprocess.Popen[bytes]:
        """A web that is begun by the manager, on a journal with a network."""
        journal = self.folder / "journal"
        begin(str(journal))
        with using(str(journal), is_to_write=True) as connection:
            open_network(connection, "hub", "first", ONE.encode(), "program")
        env = {**os.environ, **self.manager.variables(), **self.patched(patch)}
        process = self.process("web", journal, "--socket", "none", "--listen", "127.0.0.1:0", "--answer", "0.2",
                               stderr=subprocess.PIPE, env=env)
        self.addCleanup(process.wait)
        self.addCleanup(process.kill)
        self.addCleanup(process.stderr.close)  # type: ignore[union-attr]
        return process

    def test_it_is_ready_once_requests_may_come(self) -> None:
        process = self.managed(LISTENS_LATE)
        self.assertEqual(self.manager.next(), {"READY": "1", "STATUS": "0 networks followed"})
        assert process.stderr
        self.assertTrue(select.select([process.stderr], [], [], 0)[0], "it has told by then where it listens")
        found = re.search(r":([0-9]+)\n", process.stderr.readline().decode())
        assert found
        connection = http.client.HTTPConnection("127.0.0.1", int(found[1]), timeout=SECONDS)
        connection.request("GET", "/openapi.json")
        self.assertEqual(connection.getresponse().status, 200)
        connection.close()
        self.assertEqual(self.manager.until("STATUS")["STATUS"], "1 networks followed")
        process.terminate()
        self.manager.until("STOPPING")
        self.assertEqual(process.wait(SECONDS), 0)

    def test_signs_of_work_come_from_its_loop(self) -> None:
        process = self.managed(HANGS)
        self.see_signs_of(process)
        process.terminate()
        self.assertEqual(process.wait(SECONDS), 0)
