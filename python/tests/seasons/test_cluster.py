"""No worker matters: one killed, stopped, of another account, of another program or package; a cut run goes on."""
from __future__ import annotations

import contextlib
import hashlib
import os
import signal
import sys
import time
from pathlib import Path

from harness import SOURCES
from nrm.seasons.drawing import Settings
from nrm.seasons.rows import PACKAGE
from seasons.clusters import (LOG, SECONDS, SimulateTest, by_one_process, cluster, has_group, listening_ports,
                              needs_dask, processes_of, takes_long, wait_for)

STRANGER = """
import logging, os, sys
import distributed
logging.disable(logging.CRITICAL)
for port in sys.argv[1:]:
    for kind, keys in (("tcp", None), ("tls", distributed.Security.temporary())):
        more = {"security": keys} if keys else {}
        try:
            with distributed.Client(f"{kind}://127.0.0.1:{port}", timeout=3, **more) as client:
                print("ran as", client.run_on_scheduler(os.getuid), flush=True)
        except (OSError, ValueError):
            print("refused", flush=True)
"""
SENDER = """
import sys
import distributed
from nrm.seasons import cluster, rows
package = {**rows.PACKAGE, sys.argv[2]: open(sys.argv[3], "rb").read()}
with distributed.Client(sys.argv[1]) as client:
    client.upload_file(cluster.zipped(".", package))
"""
FEWER_SEATS = r"""#!/bin/sh
[ "$1" = run ] && sed -E 's/^(leg,[^,]*),[0-9]+/\1,2/' "$3" > "$3.fewer" && set -- run "$2" "$3.fewer"
exec {program} "$@"
"""


def checksum(path: Path) -> str:
    """The checksum of a file."""
    return hashlib.sha256(path.read_bytes()).hexdigest()


@needs_dask
class Clusters(SimulateTest):
    """Of a scheduler and workers that were begun apart, and can't import the package but as it is sent."""

    def is_of_the_seasons(self, name: str) -> bool:
        """Whether the rows that a run has kept are those that one process makes."""
        rows = by_one_process(self.program, LOG, Settings(), 60).splitlines(keepends=True)
        return set(self.rows_there(name)) <= set(rows)

    def test_a_killed_worker_loses_nothing(self) -> None:
        with cluster(self.folder) as made:
            run = self.begun(LOG, "--seasons", 120, "--out", "killed", "--cluster", made.address, program=self.slow())
            self.wait_for_rows("killed", run)
            made.workers[0].kill()
            err = run.communicate(timeout=SECONDS)[1].decode()
            self.assertEqual((run.returncode, made.workers[1].poll()), (0, None), err)
            self.want_in(err, f"nrm-tools simulate: {made.address} has no TLS: whoever reaches it can run anything")
        self.assertEqual(self.whole("killed"), by_one_process(self.program, LOG, Settings(), 120))
        self.assertEqual(self.rows_there("killed"), [])

    def test_a_killed_scheduler_is_told(self) -> None:
        with cluster(self.folder) as made:
            run = self.begun(LOG, "--seasons", 400, "--out", "killed", "--cluster", made.address, program=self.slow())
            self.wait_for_rows("killed", run)
            made.scheduler.kill()
            self.told_by_a_line(run, "nrm-tools simulate: the scheduler has ended, or the connection to it")
        self.assertTrue(self.is_of_the_seasons("killed"))

    @takes_long
    def test_a_stopped_worker_of_a_cluster_is_not_waited_for_without_end(self) -> None:
        """Also one that was stopped before the run."""
        with cluster(self.folder, [None]) as made:
            words = ["--seasons", 400, "--cluster", made.address, "--patience", 12]
            run = self.begun(LOG, *words, "--out", "other", program=self.slow())
            self.wait_for_rows("other", run)
            made.workers[0].send_signal(signal.SIGSTOP)
            self.told_by_a_line(run, "no seasons have come back for 12 s")
            self.told_by_a_line(self.begun(LOG, *words), "the workers don't take the tools within 12 s")

    def test_a_cluster_is_asked_by_keys_of_files(self) -> None:
        import distributed  # here, since it may not be there
        keys = distributed.Security.temporary()
        texts = {"ca": keys.tls_ca_file, "mine": keys.tls_client_cert, "key": keys.tls_client_key}
        files = [self.file(f"{name}.pem", text) for name, text in texts.items()]
        other = self.file("other.pem", distributed.Security.temporary().tls_client_key)
        options = ("--tls-ca-file", "--tls-cert", "--tls-key")
        with cluster(self.folder, [None], [it for pair in zip(options, files) for it in pair]) as made:
            self.want_in(made.address, "tls://")
            words = [LOG, "--seasons", 6, "--cluster", made.address]
            run = self.begun(*words, "--tls", *files, "--out", "keys")
            err = run.communicate(timeout=SECONDS)[1].decode()
            self.assertEqual((run.returncode, "no TLS" in err), (0, False), err)
            self.assertEqual(self.whole("keys"), by_one_process(self.program, LOG, Settings(), 6))
            for more, wanted in (([], "--tls names the keys"), (["--tls", *files[:2], other], f"that takes {files[0]}"),
                                 (["--tls", *files[:2], "none.pem"], "none.pem: No such file")):
                self.told_by_a_line(self.begun(*words, *more), wanted)

    def test_a_worker_with_another_program_is_refused(self) -> None:
        """With both checksums, and nothing of what it played is kept."""
        words, paths = " ".join(f"'{it}'" for it in self.program.words), []
        for name, text in (("good", '#!/bin/sh\nexec {program} "$@"\n'), ("bad", FEWER_SEATS)):
            (self.folder / name).mkdir()
            Path(self.file(f"{name}/nrm", text.format(program=words))).chmod(0o755)
            paths.append(f"{self.folder / name}:{os.environ['PATH']}")
        with cluster(self.folder, paths) as made:
            run = self.begun(LOG, "--seasons", 60, "--out", "mixed", "--cluster", made.address, program=["nrm"],
                             env={**os.environ, "PATH": paths[0]})
            wanted = "has another program: its checksum there is " + checksum(self.folder / "bad" / "nrm")
            self.want_in(self.told_by_a_line(run, wanted), "and here " + checksum(self.folder / "good" / "nrm"))
        self.assertTrue(self.is_of_the_seasons("mixed"))

    def test_a_worker_with_another_package_is_refused(self) -> None:
        """As where another run gives a cluster its own: of another version, and of one that tells no checksum."""
        text = PACKAGE["seasons/rows.py"].decode()
        older = text.replace("return dataclasses.asdict(batch_of(", "return vars(batch_of(").replace(", maker=by)", ")")
        self.assertNotEqual(text, older)
        with cluster(self.folder, [None]) as made:
            for name, other in (("newer", text + "# another version\n"), ("older", older)):
                run = self.begun(LOG, "--seasons", 400, "--out", name, "--cluster", made.address, program=self.slow())
                self.wait_for_rows(name, run)
                words = [sys.executable, "-c", SENDER, made.address, "seasons/rows.py", self.file("rows.py", other)]
                sent = self.finished(*words, timeout=SECONDS, env={**os.environ, "PYTHONPATH": str(SOURCES)})
                self.assertEqual(sent.status, 0, sent.err)
                self.told_by_a_line(run, "has other tools: their checksum there is ")


@needs_dask
class OwnWorkers(SimulateTest):
    """Of the processes that a run starts on this machine."""

    def test_ctrl_c_keeps_what_is_done(self) -> None:
        """And the same line goes on from there, as one with more seasons does."""
        run = self.begun(LOG, "--seasons", 400, "--workers", 2, "--out", "cut", program=self.slow(),
                         preexec_fn=lambda: signal.signal(signal.SIGINT, signal.SIG_DFL))
        self.wait_for_rows("cut", run)
        asked_at = time.monotonic()
        os.killpg(run.pid, signal.SIGINT)
        err = run.communicate(timeout=SECONDS)[1].decode()
        self.assertEqual((run.returncode, "Traceback" in err, time.monotonic() - asked_at < 30),
                         (-signal.SIGINT, False, True), err)
        self.assertTrue(0 < len(self.rows_there("cut")) < 3 * 400, "in the middle")
        wait_for(lambda: not has_group(run.pid), "the end of its processes")
        with open(self.folder / "cut" / "network-seasons.part", "a") as file:
            file.write("399,first,1")  # as a write that was cut
        for count in (60, 80):
            self.simulated(LOG, "--seasons", count, "--workers", 1, "--out", "cut")
            self.assertEqual(self.whole("cut"), by_one_process(self.program, LOG, Settings(), count),
                             f"{count} seasons")
        words = [LOG, "--out", "cut", *self.with_program, "--seasons"]
        self.stopped("simulate", *words, 70, says="has more seasons than the 70 that are asked for")
        self.stopped("simulate", *words, 90, "--seed", 2, says="another run, which differs in: seed")

    @takes_long
    def test_a_stopped_worker_is_told_and_not_waited_for_without_end(self) -> None:
        run = self.begun(LOG, "--seasons", 400, "--workers", 1, "--out", "own", "--patience", 12, program=self.slow())
        self.wait_for_rows("own", run)
        [worker] = [it for it, words in processes_of(run.pid).items() if "spawn_main" in words]
        os.kill(worker, signal.SIGSTOP)
        err = self.told_by_a_line(run, "no seasons have come back for 12 s: is a worker stopped")
        self.want_in(err, "nrm-tools simulate: no seasons have come back for 6 s; the run waits up to 12 s\n")
        wait_for(lambda: not has_group(run.pid), "the end of its processes")

    def test_another_account_of_the_machine_is_refused(self) -> None:
        """By each port that a run opens, without keys and with keys of its own."""
        if os.getuid():
            self.skipTest("to run as another account takes the rights of root")
        run = self.begun(LOG, "--seasons", 4000, "--workers", 1, "--out", "own", program=self.slow())
        try:
            self.wait_for_rows("own", run)
            ports = listening_ports(run.pid)
            self.assertGreaterEqual(len(ports), 2, f"the ports of a scheduler and a worker: {ports}")
            done = self.finished(sys.executable, "-B", "-c", STRANGER, *ports, cwd="/", env={"HOME": "/nonexistent"},
                                 user=65534, group=65534, extra_groups=[], timeout=SECONDS)
            self.assertEqual((done.out.splitlines(), run.poll()), (["refused"] * 2 * len(ports), None), done.err)
        finally:
            with contextlib.suppress(ProcessLookupError):
                os.killpg(run.pid, signal.SIGKILL)
            run.communicate()
