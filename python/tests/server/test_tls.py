"""TLS: who speaks it is answered as anybody is, and who speaks half of it stands in nobody's way."""
from __future__ import annotations

import contextlib
import os
import select
import socket
import ssl
import subprocess
import threading
import time

from harness import SECONDS, meanwhile, wait_for
from nrm import Stop
from nrm.desk import Desk, Ended, Late, Sold, Strange
from nrm.desks_frames import WINDOW
from nrm.server.clients import Client, ClientLimits
from nrm.server.loop import READ
from nrm.server.status_text import ask_status
from nrm.server.tls import RECORD, context_of
from server.guarded import ADDRESS, GuardedTest, port_of
from server.houses import House, let_in
from server.servers import answers
from server.serves import ONE, Serve, all_told, rows_in, talk

LEGS, PRODUCTS = range(64), range(256)
LARGE = "\n".join([  # a network whose plan has some 54 KB, four records of TLS
    "periods,1,1", *(f"leg,LEG-{at:08d},999,80000000,100" for at in LEGS),
    *(f"product,PROD-{at:07d},{90_000_000 + at}," + ",".join(f"LEG-{(at + step) % 64:08d}" for step in (0, 5, 11, 23))
      for at in PRODUCTS), *(f"demand,PROD-{at:07d},1,5" for at in PRODUCTS), ""]).encode()
HELLO = b"\x16\x03\x01\x02\x00\x01\x00\x01\xfc\x03\x03"  # how a handshake begins


class Secured(GuardedTest):
    def test_desks_come_by_tls(self) -> None:
        """By Python, and by openssl; what is no TLS isn't answered, and a token is needed."""
        journal, token = self.journal(file=ONE.encode()), self.token("C-7", "look", "book")
        with self.secured(journal) as serve:
            front = b"token %s\n" % token
            for lines, wanted in [
                    (b"ask LOC\n", b"closed token\n"), (b"desk C-7\n", b"closed token\n"),
                    (b"token\n", b"closed token\n"), (b"token odd\n", b"closed token\n"),
                    (front + b"desk none C-7\n", b"token C-7\nclosed network\n"),
                    (front + b"desk C-7\nbook LOC 1\n" + b"x" * 1000, b"token C-7\nat 1\nok 1\nclosed long\n")]:
                self.assertEqual(self.told_by_tls(serve, lines), wanted, lines)
            with self.by_tls(serve) as made:
                for at, it in enumerate(front + b"desk hub C-7\nask LOC\n"):
                    made.sendall(bytes([it]))
                self.assertEqual(answers(made, b"", 3), [b"token C-7\n", b"at 2\n", b"ask LOC 299 leg AB\n"])
            with self.plain(serve) as plain:
                plain.sendall(front)
                self.assertNotIn(b"C-7", all_told(plain))
            words = ["openssl", "s_client", "-quiet", "-verify_return_error", "-CAfile", str(self.folder / "made.cert"),
                     "-verify_ip", ADDRESS, "-connect", f"{ADDRESS}:{port_of(serve)}"]
            told = subprocess.run(words, input=front + b"desk C-7\nask LOC\n" + b"x" * 1000, stdout=subprocess.PIPE,
                                  stderr=subprocess.DEVNULL, timeout=SECONDS).stdout
            self.assertEqual(told, b"token C-7\nat 2\nask LOC 299 leg AB\nclosed long\n")
            self.assertEqual(talk(serve, b"ask LOC\n"), b"ask LOC 299 leg AB\n", "on the Unix socket")
            self.assertNotIn(token.decode(), serve.told())

    def test_who_may_ask_for_the_status(self) -> None:
        """On the port a desk that may look, and on the Unix socket anybody but a desk that mayn't."""
        may, mayn_t = self.token("D1", "look"), self.token("D2", "book")
        with self.secured(self.journal(file=ONE.encode())) as serve:
            status = b"token %s\nstatus\n" % may
            for told in (self.told_by_tls(serve, status + b"status\nbook LOC 1\n"), talk(serve, status + b"x\n")):
                self.assertRegex(told, rb"^token D1\nserver (?s:.*)\n\nclosed status\n$")
            self.assertRegex(talk(serve, b"status\nstatus\n"), rb"^server (?s:.*)\n\nserver (?s:.*)\n\n$")
            refused = b"token %s\nstatus\n" % mayn_t
            for lines, wanted in [(b"status\n", b"closed token\n"), (refused, b"token D2\nclosed token\n")]:
                self.assertEqual(self.told_by_tls(serve, lines), wanted)
            self.assertEqual(talk(serve, refused), b"token D2\nclosed token\n")
            self.assertEqual(talk(serve, b"status\n" + b"token %s\n" % may)[-16:], b"\n\nclosed status\n")
            place, ca = f"{ADDRESS}:{port_of(serve)}", ("--ca", str(self.folder / "made.cert"))
            files = [str(self.file(name, it.decode() + "\n")) for name, it in (("may", may), ("mayn_t", mayn_t))]
            told = self.told("status", place, "--token", files[0], *ca)
            self.assertEqual(told[:7], "server ")
            for words, says in [((place, *ca), "closed token"), ((place, "--token", files[1], *ca), "closed token"),
                                ((place, "--token", str(self.file("none", "")), *ca), "has no token"),
                                ((place, "--ca", "absent"), "absent has no certificates"),
                                ((place, "--ca", str(self.file("odd", "x"))), "odd has no certificates")]:
                self.stopped("status", *words, status=1, says=says)
            self.stopped("status", serve.path, *ca, status=2, says="--ca can be used with HOST:PORT only")

    def test_a_desk_in_python_comes_by_tls(self) -> None:
        token = self.token("D1", "look", "book").decode()
        self.certified("elsewhere", at="other")
        with self.secured(self.journal(file=ONE.encode())) as serve:
            place = ADDRESS, port_of(serve)
            with Desk(place, "D1", token=token, tls=self.trusting()) as desk:
                self.assertEqual((desk.book("LOC", 1), desk.available("LOC")), (Sold(1), 299))
            for name, more, kind, says in [("D1", {"token": None, "tls": self.trusting()}, Ended, "token"),
                                           ("D1", {"tls": self.trusting("other")}, Strange, "certificate: self"),
                                           ("D2", {"tls": self.trusting()}, Ended, "denied"), ("D1", {}, Late, "")]:
                why = self.expect(kind, lambda: Desk(place, name, **{"token": token, "seconds": 2, **more}))
                self.want_in(str(why), says)
                self.assertNotIn(token, repr(why))
            place = "localhost", place[1]  # which isn't a name of the certificate
            why = self.expect(Strange, lambda: Desk(place, "D1", token=token, tls=self.trusting()))
            self.want_in(str(why), "mismatch")
            self.expect(ValueError, lambda: Desk(serve.path, "D1", tls=self.trusting()))

    def test_old_versions_and_ciphers_are_refused(self) -> None:
        """A version before 1.2, and in 1.2 what has CBC, or SHA-1, or no new key for each connection."""
        gcm, cbc = "ECDHE-ECDSA-AES128-GCM-SHA256", "ECDHE-ECDSA-AES128-SHA"
        with self.secured(self.journal(file=ONE.encode())) as serve:
            for version, ciphers, taken in [
                    ("TLSv1_1", "ALL", ""), ("TLSv1_2", cbc, ""), ("TLSv1_2", "ECDHE-ECDSA-AES256-SHA384", ""),
                    ("TLSv1_2", "ALL:!AESGCM:!CHACHA20", ""), ("TLSv1_2", "kRSA:aNULL:kDHE", ""),
                    ("TLSv1_2", f"{cbc}:{gcm}", gcm), ("TLSv1_2", "ALL:!AESGCM", "ECDHE-ECDSA-CHACHA20-POLY1305"),
                    ("TLSv1_3", "ALL", "TLS_AES_256_GCM_SHA384")]:
                self.assertEqual(self.cipher(serve, version, ciphers), taken, (version, ciphers))

    def cipher(self, serve: Serve, version: str, ciphers: str) -> str:
        """The cipher that a client of a version has, which offers some; none if it is refused."""
        context = self.trusting()
        context.set_ciphers(f"{ciphers}:@SECLEVEL=0")
        context.minimum_version = ssl.TLSVersion.TLSv1
        context.maximum_version = getattr(ssl.TLSVersion, version)
        try:
            with self.by_tls(serve, context) as made:
                found = made.cipher()
        except OSError:
            return ""
        return found[0] if found else ""

    def test_half_a_handshake_keeps_nobody_waiting(self) -> None:
        """Who stays in it is dropped, whatever has come of it, as is who never begins, or says nothing behind it."""
        token = self.token("D1", "look").decode()
        with self.secured(self.journal(file=ONE.encode()), "--slow", "2") as serve, contextlib.ExitStack() as all_:
            place = ADDRESS, port_of(serve)
            halves = [all_.enter_context(self.plain(serve)) for _ in range(40)]
            for at, it in enumerate(halves):
                it.sendall(HELLO[:at % (len(HELLO) + 1)])
            silent = all_.enter_context(self.by_tls(serve))
            begun = time.monotonic()
            with Desk(place, "D1", token=token, tls=self.trusting()) as desk:
                self.assertEqual(desk.available("LOC"), 300)
                self.assertLess(time.monotonic() - begun, 2, "the other waits for nobody")
                for it in halves:
                    self.assertEqual(all_told(it), b"")
                self.assertEqual(all_told(silent), b"closed token\n")
                self.assertEqual(desk.available("LOC"), 300)
            self.assertLess(time.monotonic() - begun, 30)

    def test_large_replies_come_whole(self) -> None:
        """A text of several records, and many of them to who reads late, the same as by a Unix socket."""
        token, count = self.token("D1", "look"), 24
        with self.secured(self.journal(mode="davn", file=LARGE)) as serve:
            plan = talk(serve, b"plan\n")
            self.assertGreater(len(plan), 50_000)
            with self.by_tls(serve) as made:
                made.sendall(b"token %s\ndesk D1\n" % token + b"plan\n" * count)
                time.sleep(1)
                told = b""
                while len(told) < len(b"token D1\nat 1\n") + count * len(plan):
                    told += made.recv(5000)
                self.assertEqual(told, b"token D1\nat 1\n" + plan * count)

    def test_who_doesnt_take_its_replies_is_cut_off(self) -> None:
        token = self.token("D1", "look")
        options = ("--unsent", "65536", "--slow", "3")
        with self.secured(self.journal(mode="davn", file=LARGE), *options) as serve, self.by_tls(serve) as deaf:
            deaf.settimeout(0.2)
            with contextlib.suppress(OSError):
                deaf.sendall(b"token %s\n" % token + b"plan\n" * 400)
            wait_for(lambda: "event=unread" in serve.told(), "the end of it")
            self.assertEqual(talk(serve, b"ask NONE\n"), b"ask NONE unknown\n")

    def test_many_lines_in_a_record(self) -> None:
        """All are taken, and no rest of a record stays behind, though more comes than the program may have unused."""
        token, count = self.token("D1", "look"), 12_000
        line = b"nonsense that is long, so that many bytes wait for it\n"
        with self.secured(self.journal(file=ONE.encode())) as serve, self.by_tls(serve) as made:
            self.assertEqual(answers(made, b"token %s\ndesk D1\n" % token + b"ask LOC\n" * 1500, 1502)[2:],
                             [b"ask LOC 300 leg AB\n"] * 1500)
            made.setblocking(False)  # one thread for both: an SSLSocket isn't made for two
            rest, told = line * count, b""
            while len(told) < 4 * count:
                ready = select.select([made], [made] if rest else [], [], SECONDS)
                self.assertTrue(any(ready), "nothing comes any more")
                with contextlib.suppress(ssl.SSLWantReadError, ssl.SSLWantWriteError):
                    rest = rest[made.send(rest[:RECORD]):] if rest else rest
                with contextlib.suppress(ssl.SSLWantReadError, ssl.SSLWantWriteError):
                    told += made.recv(65_536)
            self.assertEqual(told, b"bad\n" * count)

    def test_no_rest_of_a_record_stays_behind(self) -> None:
        """Which no epoll would show: with little room nothing is read, and else a record whole."""
        house, ends = House(), socket.socketpair()
        client = Client(house.reception, ends[0], context=context_of(*self.certified()))
        self.addCleanup(client.vanish)
        may_send = threading.Event()
        meanwhile(self.record_sent, ends[1], may_send)
        wait_for(lambda: client.read(READ) or client.secure.is_shaken, "the end of the handshake")
        let_in(client)
        client.unused = WINDOW - 100
        may_send.set()
        for _ in range(50):
            client.read(READ)
            time.sleep(0.01)
        client.watch()
        self.assertEqual((client.unused, house.loop.wanted.get(client.file, 0)), (WINDOW - 100, 0))
        client.used(WINDOW - 100, b"")
        self.assertEqual(house.loop.wanted.get(client.file), READ)
        wait_for(lambda: client.read(READ) or client.unused, "the record")
        self.assertEqual((client.unused, client.secure.socket.pending()), (RECORD, 0))

    def record_sent(self, connection: socket.socket, may_send: threading.Event) -> None:
        """Sends a record of the greatest size, once it may."""
        with self.trusting().wrap_socket(connection, server_hostname=ADDRESS) as made:
            may_send.wait(SECONDS)
            made.sendall(b"x" * RECORD)
            with contextlib.suppress(OSError):
                made.recv(1)

    def test_who_has_said_all_is_answered(self) -> None:
        """The end of what a client says, by TLS or without, leaves its lines; half a line isn't taken."""
        journal, token = self.journal(file=ONE.encode()), self.token("D1", "book")
        lines = b"token %s\ndesk D1\n" % token + b"book LOC 1\n" * 50
        with self.secured(journal) as serve:
            with self.by_tls(serve) as made:
                made.sendall(lines + b"book LOC 7")
                with contextlib.suppress(ssl.SSLError):
                    made.unwrap()
            wait_for(lambda: len(rows_in(journal)) == 50, "all lines")
            with self.by_tls(serve) as made:
                made.sendall(lines + b"book LOC 7")
                socket.socket.shutdown(made, socket.SHUT_WR)
                self.assertEqual(all_told(made).count(b"\nok "), 50)
            self.assertEqual(len(rows_in(journal)), 100)

    def test_a_certificate_is_read_anew(self) -> None:
        """Of which the key comes later; one that can't be read leaves the old one."""
        journal = self.journal(file=ONE.encode())
        with self.secured(journal) as serve:
            old = self.trusting()
            with self.by_tls(serve, old) as stays:
                for name in self.certified(at="next"):
                    os.replace(name, name.replace("next", "made"))
                    time.sleep(0.5)
                wait_for(lambda: "certificate-read" in serve.told(), "what is told")
                with self.by_tls(serve):
                    self.expect(ssl.SSLCertVerificationError, lambda: self.by_tls(serve, old).close())
                stays.sendall(b"token odd\n")
                self.assertEqual(all_told(stays), b"closed token\n")
            self.file("made.key", "none")
            wait_for(lambda: "certificate-fault" in serve.told(), "what is told")
            with self.by_tls(serve):
                pass

    def test_who_leaves_while_its_answer_waits_keeps_no_place(self) -> None:
        """Answers to wrong tokens wait for up to 30 seconds by now."""
        def clients() -> int:
            return ask_status(str(serve.path), SECONDS).clients.now

        with self.secured(self.journal(file=ONE.encode())) as serve:
            for _ in range(5):
                self.assertEqual(self.told_by_tls(serve, b"token odd\n"), b"closed token\n")
            some = [self.by_tls(serve) for _ in range(6)]
            for it in some:
                it.sendall(b"token odd\n")
            wait_for(lambda: clients() > 5, "some who wait")
            for it in some:
                it.close()
            wait_for(lambda: clients() == 1, "their places", 6)

    def test_some_places_are_for_the_unix_socket_alone(self) -> None:
        """The last tenth of them. Those who say nothing at the port take the others, for so many seconds."""
        with self.secured(self.journal(file=ONE.encode()), "--clients", "20", "--slow", "3") as serve:
            with contextlib.ExitStack() as all_:
                some = [all_.enter_context(self.plain(serve)) for _ in range(19)]
                wait_for(lambda: "turned-away most=18" in serve.told(), "what is told of one too many")
                self.assertEqual(talk(serve, b"ask LOC\n"), b"ask LOC 300 leg AB\n")
                for it in some:
                    self.assertEqual(all_told(it), b"")
            with self.by_tls(serve):
                pass
        of_ports = [ClientLimits(clients=it).clients_of_ports() for it in (1, 2, 9, 20, 1000)]
        self.assertEqual(of_ports, [1, 1, 8, 18, 900])

    def test_one_too_many_is_let_go(self) -> None:
        with self.secured(self.journal(file=ONE.encode()), "--clients", "1") as serve:
            with serve.connect() as first:
                self.assertEqual(answers(first, b"ask LOC\n", 1), [b"ask LOC 300 leg AB\n"])
                self.expect(OSError, lambda: self.by_tls(serve).close())
                with self.plain(serve) as plain:
                    self.assertEqual(all_told(plain), b"")

    def test_a_key_that_is_locked_is_refused(self) -> None:
        """And nobody is asked for its word."""
        certificate, key = self.certified()
        locked = str(self.folder / "locked")
        self.finished("openssl", "pkey", "-in", key, "-out", locked, "-aes128", "-passout", "pass:word")
        context_of(certificate, key)
        os.chmod(certificate, 0o600)
        for other in (locked, certificate):
            self.want_in(str(self.expect(Stop, lambda: context_of(certificate, other))), "no certificate and its key")
