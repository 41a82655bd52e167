"""Desks are known by tokens: who comes by which, what each may do then, and who is slowed or cut off."""
from __future__ import annotations

import contextlib
import gc
import os
import signal
import socket
import weakref
from pathlib import Path
from typing import Iterator

from harness import wait_for
from nrm.desk import Desk, Ended
from nrm.desks_frames import WINDOW
from nrm.server.access import RIGHTS, Access, hash_of
from nrm.server.clients import Client
from nrm.server.loop import LEFT, READ
from nrm.server.tls import RECORD, context_of
from nrm.server.tokens import HERE, Tokens
from nrm.server.watched_files import Watched
from nrm.server.wrong_tokens import MOST_ADDRESSES
from server.guarded import GuardedTest
from server.houses import HIS, House, let_in
from server.servers import answers, child_of
from server.serves import ONE, all_told, rows_in, talk

MAY = {  # by right: the kinds of lines that it allows
    "look": {"leg", "plan", "hindsight", "ask"}, "book": {"book"}, "cancel-own": {"own"},
    "cancel-any": {"own", "other"}, "plan": {"reoptimise"}, "greet": {"greet"}}
WRONG = b"wrong"


def close(client: Client) -> None:
    """Closes a client that is gone, as a session does."""
    client.closed("gone")


class Known(GuardedTest):
    def test_who_comes_by_a_token(self) -> None:
        """On a Unix socket it may be left out."""
        journal, token = self.journal(file=ONE.encode()), self.token("C-7", "look", "book")
        wrong = token[:-1] + (b"1" if token.endswith(b"0") else b"0")
        front = b"token %s\n" % token
        with self.guarded(journal) as serve:
            for lines, wanted in [
                    (b"desk D1\nbook LOC 1\n", b"at 1\nok 1\n"),
                    (front + b"book LOC 2\n", b"token C-7\nok 2\n"),
                    (front + b"desk C-7\nbook LOC 3\n", b"token C-7\nat 2\nok 3\n"),
                    (front + b"desk hub C-7 2\nbook LOC 3\nask LOC\n", b"token C-7\nat 2\nok 3\nask LOC 294 leg AB\n"),
                    (front + b"desk none C-7\n", b"token C-7\nclosed network\n"),
                    (front, b"token C-7\n"), (front[:-1], b""), (b"tok", b""),
                    (front + front, b"token C-7\nbad\n"),
                    (b"token " + wrong + b"\nbook LOC 1\n", b"closed token\n"),
                    (b"token \n", b"closed token\n"), (b"token  " + token + b"\n", b"closed token\n"),
                    (b"token " + token + b"\r\n", b"closed token\n"), (b"token\n", b"bad\n"),
                    (b"ask LOC\n" + front, b"ask LOC 294 leg AB\nbad\n"),
                    (b"token " + b"x" * 1000, b"closed long\n"), (b"token " + b"x" * 1000 + b"\n", b"closed long\n")]:
                self.assertEqual(talk(serve, lines), wanted, lines)
            with serve.connect() as slow:
                for it in front + b"desk hub C-7\nask LOC\n":
                    slow.sendall(bytes([it]))
                self.assertEqual(answers(slow, b"", 3), [b"token C-7\n", b"at 3\n", b"ask LOC 294 leg AB\n"])
            wait_for(lambda: "addresses=here\n" in serve.told(), "what is told")
            for it in (token, wrong, hash_of(token).encode()):
                self.assertNotIn(it.decode(), serve.told())
            self.want_in(serve.told(), "level=warning tool=nrm-tools-serve event=token-refused count=")
        self.same(rows_in(journal, "SELECT desk, sequence, line FROM line"), ("D1", 1, "book LOC 1"),
                  ("C-7", 1, "book LOC 2"), ("C-7", 2, "book LOC 3"))

    def test_without_a_file_no_token_is_one(self) -> None:
        with self.served(self.journal(file=ONE.encode())) as serve:
            self.assertEqual(talk(serve, b"token x\nbook LOC 1\n"), b"closed token\n")
            self.assertEqual(talk(serve, b"book LOC 1\n"), b"ok 1\n")

    def test_each_right_alone_against_each_kind_of_line(self) -> None:
        """And in a network that has ended, where to look and to greet is left."""
        journal, tokens = self.journal(mode="bid"), {it: self.token(it.upper(), it) for it in RIGHTS}
        with self.guarded(journal) as serve:
            for is_ended in (False, True):
                for right, token in tokens.items():
                    own, other = (talk(serve, b"desk %s\nbook HN-Y 1\n" % name).split()[-1] if not is_ended else b"1"
                                  for name in (right.upper().encode(), b"SOMEBODY"))
                    lines = {"leg": b"leg HAM-FRA", "plan": b"plan", "hindsight": b"hindsight", "ask": b"ask HJ-Q",
                             "book": b"book HJ-Q 1", "own": b"cancel " + own, "other": b"cancel " + other,
                             "reoptimise": b"reoptimise 1", "greet": b"desk OTHER"}
                    told = {kind: talk(serve, b"token %s\n%s\n" % (token, line)) for kind, line in lines.items()}
                    front = b"token %s\n" % right.upper().encode()
                    may = {kind for kind, it in told.items() if it != front + b"denied\n"}
                    wanted = MAY[right] & {*MAY["look"], "greet"} if is_ended else MAY[right]
                    self.assertEqual(may, wanted, (right, is_ended, told))
                self.told("journal", "end", "journal", "hub")
                wait_for(lambda: "event=ended network=hub" in serve.told(), "the end of the program")

    def test_a_desk_that_greets_by_another_name(self) -> None:
        tokens = {it: self.token(it, "look", *(["greet"] if it == "B" else [])).decode() for it in "AB"}
        with self.guarded(self.journal(file=ONE.encode())) as serve:
            with Desk(serve.path, "A", token=tokens["A"]) as desk:
                self.assertEqual((desk.available("LOC"), type(desk.book("LOC", 1)).__name__), (300, "Denied"))
            self.assertEqual(str(self.expect(Ended, lambda: Desk(serve.path, "X", token=tokens["A"]))), "denied")
            with Desk(serve.path, "X", token=tokens["B"]) as desk:
                self.assertEqual(desk.available("LOC"), 300)
            self.assertEqual(str(self.expect(Ended, lambda: Desk(serve.path, "A", token="odd"))), "token")
            why = self.expect(ValueError, lambda: Desk(serve.path, "A", token="a secret"))
            self.assertNotIn("secret", str(why))

    def test_who_may_not_come_any_more_is_cut_off(self) -> None:
        """A file that can't be read leaves those who are there, and who come, as they were."""
        tokens = {it: self.token(it, "look", "book") for it in ("GONE", "OTHER", "LESS", "SAME")}
        late = self.token("LATE", "look")
        whole = self.desks.read_text()
        with self.guarded(self.journal(file=ONE.encode())) as serve, contextlib.ExitStack() as all_:
            made = {it: all_.enter_context(serve.connect()) for it in (*tokens, "NONE")}
            for name, it in made.items():
                front = b"token %s\n" % tokens[name] if name in tokens else b""
                self.assertEqual(answers(it, front + b"ask LOC\n", 1 + bool(front))[-1], b"ask LOC 300 leg AB\n")
            for number, (text, why) in enumerate([("[SAME", "desks is no TOML"), ("[SAME]\n", "as token `sha256:`")]):
                self.desks.write_text(text)
                wait_for(lambda: why in serve.told(), "what is told of the file")
                self.assertEqual(serve.told().count("desks-fault"), number + 1, serve.told())
            self.desks.unlink()
            wait_for(lambda: serve.told().count("desks-fault") == 3, "what is told of no file")
            self.assertEqual(talk(serve, b"token %s\nask LOC\n" % late), b"token LATE\nask LOC 300 leg AB\n")
            for it in made.values():
                self.assertEqual(answers(it, b"ask LOC\n", 1), [b"ask LOC 300 leg AB\n"])
            self.desks.write_text(whole.replace("GONE", "NEW", 1))
            changed = self.token("OTHER", is_again=True)
            self.token("LESS", "look", is_again=True)
            for name in ("GONE", "OTHER", "LESS"):
                self.assertEqual(all_told(made[name]), b"closed token\n", name)
            for name in ("SAME", "NONE"):
                self.assertEqual(answers(made[name], b"ask LOC\n", 1), [b"ask LOC 300 leg AB\n"], name)
            self.want_in(serve.told(), "desks-read")
            for name, token, wanted in [("OTHER", tokens["OTHER"], b"closed token\n"),
                                        ("OTHER", changed, b"token OTHER\n"), ("NEW", tokens["GONE"], b"token NEW\n")]:
                self.assertEqual(talk(serve, b"token %s\n" % token), wanted, name)

    def test_lines_that_were_taken_are_answered_before_the_end(self) -> None:
        """Of one that is cut off, since its entry is gone."""
        journal, token, count = self.journal(file=ONE.encode()), self.token("D1", "book").decode(), 20_000
        with self.guarded(journal) as serve, serve.connect() as made:
            pid = os.fork()
            if not pid:
                with contextlib.suppress(OSError):
                    made.sendall(b"token %s\n" % token.encode() + b"book LOC 1\n" * count)
                os._exit(0)
            wait_for(lambda: rows_in(journal), "the first line")
            self.desks.write_text("")
            told = all_told(made).splitlines()
            os.waitpid(pid, 0)
            replies = [it.encode() for (it,) in rows_in(journal, "SELECT reply FROM line ORDER BY number")]
            self.assertEqual(told, [b"token D1", *replies, b"closed token"])

    def test_a_file_is_read_once_it_stays(self) -> None:
        """And not while it changes, nor again as long as it stays."""
        path = self.file("one", "a")
        watched = Watched("desks", [path], lambda it: Path(it).read_text())
        told: list[tuple[str, object]] = []

        def has_changed() -> bool:
            return watched.has_changed(lambda event, **fields: told.append((event, fields)))

        found = [has_changed()]
        for text in ("", "b", "bc"):
            self.file("one", text)
            found.append(has_changed())
        found += [has_changed(), has_changed()]
        self.assertEqual(told, [("desks-read", {"files": path})])
        self.assertEqual((found, watched.said), ([False, False, False, False, True, False], "bc"))

    def test_files_that_cant_be_read_at_the_start(self) -> None:
        journal, place = self.journal(file=ONE.encode()), ("--socket", str(self.folder / "s"))
        run = ("--program", *self.desks_program.words)
        os.mkfifo(self.folder / "fifo")
        os.chmod(self.file("odd", "[a b]"), 0o600)
        for words, status, says in [
                (("--desks", "none"), 1, "none: No such file"), (("--desks", "fifo"), 1, "fifo is no plain file"),
                (("--desks", "odd"), 1, "odd is no TOML at line 1"), (("--desks", ""), 2, "can't be empty"),
                (("--certificate", "odd"), 2, "must be given together"),
                (("--key", "odd"), 2, "must be given together"),
                (("--certificate", "odd", "--key", "odd"), 2, "can be used with --listen only"),
                (("--desks", "odd", "--listen", "127.0.0.1:0"), 2, "needs --certificate and --key"),
                (("--listen", "127.0.0.1:0", "--certificate", "none", "--key", "odd"), 1, "none: No such file"),
                (("--listen", "127.0.0.1:0", "--certificate", "odd", "--key", "fifo"), 1, "fifo is no plain file"),
                (("--listen", "127.0.0.1:0", "--certificate", "odd", "--key", "odd"), 1, "no certificate and its key")]:
            self.stopped("serve", journal, *place, *words, *run, status=status, says=says)


    def test_files_that_others_may_change(self) -> None:
        """A file of desks that others write is refused, and so is a key that others write, or that is read by more than
        a group. One that is opened to others while a server is at work counts as it was."""
        token, journal = self.token("D1", "look"), self.journal(file=ONE.encode())
        certificate, key = self.certified()
        place, run = ("--socket", str(self.folder / "s")), ("--program", *self.desks_program.words)
        by_port = ("--listen", "127.0.0.1:0", "--certificate", certificate, "--key", key)
        for path, words, modes in [(str(self.desks), ("--desks", str(self.desks)), (0o620, 0o602, 0o666)),
                                   (key, by_port, (0o604, 0o602, 0o620, 0o644, 0o666))]:
            for mode in modes:
                os.chmod(path, mode)
                told = self.stopped("serve", journal, *place, *words, *run,
                                    says=f"{path} has the rights 0{mode:o}, and ")
                self.want_in(told, "`chmod ")
            os.chmod(path, 0o600)
        for mode in (0o400, 0o640, 0o600):
            os.chmod(key, mode)
            context_of(certificate, key)
        self.desks.chmod(0o644)
        with self.guarded(journal) as serve:
            late = self.token("D2", "look")
            wait_for(lambda: "desks-read" in serve.told(), "the new file")
            self.desks.chmod(0o646)
            self.desks.write_text("")
            wait_for(lambda: f"{self.desks} has the rights 0646, and " in serve.told(), "what is told of the file")
            self.want_in(serve.told(), "event=desks-fault")
            for it, name in (token, b"D1"), (late, b"D2"):
                self.assertEqual(talk(serve, b"token %s\n" % it), b"token %s\n" % name)
            self.desks.chmod(0o600)
            wait_for(lambda: serve.told().count("desks-read") == 2, "the file that is closed again")
            self.assertEqual(talk(serve, b"token %s\n" % token), b"closed token\n")


class Slowed(GuardedTest):
    def setUp(self) -> None:
        super().setUp()
        self.house = House()

    @contextlib.contextmanager
    def coming(self, address: str, lines: bytes) -> Iterator[tuple[Client, socket.socket]]:
        """A client from an address that has sent lines."""
        here, there = socket.socketpair()
        there.setblocking(False)
        with here, there:
            there.sendall(lines)
            client = Client(self.house.reception, here, address)
            client.read(0)
            yield client, there

    def heard(self, there: socket.socket) -> bytes | None:
        """What a client has been told so far."""
        with contextlib.suppress(BlockingIOError):
            return there.recv(1000)
        return None

    def test_answers_to_wrong_tokens_wait_longer_and_longer(self) -> None:
        """Right ones are answered at once, from the same address too, and end that."""
        loop = self.house.loop
        for wait in [0, 0, 0, 0, 0, 1, 2, 4, 8, 16, 30, 30]:
            with self.coming("one", b"token wrong\nmore\n") as (client, there):
                self.assertEqual([when for when, _ in loop.later], [loop.now + wait] if wait else [])
                if wait:
                    self.assertEqual(loop.wanted[client.file], LEFT, "nothing is read meanwhile")
                    loop.goes_on_to(loop.now + wait - 0.5)
                    client.look()
                    self.assertIsNone(self.heard(there), wait)
                    with self.coming("two", b"token right\n") as (_, other):
                        self.assertEqual(self.heard(other), b"token D1\n", "another address")
                    loop.goes_on_to(loop.now + 0.5)
                self.assertEqual(self.heard(there), b"closed token\n", wait)
        with self.coming("one", b"token right\nask LOC\n") as (client, there):
            self.assertEqual((self.heard(there), loop.later), (b"token D1\n", []))
            self.same(self.house.entered, (client, None, b"ask LOC\n"))
        with self.coming("one", b"token wrong\n") as (_, there):
            self.assertEqual(self.heard(there), b"closed token\n", "at once behind a right one")

    def test_none_waits_on_the_unix_socket(self) -> None:
        """Where wrong ones keep no place, so that those of the door of HTTP are in nobody's way."""
        for _ in range(12):
            with self.coming(HERE, b"token wrong\n") as (client, there):
                self.assertEqual((self.heard(there), self.house.left.pop()), (b"closed token\n", client))
        self.assertEqual(self.house.loop.later, [])

    def test_who_is_told_to_end_or_goes_while_an_answer_waits(self) -> None:
        """Nothing is kept of one that has gone."""
        self.house.tokens.slowed.wrong["one"] = 5
        with self.coming("one", b"token wrong\n") as (client, there):
            client.leave("stopping")
            self.assertEqual(self.heard(there), b"closed stopping\n")
            self.house.loop.goes_on_to(self.house.loop.now + 1)
            self.assertEqual((self.heard(there), self.house.left.pop()), (b"", client))
        with self.coming("one", b"token wrong\nmore") as (client, there):
            there.close()
            self.house.loop.calls[client.file](LEFT)
            self.assertEqual((self.house.left.pop(), client.is_waiting), (client, False))
            client.watch()
            gone = weakref.ref(client)
            self.house.loop.calls.clear()
        del client
        gc.collect()
        self.assertIsNone(gone())
        self.house.loop.goes_on_to(self.house.loop.now + 2)

    def test_so_many_addresses_are_remembered(self) -> None:
        """The one whose wrong token is the oldest goes."""
        tokens = Tokens(lambda *_, **__: None, Access({HIS.hash: HIS}))
        for _ in range(5):
            tokens.asked("first", WRONG)
        for at in range(MOST_ADDRESSES - 1):
            tokens.asked(str(at), WRONG)
        self.assertEqual(tokens.asked("first", WRONG)[1], 1, "it is remembered, and the latest now")
        tokens.asked("new", WRONG)
        wrong = tokens.slowed.wrong
        self.assertEqual((len(wrong), "0" in wrong, tokens.asked("first", b"right"), "first" in wrong),
                         (MOST_ADDRESSES, False, (HIS, 0), False))
        for _ in range(2000):
            tokens.asked("first", WRONG)
        self.assertEqual(tokens.asked("first", WRONG)[1], 30)

    def test_the_refused_are_told_in_one_line(self) -> None:
        """With the first ten addresses, and how many others there were; and each once."""
        told: list[tuple[str, object]] = []
        tokens = Tokens(lambda event, **fields: told.append((event, fields)))
        for address in ("a", "b", "a"):
            tokens.asked(address, WRONG)
        tokens.tell_of_refused()
        tokens.tell_of_refused()
        for at in range(12):
            tokens.asked(str(at), WRONG)
        tokens.tell_of_refused()
        self.assertEqual(told, [("token-refused", {"count": 3, "addresses": "a,b", "others": None}),
                                ("token-refused", {"count": 12, "addresses": "0,1,2,3,4,5,6,7,8,9", "others": 2})])

    def test_it_is_read_while_there_is_room(self) -> None:
        """For a byte, or by TLS for a whole record."""
        for least in (1, RECORD):
            with self.coming("here", b"") as (client, there):
                client.least = least
                let_in(client)
                client.unused = WINDOW - least
                client.watch()
                there.sendall(b"x")
                client.read(READ)
                self.assertEqual((client.unused, self.house.loop.wanted.get(client.file, 0)), (WINDOW - least + 1, 0))
                client.used(1, b"")
                self.assertEqual(self.house.loop.wanted.get(client.file), READ)

    def goes_on(self, client: Client, there: socket.socket, sent: bytes) -> bytes | None:
        """What a client is told next that sends a byte each two seconds."""
        self.heard(there)
        for at in range(len(sent)):
            self.house.loop.now += 2
            there.sendall(sent[at:at + 1])
            client.read(READ)
            client.look()
            if told := self.heard(there):
                return told
        return None

    def test_a_byte_now_and_then_gives_no_more_time(self) -> None:
        """A line is to end within `--slow` seconds of its beginning, and who must give a token is to within those of
        the connection; five here."""
        for address, first, sent, wanted in [
                ("far", b"", b"token right", b"closed half\n"), ("far", b"tok", b"en right", b"closed half\n"),
                ("far", b"token right\n", b"desk hub", b"closed half\n"), (HERE, b"token ", b"right", b"closed half\n"),
                (HERE, b"", b"desk a", b"closed half\n"), (HERE, b"desk hub ", b"COUNTER-7", b"closed half\n"),
                (HERE, b"status\n", b"status", b"closed half\n"), (HERE, b"", b"passed\ndesk a", b"closed half\n")]:
            with self.subTest(address=address, first=first), self.coming(address, first) as (client, there):
                self.assertEqual(self.goes_on(client, there, sent), wanted)
        for first, sent, wanted in [(b"", b"book LOC 1", b"closed half\n"), (b"", b"\n" * 20, None),
                                    (b"", b"b\n" * 20, None), (b"book", b" LOC 1\n", b"closed half\n")]:
            with self.subTest(seated=first), self.coming(HERE, b"") as (client, there):
                let_in(client, first, close)
                self.assertEqual(self.goes_on(client, there, sent), wanted)

    def test_a_line_that_begins_late_has_its_time(self) -> None:
        """Whether the program has it already or not."""
        for is_seated in (False, True):
            with self.coming(HERE, b"") as (client, there):
                let_in(client, part=close) if is_seated else None
                for after, sent, wanted in (30, b"de", None), (4, b"s", None), (2, b"", b"closed half\n"):
                    self.house.loop.now += after
                    there.sendall(sent)
                    client.read(READ) if sent else None
                    client.look()
                    self.assertEqual(self.heard(there), wanted, (is_seated, after))

    def test_who_must_give_a_token_has_little_time_for_it(self) -> None:
        """And who needn't, as much as for any line."""
        for address, sent, wanted in [("far", b"", b"closed token\n"), ("far", b"tok", b"closed half\n"),
                                      ("far", b"desk D1\n", b"closed token\n"), ("far", b"token right\n", None),
                                      ("here", b"", None), ("here", b"tok", b"closed half\n")]:
            with self.coming(address, sent) as (client, there):
                self.house.loop.now += 6
                self.heard(there) if sent == b"token right\n" else None
                client.look()
                self.assertEqual(self.heard(there), wanted, (address, sent))
