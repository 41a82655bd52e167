"""The door: lines by HTTP are carried out once, what each refusal is, and what can be asked without a desk."""
from __future__ import annotations

import signal
import time
from typing import Callable

from harness import meanwhile, wait_for
from nrm.desk import Desk
from nrm.server.access import add_desk
from nrm.web.callers import Callers
from server.serves import rows_in, talk
from web.webs import WebTest

JSON = {"Accept": "application/json"}
AT = "/networks/hub/desks/C-7/lines"
SOON = 3  # seconds, which is less than wrong tokens wait by then
REFUSALS = [  # what the server answers a line, the status, the word, and whether the request may come again soon
    ("closed network\n", 404, "network", False), ("closed old\n", 409, "old", False),
    ("closed sequence\n", 409, "sequence", False), ("closed elsewhere\n", 409, "elsewhere", False),
    ("closed token\n", 401, "token", False), ("closed halted\n", 503, "halted", False),
    ("closed version\n", 503, "version", False), ("closed rows\n", 503, "rows", False),
    ("closed stopping\n", 503, "stopping", True), ("closed journal\n", 503, "journal", True),
    ("closed program 6\n", 503, "program", True), ("closed clients\n", 503, "clients", True),
    ("denied\n", 403, "denied", False), ("memory\n", 503, "memory", True), ("bad\n", 400, "bad", False),
    (None, 503, "connection", True), ("", 504, "late", True)]


def speaks(**replies: str | None) -> Callable[[str], str | None]:
    """A server that knows one token, greets desks, and answers lines by their first word."""
    def answer(line: str) -> str | None:
        kind, *words = line.split(" ")
        if kind in replies:
            return replies[kind]
        if kind == "token":
            return f"token {words[0].upper()}\n" if words[0] in ("c-7", "look-1") else "closed token\n"
        return f"at {words[-1] if words[-1].isdigit() else 1}\n" if kind == "desk" else "ok 1\n"
    return answer


class DoorTest(WebTest):
    def same_told(self, told: object, status: int, text: str) -> None:
        self.assertEqual((told.status, told.text), (status, text))  # type: ignore[attr-defined]

    def test_a_line_is_carried_out_once(self) -> None:
        journal = self.journal("hub", mode="bid")
        with self.served(journal) as serve, self.web(journal, serve.path) as web:
            self.same_told(web.post(f"{AT}/1", "book HJ-Q 2"), 200, "ok 1\n")
            self.same_told(web.post(f"{AT}/1", "book HJ-Q 2"), 200, "ok 1\n")
            self.assertEqual(web.post(AT, "cancel 1", Idempotency_Key="2", **JSON).json,
                             {"kind": "Cancelled", "number": 1, "amount": "540", "reply": "cancelled 1 540"})
            self.same_told(web.post(AT, "cancel 1", Idempotency_Key="2"), 200, "cancelled 1 540\n")
            self.same_told(web.post(f"{AT}/9", "book HJ-Q 61"), 200, "no HAM-FRA\n")
            told = web.post(f"{AT}/9", "book HJ-Q 1", **JSON)
            self.assertEqual((told.status, told.json["error"]), (409, "sequence"))
            self.assertEqual(told.head["content-type"], "application/json")
            self.same_told(web.post(f"{AT}/9", "book HJ-Q 61"), 200, "no HAM-FRA\n")
            with Desk(str(serve.path), "C-7", "hub") as other:
                self.assertEqual(other.sequence, 10)
            told = web.post(f"{AT}/10", "book HJ-Q 1")
            self.assertEqual((told.status, told.text.split(":")[0]), (409, "elsewhere"))
            self.same_told(web.post(f"{AT}/10", "book HJ-Q 1"), 200, "ok 2\n")
        self.same(rows_in(journal), (1, "C-7", 1, "book HJ-Q 2", "ok 1"), (2, "C-7", 2, "cancel 1", "cancelled 1 540"),
                  (3, "C-7", 9, "book HJ-Q 61", "no HAM-FRA"), (4, "C-7", 10, "book HJ-Q 1", "ok 2"))

    def test_a_server_that_begins_anew_isnt_noticed(self) -> None:
        journal = self.journal("hub", mode="bid")
        with self.web(journal, self.folder / "socket") as web:
            with self.served(journal):
                self.same_told(web.post(f"{AT}/1", "book HJ-Q 2"), 200, "ok 1\n")
            with self.served(journal):
                self.same_told(web.post(f"{AT}/2", "book HJ-Q 2"), 200, "ok 2\n")
                self.same_told(web.post(f"{AT}/1", "book HJ-Q 2"), 200, "ok 1\n")
        self.assertEqual(len(rows_in(journal)), 2)

    def test_what_is_no_line_isnt_sent(self) -> None:
        """And a line that the server refuses is told as such."""
        journal = self.journal("hub", mode="bid")
        with self.served(journal) as serve, self.web(journal, serve.path) as web:
            for status, word, path, line, head in (
                    (400, "line", f"{AT}/1", "", {}), (400, "line", f"{AT}/1", "book HJ-Q 1\n", {}),
                    (400, "line", f"{AT}/1", "x" * 1000, {}), (400, "bad", f"{AT}/1", "book HJ-Q", {}),
                    (400, "bad", f"{AT}/1", "x" * 999, {}), (413, "length", f"{AT}/1", "x" * 4097, {}),
                    (400, "number", f"{AT}/0", "plan", {}), (400, "number", f"{AT}/01", "plan", {}),
                    (400, "number", f"{AT}/1000000000000000", "plan", {}), (400, "number", AT, "plan", {}),
                    (400, "number", AT, "plan", {"Idempotency_Key": "1 "  "2"}),
                    (400, "number", AT, "plan", {"Idempotency_Key": '"1"'}),
                    (400, "number", AT, "plan", {"Idempotency_Key": "8e03978e-40d5-43dd-bc93-6894a57f9324"}),
                    (400, "name", "/networks/hub/desks/c-7/lines/1", "plan", {}),
                    (404, "network", "/networks/Hub/desks/C-7/lines/1", "plan", {}),
                    (404, "network", "/networks/none/desks/C-7/lines/1", "plan", {}),
                    (401, "token", f"{AT}/1", "plan", {"Authorization": "Basic eDp5"}),
                    (401, "token", f"{AT}/1", "plan", {"Authorization": "Bearer a b"})):
                with self.subTest(path=path, line=line[:20], head=head):
                    told = web.post(path, line, **JSON, **head)
                    self.assertEqual((told.status, told.json["error"]), (status, word))
                    if "Idempotency_Key" in head:
                        self.want_in(str(told.json["why"]), "`Idempotency-Key` is a whole number")
            self.same_told(web.post(f"{AT}/1", "book HJ-Q 1"), 200, "ok 1\n")
        self.assertEqual(len(rows_in(journal)), 1)

    def test_what_can_be_asked(self) -> None:
        journal = self.journal("hub", mode="davn")
        at = "/networks/hub"
        with self.served(journal) as serve, self.web(journal, serve.path) as web:
            web.post(f"{AT}/1", "book HJ-Q 2")
            self.same_told(web.get(f"{at}/ask/HJ-Q"), 200, "ask HJ-Q 29 leg HAM-FRA\n")
            limit = {"kind": "NoLeg", "leg": "HAM-FRA"}
            self.assertEqual(web.get(f"{at}/ask/HJ-Q", **JSON).json,
                             {"kind": "Available", "party": 29, "limit": limit, "reply": "ask HJ-Q 29 leg HAM-FRA"})
            self.same_told(web.get(f"{at}/legs/HAM-FRA"), 200,
                           "leg HAM-FRA seats 60 authorised 60 sold 2 left 58\non HAM-FRA HJ-Q 2\n")
            self.assertEqual(web.get(f"{at}/legs/HAM-FRA", **JSON).json["products"], {"HJ-Q": 2})
            self.same_told(web.get(f"{at}/hindsight"), 200, "hindsight 540/1 revenue 540 withheld 0\n")
            self.assertEqual(web.get(f"{at}/hindsight", **JSON).json["bound"], {"num": "540", "den": "1"})
            self.assertEqual(web.get(f"{at}/plan").text.encode(), talk(serve, b"plan\n")[:-1])
            plan = web.get(f"{at}/plan", **JSON).json
            self.assertEqual((plan["mode"], len(plan["nests"]) > 10), ("davn", True))  # type: ignore[arg-type]
            self.assertEqual(plan["prices"]["HAM-FRA"], {"num": "110", "den": "1"})  # type: ignore[index]
            for path in ("ask/NONE", "legs/NONE"):
                self.assertEqual(web.get(f"{at}/{path}", **JSON).json["error"], "unknown")
            self.assertEqual(web.get(f"{at}/ask/none").status, 400)
        self.assertEqual(len(rows_in(journal)), 1)

    def test_bookings_are_those_of_the_journal_now(self) -> None:
        """What was answered a moment ago is in it."""
        journal = self.journal("hub", mode="bid")
        with self.served(journal) as serve, self.web(journal, serve.path) as web:
            web.post(f"{AT}/1", "book HJ-Q 2")
            self.same_told(web.get("/networks/hub/bookings/1"), 200,
                           "booking 1 product HJ-Q party 2 fare 270 sold-by 1\n")
            web.post(f"{AT}/2", "cancel 1")
            self.assertEqual(web.get("/networks/hub/bookings/1", **JSON).json, {
                "kind": "Booking", "number": 1, "product": "HJ-Q", "party": 2, "fare": "270", "sold_by": 1,
                "stands": False, "cancelled_by": 2, "amount": "540"})
            for number in ("2", "0", "x", "9" * 13):
                self.assertEqual(web.get(f"/networks/hub/bookings/{number}").status, 404, number)
            self.assertEqual(web.get("/networks/none/bookings/1").text.split(":")[0], "network")

    def test_tokens_go_to_the_server(self) -> None:
        heard: list[str] = []

        def answer(line: str) -> str | None:
            heard.append(line)
            return speaks()(line)
        with self.stub(answer) as place, self.web(self.journal(), place) as web:
            self.same_told(web.post(f"{AT}/5", "book HJ-Q 1", Authorization="Bearer c-7"), 200, "ok 1\n")
            self.assertEqual(heard, ["token c-7", "desk hub C-7 5", "book HJ-Q 1"])
            self.same_told(web.post(f"{AT}/6", "book HJ-Q 1", Authorization="bearer c-7"), 200, "ok 1\n")
            self.assertEqual(heard[3:], ["book HJ-Q 1"], "the connection is used again")
            told = web.post(f"{AT}/7", "book HJ-Q 1", Authorization="Bearer wrong")
            self.assertEqual((told.status, told.text.split(":")[0], told.head["www-authenticate"]),
                             (401, "token", "Bearer"))
            self.assertNotIn("wrong", told.text)
            self.assertEqual(heard[4:], ["token wrong"])

    def test_wrong_tokens_are_in_nobodys_way(self) -> None:
        """Neither by the door nor by the socket: a right one is answered while wrong ones wait."""
        desks = str(self.folder / "desks")
        token = add_desk(desks, "C-7", ["look"], False)
        journal = self.journal("hub", mode="bid")
        with self.served(journal, "--desks", desks, "--clients", "8") as serve:
            with self.web(journal, serve.path, needs_token=True) as web:
                callers = web.web.door.callers

                def ask(number: int) -> None:
                    web.post(f"/networks/hub/desks/E/lines/{number}", "plan", Authorization=f"Bearer no-{number}")

                for number in range(1, 31):
                    meanwhile(ask, number)
                wait_for(lambda: callers.slowed.wrong.get("127.0.0.1") == 30, "their refusals")
                began = time.monotonic()
                told = web.post(f"{AT}/1", "ask HJ-Q", Authorization=f"Bearer {token}")
                self.assertEqual((told.status, told.text), (200, "ask HJ-Q 60 leg HAM-FRA\n"))
                self.assertEqual(talk(serve, b"token %s\n" % token.encode()), b"token C-7\n")
                self.assertLess(time.monotonic() - began, SOON)
                self.assertGreater(web.there(), 5, "wrong ones wait")

    def test_callers_are_slowed_by_their_own_addresses(self) -> None:
        """And only so many at a time, so that they don't take the connections of others."""
        waits: list[float] = []
        callers = Callers(1, lambda it: (waits.append(it), callers.refused("third") if it == 1 else None))
        for _ in range(5):
            callers.refused("third")
            callers.refused("one")
        callers.refused("two")
        self.assertEqual(waits, [])
        callers.refused("one")
        self.assertEqual(waits, [1], "as many wait as may, so the third doesn't")
        callers.refused("one")
        self.assertEqual(waits, [1, 2])
        callers.admitted("one")
        callers.refused("one")
        self.assertEqual(waits, [1, 2], "at once behind a right one")

    def test_who_is_refused_makes_nobody_leave(self) -> None:
        """As many connections are kept as may be. Those of others stay, and nothing is kept of the refused."""
        heard: list[str] = []
        with self.stub(lambda it: heard.append(it) or speaks()(it)) as place, self.web(self.journal(), place) as web:
            kept = web.web.kept
            kept.most = 2
            for at, desk in enumerate(("A", "B"), 1):
                web.post(f"/networks/hub/desks/{desk}/lines/{at}", "book HJ-Q 1")
            for at in range(4):
                told = web.post(f"{AT}/1", "book HJ-Q 1", Authorization=f"Bearer no-{at}")
                self.assertEqual(told.status, 401)
            self.assertEqual([it.desk for it in kept.entries], ["A", "B"])
            heard.clear()
            self.same_told(web.post("/networks/hub/desks/A/lines/2", "book HJ-Q 1"), 200, "ok 1\n")
            self.assertEqual(heard, ["book HJ-Q 1"], "the connection is used again")

    def test_who_comes_from_beyond_needs_a_token(self) -> None:
        heard: list[str] = []
        with self.stub(lambda it: heard.append(it) or speaks()(it)) as place:
            with self.web(self.journal(), place, needs_token=True) as web:
                self.assertEqual(web.post(f"{AT}/5", "book HJ-Q 1").status, 401)
                self.assertEqual(heard, [])
                self.assertEqual(web.post(f"{AT}/5", "book HJ-Q 1", Authorization="Bearer c-7").status, 200)

    def test_this_process_looks_by_its_own_token(self) -> None:
        heard: list[str] = []
        with self.stub(lambda it: heard.append(it) or speaks(plan="first\n")(it)) as place:
            with self.web(self.journal(), place, token="look-1") as web:
                self.same_told(web.get("/networks/hub/plan", Authorization="Bearer c-7"), 200, "first\n")
                self.assertEqual(heard, ["token look-1", "token look-1", "desk hub LOOK-1", "plan"])
            with self.web(self.journal(at="other"), place, token="none") as web:
                self.assertEqual(web.get("/networks/hub/plan").status, 401)

    def test_what_the_server_says_is_told(self) -> None:
        told_by_server: list[str | None] = []
        with self.stub(lambda it: speaks(book=told_by_server[-1])(it)) as place:
            with self.web(self.journal(), place, seconds=0.3) as web:
                for at, (reply, status, word, is_to_come) in enumerate(REFUSALS, 1):
                    with self.subTest(reply=reply):
                        told_by_server.append(reply)
                        told = web.post(f"{AT}/{at}", "book HJ-Q 1", **JSON)
                        self.assertEqual((told.status, told.json["error"], "retry-after" in told.head),
                                         (status, word, is_to_come))
                        if is_to_come and word != "memory":
                            self.want_in(str(told.json["why"]), "the same request may be sent again")
            place.unlink()
        with self.stub(speaks(desk="denied\n")) as place, self.web(self.journal(at="denied"), place) as web:
            self.assertEqual(web.post(f"{AT}/1", "plan", **JSON).json["error"], "denied")
        with self.web(self.journal(at="none"), self.folder / "nowhere", seconds=0.3) as web:
            told = web.post(f"{AT}/1", "plan", **JSON)
            self.assertEqual((told.status, told.json["error"], told.head["retry-after"]), (503, "connection", "1"))

    def test_late_and_sent_again(self) -> None:
        """A server that is stopped for a while: what was late has its reply, and was carried out once."""
        journal = self.journal("hub", mode="bid")
        with self.served(journal) as serve, self.web(journal, serve.path, seconds=0.5) as web:
            wait_for(lambda: web.post(f"{AT}/1", "book HJ-Q 1").text == "ok 1\n", "the first reply")
            serve.process.send_signal(signal.SIGSTOP)
            told = web.post(f"{AT}/2", "book HJ-Q 1")
            self.assertEqual((told.status, told.text.split(":")[0]), (504, "late"))
            serve.process.send_signal(signal.SIGCONT)
            wait_for(lambda: web.post(f"{AT}/2", "book HJ-Q 1").text == "ok 2\n", "the reply")
        self.assertEqual(len(rows_in(journal)), 2)

    def test_desks_are_few_and_go(self) -> None:
        """As many as may be are there: the one that was alone for longest makes room; those that are idle go."""
        heard: list[str] = []
        with self.stub(lambda it: heard.append(it) or speaks()(it)) as place, self.web(self.journal(), place) as web:
            kept = web.web.kept
            kept.most = 2
            for desk in ("A", "B", "A", "C", "A", "B"):
                web.post(f"/networks/hub/desks/{desk}/lines/{len(heard) + 1}", "book HJ-Q 1")
            greeted = [it.split(" ")[2] for it in heard if it.startswith("desk")]
            self.assertEqual(greeted, ["A", "B", "A", "C", "A", "B"])
            self.assertEqual([it.desk for it in kept.entries], ["A", "B"])
            kept.idle = 0.2
            wait_for(lambda: not kept.entries, "the end of those that are idle")

    def test_a_desk_asks_one_line_at_a_time(self) -> None:
        """Those that come together are all answered, each under its number."""
        journal = self.journal("hub", mode="first")
        with self.served(journal) as serve, self.web(journal, serve.path) as web:
            told: dict[int, str] = {}

            def ask(number: int) -> None:
                told[number] = web.post(f"{AT}/{number}", "ask HJ-Q").text
            for it in [meanwhile(ask, number) for number in range(1, 9)]:
                it.join()
            self.assertEqual(set(told.values()), {"ask HJ-Q 60 leg HAM-FRA\n"})

    def test_what_is_off_isnt_there(self) -> None:
        with self.web(self.journal(), has_door=False, has_page=False) as web:
            for method, path in (("POST", f"{AT}/1"), ("POST", AT), ("GET", "/networks/hub/plan"), ("GET", "/"),
                                 ("GET", "/networks/hub"), ("GET", "/events")):
                told = web.ask(method, path, b"plan" if method == "POST" else None)
                self.assertEqual((told.status, told.text.split(":")[0]), (404, "off"), path)
            self.assertEqual(web.get("/openapi.json").status, 200)
