"""When the clock of a server has plans made, with the clock handed in: once for each period, the latest alone, and what
it does where somebody was before it, where it fails, and where nothing is to be done."""
from __future__ import annotations

import time

from nrm.journal.sqlite_tables import using
from server.clocks import ClockTest, times

THREE = times(1100, [(2, 1010), (3, 1020), (4, 1030)])
CLOCK = "clock network=one period={} seconds=0.333 value=5/1 changed=AB"


class Periods(ClockTest):
    def test_each_is_asked_for_once_as_it_begins(self) -> None:
        self.begun({"one": THREE, "two": None})
        for second in (1000, 1001, 1009.9):
            self.assertEqual(self.at(second), [])
        self.assertEqual(self.at(1010), [("one", 2)])
        self.set(1, THREE)
        self.assertEqual(self.at(1011), [], "it is being asked")
        self.assertEqual(len(self.arrivals.clients), 1)
        self.answer()
        self.assertEqual((self.told(), self.arrivals.clients), ([CLOCK.format(2)], set()))
        for second, wanted in ((1012, []), (1020, [("one", 3)])):
            self.assertEqual(self.at(second), wanted)
        self.answer()
        self.assertEqual(self.at(1030), [("one", 4)])
        self.answer()
        self.assertEqual(self.at(1099), [])
        self.assertEqual(self.told(), [CLOCK.format(3), CLOCK.format(4)])

    def test_missed_ones_arent_made_up_for(self) -> None:
        """But for the latest; a period for which there is no time isn't among them."""
        self.begun({"one": times(1100, [(2, 10), (4, 20), (5, 999), (6, 1050)])})
        self.assertEqual(self.at(1000), [("one", 5)])
        self.answer()
        self.assertEqual(self.told(), ["clock-missed network=one periods=2,4", CLOCK.format(5)])
        self.assertEqual(self.at(1051), [("one", 6)])

    def test_a_clock_that_jumps(self) -> None:
        """Back, which does nothing again; forward, which does the latest once; beyond the departure and back again."""
        self.begun({"one": THREE})
        self.assertEqual(self.at(1010), [("one", 2)])
        self.answer()
        self.assertEqual([self.at(it) for it in (5, 6, 1010, 1011)], [[], [], [], []])
        self.assertEqual(self.at(1035), [("one", 4)])
        self.answer()
        self.assertEqual([self.at(it) for it in (1015, 1020, 1030)], [[], [], []])
        self.begun({"one": THREE})
        self.assertEqual([self.at(it) for it in (5000, 5001, 1011)], [[], [], [("one", 2)]])

    def test_a_period_that_somebody_asked_for(self) -> None:
        """Isn't asked for again, nor is one before it; one that the network hasn't doesn't count."""
        self.begun({"one": THREE})
        self.at(1000)
        self.row("reoptimise 2", "optimised 1/1")
        self.row("reoptimise 99", "unknown")
        self.assertEqual([self.at(1010), self.at(1019)], [[], []])
        self.assertEqual(self.at(1020), [("one", 3)])
        self.answer()
        self.row("reoptimise 4", "overflow")
        self.row("reoptimise 1", "optimised 1/1")
        self.assertEqual([self.at(1030), self.at(1040)], [[], []])
        self.assertEqual(self.told(), [CLOCK.format(3)])

    def test_one_that_was_sent_while_it_was_due(self) -> None:
        """Four are asked at a time; for the fifth another desk asks meanwhile."""
        self.begun({f"n{at}": THREE for at in range(6)})
        self.assertEqual(len(self.at(1010)), 4)
        waiting = {f"n{at}" for at in range(6)} - {name for name, _, _ in self.arrivals.sent}
        first = min(waiting)
        self.row("reoptimise 2", "optimised 1/1", int(first[1]) + 1)
        for at in range(4):
            self.answer(at=at)
        self.assertEqual([name for name, _, _ in self.arrivals.sent[4:]], [*waiting - {first}])

    def test_those_that_take_long_keep_no_others_waiting(self) -> None:
        self.begun({f"n{at}": THREE for at in range(6)})
        self.assertEqual([len(self.at(it)) for it in (1010, 1011)], [4, 0])
        self.arrivals.loop.now += 60
        self.assertEqual(len(self.at(1011)), 2)

    def test_where_nothing_is_to_be_done(self) -> None:
        """At the departure and behind it; where it has ended, is halted, or has another program; while it stops."""
        for why in ("", "departs", "ended", "halted", "other", "stops"):
            with self.subTest(why):
                self.begun({"one": times(1010 if why == "departs" else 1100, [(2, 1005)])})
                self.at(1000)
                self.arrivals.answers, self.arrivals.loop.is_ending = why != "other", why == "stops"
                if why in ("ended", "halted"):
                    with using(str(self.path), is_to_write=True) as connection:
                        connection.execute(f"UPDATE network SET {why} = 1")
                self.assertEqual(self.at(1010), [] if why else [("one", 2)])
                self.assertEqual(self.told(), [])

    def test_under_first_there_is_no_plan(self) -> None:
        self.begun({"one": THREE}, every=60, mode="first")
        self.row("book LOC 1", "ok 1")
        self.assertEqual([self.at(it) for it in (1000, 1010, 1090)], [[], [], []])

    def test_times_that_another_process_sets(self) -> None:
        """Are seen in the next second; while rows are being written all the time, in some more."""
        self.begun({"one": times(1100, [(2, 1090)]), "two": None})
        self.at(1000)
        self.set(1, THREE)
        self.assertEqual(self.at(1010), [("one", 2)])
        self.answer()
        self.arrivals.in_writing = [None]
        self.set(2, THREE)
        found = [self.at(1010 + it) for it in range(1, 8)]
        self.assertEqual([it for it in found if it], [[("two", 2)]])


class Failing(ClockTest):
    def test_what_passes_is_tried_again_after_a_minute(self) -> None:
        for reply, why, told in (("memory", None, "memory"), ("", "program 137", "closed-program-137"),
                                 ("", "elsewhere", "closed-elsewhere"), ("denied", None, "denied")):
            with self.subTest(told):
                self.begun({"one": times(5000, [(2, 1005)])})
                self.assertEqual(self.at(1005), [("one", 2)])
                self.answer(reply, why)
                self.assertEqual(self.told(), [f"clock-failed network=one period=2 why={told} again=60"])
                self.set(1, times(5000, [(2, 1004)]))
                self.assertEqual([self.at(1006 + it) for it in range(58)], [[]] * 58)
                self.assertEqual([self.at(1065), self.at(1066), self.at(1067)].count([("one", 2)]), 1)
                self.answer()
                self.assertEqual(self.told(), [CLOCK.format(2)])

    def test_what_would_fail_again_isnt_tried_again(self) -> None:
        """For that period, be there a row of it or not; the next one is tried."""
        for reply in ("overflow", "unknown", "bad"):
            with self.subTest(reply):
                self.begun({"one": times(5000, [(2, 1005), (3, 2000)])}, every=60)
                self.assertEqual(self.at(1005), [("one", 2)])
                self.answer(reply)
                self.assertEqual(self.told(), [f"clock-failed network=one period=2 why={reply} again=no"])
                self.row("book LOC 1", "ok 1")
                self.assertEqual([self.at(it) for it in (1006, 1200, 1999)], [[], [], []])
                self.assertEqual(self.at(2000), [("one", 3)])

    def test_a_line_whose_reply_was_lost_isnt_sent_again(self) -> None:
        self.begun({"one": THREE})
        self.at(1010)
        self.row("reoptimise 2", "optimised 5/1", desk="CLOCK")
        self.answer(why="program 137")
        self.arrivals.loop.now += 100
        self.assertEqual(self.at(1011), [])

    def test_a_look_that_was_lost(self) -> None:
        """The plan is told, and that nobody knows which prices it changed."""
        self.begun({"one": THREE})
        self.at(1010)
        self.answer(whole=False)
        self.assertEqual(self.told(), [CLOCK.format(2).replace("changed=AB", "changed=unknown")])

    def test_a_journal_that_cant_be_read(self) -> None:
        """Is told, and the clock goes on."""
        self.begun({"one": THREE})
        self.arrivals.writer.connection.execute("ALTER TABLE period RENAME TO other")
        self.assertEqual(self.at(1010), [])
        self.assertEqual(self.told(), ['clock-failed why="no such table: period"'])
        self.arrivals.writer.connection.execute("ALTER TABLE other RENAME TO period")
        self.assertEqual(self.at(1011), [("one", 2)])


class Every(ClockTest):
    def test_the_plan_is_made_anew(self) -> None:
        """So long after the last, by whomever it was, if lines were written since."""
        self.begun({"one": times(9000, [(2, 1500)])}, every=60)
        self.assertEqual(self.at(1000), [])
        self.row("book LOC 1", "ok 1")
        self.assertEqual([self.at(1059.9), self.at(1060)], [[], [("one", 1)]])
        self.answer()
        self.assertEqual([self.at(1120), self.at(1200)], [[], []], "there were no lines")
        self.row("book LOC 1", "ok 2")
        self.assertEqual(self.at(1201), [("one", 1)])
        self.answer()
        self.row("book LOC 1", "ok 3")
        self.at(1230)
        self.row("reoptimise 1", "optimised 1/1")
        self.row("book LOC 1", "ok 4")
        self.assertEqual([self.at(1270), self.at(1289), self.at(1290)], [[], [], [("one", 1)]])
        self.answer()
        self.assertEqual(self.at(1500), [("one", 2)])
        self.answer()
        self.row("cancel 1", "cancelled 1 200")
        self.assertEqual([self.at(1559), self.at(1560)], [[], [("one", 2)]])

    def test_it_is_that_of_the_latest_period(self) -> None:
        """Of those that have begun, and of those that somebody asked for; not behind the departure."""
        self.begun({"one": times(1300, [(2, 1001)])}, every=60)
        self.at(1000)
        self.row("reoptimise 3", "optimised 1/1")
        self.row("reoptimise 1", "optimised 1/1")
        self.row("book LOC 1", "ok 1")
        self.assertEqual([self.at(1059), self.at(1060)], [[], [("one", 3)]])
        self.answer()
        self.row("book LOC 1", "ok 2")
        self.assertEqual(self.at(1300), [])


class Cost(ClockTest):
    def counted(self) -> list[str]:
        """The statements from here on."""
        statements: list[str] = []
        for connection in (self.arrivals.reader, self.arrivals.writer.connection):
            connection.set_trace_callback(statements.append)
        return statements

    def test_a_second_of_a_thousand_networks(self) -> None:
        """Takes one query that reads no table, whether lines were written or not; and where all are looked at one more,
        for all of them. With plans to be made anew, one more in a second in which lines were written."""
        count = 1000
        for every in (0, 600):
            with self.subTest(every):
                self.begun({f"n{at}": times(9000, [(period, 1000 * period) for period in range(2, 17)][:7])
                            for at in range(count)}, every)
                self.assertEqual(self.at(1000), [])
                statements = self.counted()
                self.at(1001)
                self.assertEqual(statements[0], "PRAGMA data_version")
                self.assertLessEqual(len(statements), 3 if every else 1, statements)
                for network in range(1, 11):
                    self.row("book LOC 1", "ok 1", network)
                statements.clear()
                used = time.process_time()
                for second in range(1002, 1012):
                    self.at(second)
                self.assertLess(time.process_time() - used, 0.1)
                self.assertLessEqual(len(statements), 40 if every else 10)
                self.set(count, times(9000, [(2, 1012)]))
                statements.clear()
                self.assertEqual(self.at(1012), [(f"n{count - 1}", 2)])
                self.assertLessEqual(len(statements), 5, statements)
