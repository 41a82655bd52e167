"""Wrong forms of the server, each a mistake that a person could make: what is edited, where it must be found, and what
is told then. Those of the crowd, and then those of the promises that a test asks for."""
from __future__ import annotations

from trials.mistakes import BLIND, LOST, TWICE, Edit, Form

COMMITS, LOOKING, TABLES, STANDING, WRITING = (
    f"nrm/journal/{it}.py" for it in ("commits", "looking", "sqlite_tables", "plans_due", "sqlite_writing"))
ARRIVALS, GROUPING, HALTS, PROGRAMS, RELAY, SERVING, SESSIONS = (f"nrm/server/{it}.py" for it in (
    "arrivals", "group_commit", "halts", "programs", "relay", "serving", "sessions"))
OF_MOMENTS, OF_PROMISES = "server.test_moments.Moments", "server.test_promises.Promises"
OF_SESSIONS = "server.test_sessions.Places"
OF_FILES = "server.test_hands.Files"
OF_RIGHTS = "server.test_rights.Ending"
OF_SERVING, OF_JOURNALS = "server.test_serving.Serving", "journal.test_journal.Journals"
SMALL = ("--networks", "3", "--desks", "30", "--pause", "0.3", "--copies", "0", "--kills", "4", "--troubles", "4")
UNTRUE = r"was told '(leg|ask) .*', true of no moment"
BUSY = "--pause", "0.02"
SCARCE = *BUSY, "--places", "5", "--strays", "8"
STAYS = "        if place in self.held_of:\n", "        if False:\n"
NOT_HALTED = r"where the journal of net-\d was changed net-\d isn't 'closed halted'"
GENEROUS = '''#!{python}
"""In place of the program: more seats may be sold by it than the network file says."""
import os, re, sys

mode, path = sys.argv[1:]
copy = os.memfd_create("network", 0)
with open(path) as file:
    os.write(copy, re.sub("(leg,[^,]*,[0-9]+),[0-9]+", r"\\1,999", file.read()).encode())
words = [*{desks}, mode, f"/dev/fd/{{copy}}"]
os.execvp(words[0], words)
'''


def form(place: str, told: str, *edits: Edit, program: str = "", more: tuple[str, ...] = ()) -> Form:
    """A mistake: the troubles in which the crowd must find it, or a test; the pattern of what the check tells that is
    meant for it; what is edited, or a program in the place of the right one; other words for the crowd."""
    if place.startswith(("server.", "journal.")):
        return Form(edits, ("unittest", place), told, program)
    return Form(edits, ("server.crowd", "{folder}", *SMALL, "--only", place, *more), told, program)


FORMS = {
    "the reply goes out before the commit": form("force,full", LOST, (SESSIONS, """self.written))
""", """self.written))
        self.kept(given.count())
"""), (SESSIONS, """            self.kept(given.count())
""", """            pass
""")),
    "a commit isn't forced to the disk": form("power", LOST,
        (TABLES, "PRAGMA synchronous = FULL", "PRAGMA synchronous = NORMAL")),
    "what is read is told before it is forced": form("unforced", LOST,
        (WRITING, """self.connection.execute("PRAGMA wal_checkpoint(TRUNCATE)").fetchone()
            self.epoch = self.take(program)
""", """self.connection.execute("PRAGMA synchronous = OFF")
            self.epoch = self.take(program)
            self.connection.execute("PRAGMA synchronous = FULL")
""")),
    "nobody looks whether the journal's files are those that were opened": form(
        f"{OF_FILES}.test_nothing_is_answered_into_files_that_are_gone", r"AssertionError: .*ok 21",
        (WRITING, "        self.files.see_that_they_are_there()\n\n    def look",
         "        self.files.note()\n\n    def look")),
    "nobody looks whether the log was cut": form(
        f"{OF_FILES}.test_nothing_is_answered_into_files_that_are_gone", r"AssertionError: .*ok 21",
        (WRITING, "            self.files.see_that_none_is_cut()  # before", "            # before")),
    "what can't be written is taken for written": form("full,force", LOST,
        (COMMITS, "        return Written(given, fault=fault)\n", "        return Written(given)\n")),
    "there is no fence": form("stopped", TWICE, (WRITING, """WHERE network = ? AND epoch = ? AND lines = ?"
""", """WHERE network = ? OR ? = ?"
"""), (WRITING, """            values += values_of(it, self.epoch, at)
""", """            [[lines]] = self.connection.execute("SELECT lines FROM head WHERE network = ?", [it.network])
            some = values_of(it, self.epoch, at)
            some[::VALUES] = range(lines - it.count() + 1, lines + 1)
            values += some
""")),
    "there is no lock": form("second", "a second server wasn't refused",
        (WRITING, "        fcntl.flock(file, fcntl.LOCK_EX | fcntl.LOCK_NB)\n", "")),
    "a look is answered by who has lost the journal": form("asleep", UNTRUE,
        (SESSIONS, "if not rows and self.commits.writer.is_still(given):", "if not rows:")),
    "who has lost the journal halts a network": form(
        f"{OF_MOMENTS}.test_one_that_reads_while_another_writes_halts_nothing", "AssertionError: .*halted",
        (HALTS, "            if head_of(tables, number)[0] != epoch:\n", "            if False:\n")),
    "sent again is carried out again": form("server", TWICE,
        (TABLES, "number || char(9) || desk || char(9) || sequence || char(9)",
         "number || char(9) || 'AGAIN' || char(9) || number || char(9)")),
    "the journal isn't given again": form("server", r"halted: .* was given out|closed halted",
        (PROGRAMS, "        self.run_program(session, file, rows, BEGINS)\n",
         "        self.run_program(session, file, iter(()), BEGINS)\n"),
        (SESSIONS, "        if rows != self.lines:\n", "        if False:\n")),
    "replies aren't compared when the journal is given again": form("changed", NOT_HALTED, program=BLIND),
    "what differs halts nothing": form("changed", NOT_HALTED,
        (SESSIONS, 'elif kind in (b"differs", b"no"):', 'elif kind == b"no":')),
    "lines that are gone aren't missed": form("changed", NOT_HALTED,
        (SESSIONS, "        if rows != self.lines:\n", "        if False:\n")),
    "another program isn't told from the one that it began with": form("version",
        r"another version of the program has written|closed halted|halted: ",
        (PROGRAMS, "return network.program == self.answering.checksum or is_free", "return True or is_free")),
    "rows are given again in the order of their times": form("clock", "closed halted|halted: ",
        (TABLES, "ORDER BY number LIMIT ?", "ORDER BY at, number LIMIT ?")),
    "a plan that was made isn't looked for in the journal": form("server", r"CLOCK asks for period \d after",
        (STANDING, "planned or 1, last_at", "1, last_at")),
    "rows are counted in a commit of their own": form("full", "the numbers have gaps, or aren't the",
        (WRITING, """        try:
            for text, some in statements(values):
""", """        self.connection.execute("COMMIT")
        self.connection.execute("BEGIN IMMEDIATE")
        try:
            for text, some in statements(values):
""")),
    "more is sold than is authorised": form("program", r"line \d+: [IO]\d is oversold", program=GENEROUS, more=BUSY),
    "a program answers otherwise than `nrm run`": form("program", "has the reply '.*', and `nrm run` answers b'",
        program=GENEROUS, more=BUSY),
    "the copy is one of the file alone": form("program", rf"copy-\d: net-\d: D\d+ \d+ {LOST}",
        (LOOKING, "connection.backup(new, pages=PAGES_AT_ONCE)\n", """import shutil
        new.close()
        shutil.copy(path, place)
"""), more=("--copies", "3")),
    "lines that were taken aren't answered at the end": form(f"{OF_MOMENTS}.test_what_was_taken_is_answered_at_the_end",
        "AssertionError: .* != ", (RELAY, """                client.leave("stopping")
""", """                client.finish("stopping")
""")),
    "who comes overtakes what is held of the last one at its place": form("program",
        r"D\d+ \d+ didn't send|AT-\d+ \d+ didn't send|S\d+ of net-\d was told .* to its greeting",
        (SESSIONS, """        self.held += frames.opened(place, *self.desk_of(client, place))
        self.hold()
""", """        self.put(frames.opened(place, *self.desk_of(client, place)))
"""), (SESSIONS, *STAYS), more=SCARCE),
    "a place is free while something of its client is held": form(
        f"{OF_SESSIONS}.test_what_is_held_of_one_is_given_before_the_next_has_the_place", "Lists differ",
        (SESSIONS, *STAYS)),
    "a program that is slow keeps others waiting": form(
        f"{OF_MOMENTS}.test_a_network_that_is_slow_keeps_no_other_waiting", "timed out",
        (PROGRAMS, "BEGIN_AT_ONCE = 2", "BEGIN_AT_ONCE = 1")),
    "a refused row is counted all the same": form(
        f"{OF_JOURNALS}.test_a_row_that_isnt_the_next_halts_its_network_and_no_other", r"Lists differ: \[\(1, 4\)",
        (WRITING, """            self.connection.execute("ROLLBACK TO network")
""", "")),
    "who has an older epoch may write": form(f"{OF_JOURNALS}.test_who_has_an_older_epoch_writes_nothing",
        "Fenced not raised", (WRITING, "AND epoch = ? AND lines = ?", "AND epoch >= ? AND lines = ?")),
    "an end is looked at only when a program begins": form(
        f"{OF_RIGHTS}.test_nothing_is_written_behind_the_end", "AssertionError: .*Denied",
        (WRITING, " AND ended IS ?)", " AND (ended IS ? OR 1))"),
        (WRITING, ".fetchone() == wanted", ".fetchone()[:2] == wanted[:2]"),
        (RELAY, "            if session.is_idle() and self.owning.has_changed(session.network):\n",
         "            if False:\n")),
    "rows are put behind lines that the program wasn't given": form(
        f"{OF_PROMISES}.test_lines_that_are_gone_while_it_serves_halt_a_network", r"!= \[b'closed halted",
        (WRITING, "AND epoch = ? AND lines = ?", "AND epoch = ? AND lines <= ?")),
    "two may answer under one number": form(
        f"{OF_JOURNALS}.test_a_row_that_isnt_the_next_halts_its_network_and_no_other", "KeyError: 1",
        (TABLES, "PRIMARY KEY (network, number)", "PRIMARY KEY (network, number, epoch)")),
    "the file isn't kept byte for byte": form(f"{OF_JOURNALS}.test_a_network_is_put_into_it_byte_for_byte",
        r"00,AB', .* != .*00,AB\\n',",
        ("nrm/commands/journal.py", "    text = bytes_in(file)\n", "    text = bytes_in(file).rstrip()\n")),
    "the program is looked at only when the server begins": form(
        f"{OF_PROMISES}.test_another_program_in_its_place_answers_nothing", "!= b'closed version",
        (PROGRAMS, "        return now == self.answering.checksum\n", "        return True\n")),
    "what the log has isn't written anew": form(
        f"{OF_SERVING}.test_what_another_server_left_in_the_log_is_written_anew", "AssertionError: 0 != 2",
        (WRITING, """self.connection.execute("PRAGMA wal_checkpoint(TRUNCATE)").fetchone()
""", "pass\n")),
    "a row that is none halts nothing": form(f"{OF_PROMISES}.test_a_row_that_repeats_a_number_halts_a_network",
        "closed program 11.* != b'closed halted",
        (SESSIONS, 'elif kind in (b"differs", b"no"):', 'elif kind == b"differs":')),
    "why a network is halted isn't written": form(f"{OF_SERVING}.test_a_changed_journal_halts_its_network_and_no_other",
        r"\('one', None\).* != .*row 2",
        (HALTS, "                self.journal.store.halt(number, epoch, told)\n", "                pass\n")),
    "a network stays halted whatever a person says": form(
        f"{OF_PROMISES}.test_what_was_halted_is_tried_again_once_a_person_says_so",
        "a halt that is written doesn't come",
        (ARRIVALS, """            session.network = network
        if session.network.halted:
""", """        if session.network.halted:
""")),
    "too little memory is taken for a fault of the journal": form(
        f"{OF_PROMISES}.test_a_machine_with_too_little_memory_halts_nothing", "closed halted.* != b'closed program 6",
        (SESSIONS, "        status, was = self.wait(), self.state\n", """        status, was = self.wait(), self.state
        if status == 6:
            self.at_halt(self, self.lines + 1, "isn't answered")
""")),
    "each network has a commit of its own": form(f"{OF_PROMISES}.test_rows_of_all_that_wait_are_written_by_one_commit",
        r"\(5, 5\) != \(5, 2\)",
        (GROUPING, "self.in_writing, self.waiting, self.writes_since = self.waiting, [], self.loop.now",
         "self.in_writing, self.waiting, self.writes_since = self.waiting[:1], self.waiting[1:], self.loop.now")),
    "lines are looked up in the order of their times": form(
        f"{OF_PROMISES}.test_a_clock_that_jumps_back_changes_no_order", "Lists differ",
        (LOOKING, "{condition} ORDER BY number", "{condition} ORDER BY at")),
    "the files of programs aren't asked for": form(f"{OF_PROMISES}.test_each_of_many_networks_has_its_files",
        "closed program 1.* != ", (SERVING, "FILES_OF_A_PROGRAM = 2", "FILES_OF_A_PROGRAM = 0")),
}
