"""Wrong forms of a fleet, each a mistake that a person could make, the trial or the moment in which it shows, and what
that tells by which it must be found.

    python3 -m fleet.wrong_forms FOLDER [PATTERN]
"""
from __future__ import annotations

import sys

from trials.mistakes import BLIND, LOST, TWICE, Form, main

FLEET, OWNING, PROGRAMS, SESSIONS = (f"nrm/server/{it}.py" for it in ("fleet", "fleet_owners", "programs", "sessions"))
POSTGRES = "nrm/journal/postgres"
SMALL = ("--networks", "4", "--desks", "40", "--pause", "0.1", "--between", "1")
COMMIT = """ "
         "AND current_setting('synchronous_commit') IN ('on', 'remote_apply')")"""
UNTOLD = "AssertionError: .*is answered before the fence is passed"


def trial(kills: int, failovers: int) -> tuple[str, ...]:
    """The words of a small trial."""
    return ("fleet.crowd", "{folder}", *SMALL, "--kills", str(kills), "--stops", "0", "--failovers",
            str(failovers))


def moment(name: str) -> tuple[str, ...]:
    """The words of one of the moments."""
    return "unittest", f"fleet.test_moments_of_{name}"


FORMS = {
    "the reply goes out before the commit": Form((
        (SESSIONS, """self.written))
""", """self.written))
        self.kept(given.count())
"""),
        (SESSIONS, """            self.kept(given.count())
""", """            pass
""")), trial(6, 2), LOST),
    "rows are written whoever has the network": Form((
        (f"{POSTGRES}_writing.py",
         """WHERE head.network = given.network AND head.epoch = given.epoch AND head.lines = given.before
    RETURNING head.network, head.epoch, given.before, given.told)""", """WHERE head.network = given.network
    RETURNING head.network, head.epoch, head.lines - given.count AS before, given.told)"""),
        (f"{POSTGRES}_writing.py", """CASE WHEN split_part(entry, E'\\t', 1) = (before + place)::text AND \
split_part(entry, E'\\t', 6) = ''
            THEN before + place END""", "before + place")),
        moment("owners.Owners.test_who_was_stopped_for_longer_than_its_lease_writes_and_tells_nothing"),
        # told, or written alone: its lease may be seen to be over between the two
        r"AssertionError: (.*who was stopped tells b'ok|Lists differ: .* != \['D1', 'D2', 'D1'\])"),
    "a look is answered by who has lost the network": Form((
        (SESSIONS, "if not rows and self.commits.writer.is_still(given):", "if not rows:"),),
        moment("owners.Owners.test_nothing_is_told_before_the_fence_is_passed"), UNTOLD),
    "sent again is carried out again": Form((
        (f"{POSTGRES}_tables.py", r"concat_ws(E'\t', number, desk, sequence,",
         r"concat_ws(E'\t', number, 'AGAIN', number,"),), trial(6, 0), TWICE),
    "no standby is waited for": Form((
        ("tests/databases.py", "synchronous_standby_names = 'ANY 1 ({names})'", "synchronous_standby_names = ''"),
        (FLEET, "return not seen.weakness or self.sharing.is_alone", "return True"),
        (f"{POSTGRES}_tables.py", "        if not self.is_alone:\n", "        if False:\n")), trial(0, 2), LOST),
    "waiting that is switched off counts as waiting": Form((
        (f"{POSTGRES}_tables.py", "self.is_weak = self.is_weak or not all(it[-1] == TRUE for it in [*rows, *after])",
         "pass"),),
        moment("databases.Databases.test_waiting_that_is_switched_off_is_no_commit"),
        "AssertionError: .*a line is told that no standby has"),
    "what a session has been asked for counts as what it has": Form((
        (f"{POSTGRES}_tables.py", COMMIT, '")'),),
        moment("databases.Databases.test_a_session_that_has_lost_its_settings_answers_nothing"),
        "AssertionError: .*a line is told that no standby has"),
    "a cancelled wait counts as written": Form((
        (f"{POSTGRES}_tables.py", "            made.add_notice_handler(self.notice)\n", ""),),
        moment("databases.Databases.test_a_cancelled_wait_is_no_commit"),
        "AssertionError: .*a line is told that no standby has"),
    "only lines wait for a standby": Form((
        (f"{POSTGRES}_tables.py", COMMIT, '")'),
        (f"{POSTGRES}_addresses.py", "-c synchronous_commit=on", "-c synchronous_commit=local"),
        (f"{POSTGRES}_writing.py", "SELECT network, {WAITS} FROM passed", """SELECT network, {WAITS} FROM passed,
    (SELECT count(set_config('synchronous_commit', 'on', true)) FROM given WHERE count > 0) AS waits""")),
        moment("databases.Databases.test_a_line_that_is_on_the_primary_alone_is_not_told"),
        "AssertionError: .*another answers from what it sees"),
    "a commit whose connection broke counts as written": Form((
        (f"{POSTGRES}_writing.py", "            raise UnknownOutcome(self.link.address.told(str(fault)))",
         "            return [(str(it['network']),) for it in json.loads(str(values[0]))]"),), trial(0, 3), LOST),
    "replies aren't compared when the journal is given again": Form((), moment(
        "owners.Owners.test_a_journal_that_was_changed_halts_its_network"), r"AssertionError: .*closed halted",
        BLIND),
    "whichever program is there answers": Form((
        (PROGRAMS, "return network.program == self.answering.checksum or is_free", "return True or is_free"),
        (OWNING, "if it.program == program and not it.is_leaving]", "if not it.is_leaving]")),
        moment("owners.Owners.test_another_program_takes_nothing"), "AssertionError: .*another program answers"),
}

if __name__ == "__main__":
    sys.exit(main(FORMS, sys.argv[1:]))
