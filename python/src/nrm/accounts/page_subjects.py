"""What a page says of where its line stands: in a plain stream, or in a journal."""
from __future__ import annotations

import shlex
from typing import Iterator

from nrm.accounts.account_page import AccountPage
from nrm.accounts.checking import LineOfStream, Why
from nrm.accounts.journal_accounts import JournalRecord, ProgramChecksums
from nrm.accounts.played_session import Planned
from nrm.accounts.reading import RequestAccount
from nrm.accounts.sentences import sentence_of
from nrm.journal.answered_lines import AnsweredLine
from nrm.journal.choosing_store import is_file

FOLDER = "by-hand"  # where the commands of a page write files
BY_HAND = ("Nothing of the programs if you do each step by hand: then you rely on the arithmetic alone. If you rely on "
           "the steps as they are printed, you rely on the code of these tools, which is tested and not proved.")


# A plain stream


def of_stream(asked: LineOfStream, why: Why) -> AccountPage:
    """The page of a line of a stream."""
    where = (f"Line {asked.number} of {asked.stream}, on {asked.network} under {asked.mode}.",)
    file, stream = map(shlex.quote, (asked.network, asked.stream))
    again = [f"head -n {asked.number} {stream} | nrm run {asked.mode} {file}", *commands(file, asked.mode, stream, why)]
    makes = [f"mkdir -p {FOLDER}"] if any(f"{FOLDER}/" in it for it in again) else []
    believed = (f"That {asked.network} and {asked.stream} are the true ones.", BY_HAND)
    return AccountPage(sentence_of(why.account, why.course), where, (), why, (*makes, *again), believed)


def commands(file: str, mode: str, stream: str, why: Why) -> Iterator[str]:
    """What does the steps again over files: the account, and the certificate of the plan that decided or was made."""
    yield f"nrm_why {mode} {file} {why.course.number} < {stream}"
    planned = planned_for(why)
    if planned is None:
        return
    network, certificate = file, f"{FOLDER}/certificate"
    if planned.line:
        network = f"{FOLDER}/later.csv"
        yield from later_network(file, mode, stream, planned, network)
        text = (f"{{ head -n {planned.line} {stream}; echo; echo plan; }} | nrm run {mode} {file} | tac | "
                "sed '/^bad$/,$d' | tac")
    else:
        text = f"nrm plan {mode} {file}"
    yield f"{text} | grep -v -e ^nest -e ^protect > {certificate}"
    yield f"nrm check {network} {certificate}"
    yield f"nrm-tools audit {network} {certificate}"


def planned_for(why: Why) -> Planned | None:
    """The plan that decided, or that the line made, if a linear program was solved for it."""
    course = why.course
    if course.mode != "first" and isinstance(why.account.reasons, RequestAccount):
        return course.planned
    return course.plan_made() if course.optimised() else None


def later_network(file: str, mode: str, stream: str, planned: Planned, made: str) -> Iterator[str]:
    """What makes the network whose opening plan is that of a line: with the seats left then, and no demand before."""
    yield f"nrm_why {mode} {file} {planned.line} < {stream} | sed -n 's/^left //p' | tr ' ' , > {FOLDER}/left.csv"
    yield f"nrm print {file} > {FOLDER}/canonical.csv"
    yield (f"awk -F, -v OFS=, -v from={planned.period} 'NR == FNR {{ left[$1] = $2; next }} "
           "$1 == \"leg\" { $4 = left[$2] } "
           "$1 == \"demand\" { for (period = 1; period < from; period++) $(period + 3) = 0 } { print }' "
           f"{FOLDER}/left.csv {FOLDER}/canonical.csv > {made}")


# A journal


def of_journal(kept: JournalRecord, why: Why) -> AccountPage:
    """The page of a line of a journal."""
    network = kept.network
    sale = f" ({by_whom(kept.sale)})" if kept.sale else ""
    where = (f"Line {kept.line.number} of {network.name} in {kept.journal}, under {network.mode}.", asked_by(kept.line),
             *since(kept))
    return AccountPage(sentence_of(why.account, why.course, sale), where, tuple(notes(kept)), why,
                       (*laying(kept), *commands(f"{FOLDER}/network.csv", network.mode, f"{FOLDER}/stream", why)),
                       tuple(believed(kept)))


def asked_by(line: AnsweredLine) -> str:
    """Who asked a line, what the journal has as the reply, and when that was written."""
    return (f"Desk {line.desk} asked for it, as its line {line.sequence}. The journal has the reply: {line.reply}, "
            f"written at {line.at} by the machine's clock.")


def by_whom(line: AnsweredLine) -> str:
    """Who asked a line, and when, in a few words."""
    return f"desk {line.desk}, {line.at}"


def since(kept: JournalRecord) -> Iterator[str]:
    """The cancellation of the booking that the line sold, or wanted to cancel, and the end of the network."""
    if kept.given_back:
        yield f"The booking was cancelled by line {kept.given_back.number} ({by_whom(kept.given_back)})."
    if kept.ended:
        yield f"{kept.network.name} has ended, at {kept.ended}."


def notes(kept: JournalRecord) -> Iterator[str]:
    """What is to be known of the network and of the programs before the account is relied on."""
    network = kept.network
    if network.halted:
        yield f"Nobody answers for {network.name}, which is halted: {network.halted}."
    if kept.programs.is_other:
        yield (f"{network.name} began with another `nrm_desks` than the one that is here, by their checksums: this is "
               "the account by the rules of the version that is here.")


def laying(kept: JournalRecord) -> Iterator[str]:
    """What has the network file, the lines and the replies written out of a journal, and the replies compared."""
    journal, name = shlex.quote(kept.journal), kept.network.name
    yield f"mkdir -p {FOLDER}"
    if is_file(kept.journal):
        yield (f"sqlite3 -readonly {journal} \"SELECT writefile('{FOLDER}/network.csv', file) FROM network "
               f"WHERE name = '{name}'\"")
    else:
        yield (f"psql -XAtq -d {journal} -c \"SELECT encode(file, 'base64') FROM network WHERE name = '{name}'\" "
               f"| base64 -d > {FOLDER}/network.csv")
    yield f"nrm-tools journal look {journal} {name} | awk '$1 <= {kept.line.number}' > {FOLDER}/rows"
    yield f"cut -f5 {FOLDER}/rows > {FOLDER}/stream"
    yield f"cut -f6 {FOLDER}/rows > {FOLDER}/replies"
    yield f"nrm run {kept.network.mode} {FOLDER}/network.csv < {FOLDER}/stream | cmp - {FOLDER}/replies"


def believed(kept: JournalRecord) -> Iterator[str]:
    """What must be believed of an account out of a journal."""
    yield f"That the network file in the journal is the true one. Its SHA-256 is {kept.file}."
    yield ("That the lines are those that the desks sent, all of them and in this order. A line or a reply that was "
           "changed is found if a reply then differs from that of `nrm run`; a change with which all replies still fit "
           "isn't.")
    yield "That the machine's clock was right, where the times matter. No answer depends on them."
    yield from of_programs(kept.programs)
    yield BY_HAND


def of_programs(it: ProgramChecksums) -> Iterator[str]:
    """Which programs had a part, by their checksums."""
    here = {None: "and none is here to compare", it.answered: "and the one that is here is the same",
            }.get(it.here, f"and the one that is here has {it.here}")
    yield f"That the `nrm_desks` which answered is the one whose SHA-256 the journal has, {it.answered}, {here}."
    yield ("That the programs which are asked here have its rules. They are other files, which no journal names: "
           f"`nrm_why`, SHA-256 {it.accounts}, wrote the account, and `nrm`, SHA-256 {it.plays}, played the session. "
           "That they have the same rules shows in the replies, which are compared one by one.")
