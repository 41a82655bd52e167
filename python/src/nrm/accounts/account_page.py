"""A page about a line: the sentence, or what is wrong, where the line stands, the account as it was written, how to do
each step by hand, and what must be believed.
"""
from __future__ import annotations

from dataclasses import dataclass
from typing import Iterator

from nrm.accounts.checking import Why
from nrm.accounts.sentences import fault_of, verdict
from nrm.pages.page import Page
from nrm.pages.tables import Table

HOW = ("To do each step again by hand, take the numbers from the network file, from the replies before the line, and "
       "from the plan:")
COMMANDS = "These commands do the same:"
BELIEVED = "What must be believed:"
MEANING = "docs/auditor/why.md says what each line means."


@dataclass(frozen=True)
class AccountPage:
    """What a page says: the account in a sentence, where the line stands, what is to be noted of it, the account with
    its steps, commands, and what must be believed."""
    sentence: str
    where: tuple[str, ...]
    notes: tuple[str, ...]
    why: Why
    commands: tuple[str, ...]
    believed: tuple[str, ...]

    @property
    def fault(self) -> str | None:
        """What is wrong, if something is."""
        fault = fault_of(self.why)
        return fault and shown(fault)

    @property
    def first(self) -> str:
        """What comes first: what is wrong, else the sentence."""
        return self.fault or self.sentence

    @property
    def below(self) -> Iterator[str]:
        """What comes below that."""
        if self.fault:
            yield f"The account says the following, and can't be relied on before that is explained: {self.sentence}"
        yield from map(shown, (*self.where, *self.notes))


def shown(text: str) -> str:
    """A text with what isn't Unicode in it written out, as a path may have it."""
    return text.encode("utf-8", "backslashreplace").decode()


def steps(why: Why) -> Iterator[str]:
    """The steps with their numbers, each with whether it holds."""
    for number, it in enumerate(why.steps, 1):
        yield f"{number}. {'holds' if it.holds else 'FAILS'}: {it.text}"


def text(told: AccountPage) -> str:
    """The page as text."""
    parts = [("The account:", told.why.account.text.splitlines()), (HOW, steps(told.why)),
             (COMMANDS, map(shown, told.commands)), (BELIEVED, (f"- {shown(it)}" for it in told.believed))]
    lines = [told.first, *told.below, ""]
    for head, of_part in parts:
        lines += [head, "", *(f"    {it}" for it in of_part), ""]
    return "\n".join([*lines, verdict(told.why), ""])


def html(told: AccountPage) -> str:
    """The page as HTML."""
    page = Page(told.first)
    for it in told.below:
        page.text(it)
    page.text(verdict(told.why))
    page.heading("The account")
    page.table(Table("As it was written", ["Line", "What it says"],
                     [[line.partition(" ")[0], line.partition(" ")[2]] for line in told.why.account.text.splitlines()]))
    page.text(MEANING)
    page.heading("By hand")
    page.text(HOW)
    for it in steps(told.why):
        page.text(it)
    page.text(COMMANDS)
    for it in told.commands:
        page.text(shown(it))
    page.heading("What must be believed")
    for it in told.believed:
        page.text(shown(it))
    return page.html()
