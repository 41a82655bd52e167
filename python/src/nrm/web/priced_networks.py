"""What the page asks the server: the plan when there is a new one, and the bound of hindsight while somebody looks.

Nothing is asked of a network that nobody has looked at, since that would begin its program. From the first look on its
plan is asked again after each line `reoptimise` that made one, so that prices can be drawn over time; an hour after the
last look that ends. Threads of their own ask, so that nobody waits for it.
"""
from __future__ import annotations

import queue
import threading
import time
from dataclasses import dataclass, field, replace
from fractions import Fraction
from typing import Callable, Mapping, NamedTuple

from nrm.replies import Hindsight, NoAnswer, Plan, answer_of
from nrm.web.connections import Connections, Who
from nrm.web.followed_journal import Followed, Following
from nrm.web.messages import HttpRefusal

ASKERS = 4
BOUND_EVERY = 30.0  # seconds
REMEMBERED = 3600.0  # seconds after the last look
MOST_PLANS = 200  # of which prices are kept


class Priced(NamedTuple):
    """The bid prices of the legs as they were at a time, in milliseconds since 1970 began, behind so many plans."""
    at: int
    plans: int
    prices: Mapping[str, Fraction]


@dataclass(frozen=True)
class PricedNetwork:
    """What the server has told of a network."""
    priced: tuple[Priced, ...] = ()  # the latest last
    bound: Hindsight | None = None
    why: str | None = None  # why the last time there was no answer

    @property
    def prices(self) -> Mapping[str, Fraction]:
        """The bid prices now."""
        return self.priced[-1].prices if self.priced else {}


@dataclass
class ViewedNetwork:
    """A network that somebody looks at, and when what was asked last."""
    look: PricedNetwork = field(default_factory=PricedNetwork)
    looked_at: float = 0.0
    tried_at: float = float("-inf")
    bound_at: float = float("-inf")
    lines_at_bound: int = -1
    is_asked: bool = False


class PricedNetworks:
    """All networks that somebody looks at."""

    def __init__(self, kept: Connections, own: Callable[[str], Who], following: Following) -> None:
        self.kept, self.own, self.following = kept, own, following
        self.clock: Callable[[], float] = time.monotonic
        self.lock = threading.Lock()
        self.entries: dict[str, ViewedNetwork] = {}
        self.wanted: queue.Queue[tuple[Followed, bool, bool]] = queue.Queue()
        self.askers: list[threading.Thread] = []

    def of(self, followed: Followed) -> PricedNetwork:
        """What is known of a network that somebody looks at now; what is due is asked meanwhile."""
        with self.lock:
            entry = self.entries.setdefault(followed.name, ViewedNetwork())
            entry.looked_at = self.clock()
            self.ask_what_is_due(followed, entry, is_looked_at=True)
            return entry.look

    def keep_up(self) -> None:
        """Asks for the new plans of networks that somebody has looked at."""
        with self.lock:
            for name, entry in list(self.entries.items()):
                followed = self.following.networks.get(name)
                if self.clock() - entry.looked_at > REMEMBERED:
                    del self.entries[name]
                elif followed:
                    self.ask_what_is_due(followed, entry, is_looked_at=False)

    def ask_what_is_due(self, followed: Followed, entry: ViewedNetwork, is_looked_at: bool) -> None:
        """Has a plan asked for that isn't known, and, for who looks, a bound that is old; what failed a while later."""
        now = self.clock()
        if entry.is_asked or followed.halted or (entry.look.why and now - entry.tried_at < BOUND_EVERY):
            return
        last = entry.look.priced[-1].plans if entry.look.priced else -1
        wants_plan = followed.mode != "first" and last != followed.seen.plans
        wants_bound = (is_looked_at and now - entry.bound_at >= BOUND_EVERY
                       and entry.lines_at_bound != followed.seen.lines)
        if wants_plan or wants_bound:
            entry.is_asked, entry.tried_at = True, now
            self.wanted.put((followed, wants_plan, wants_bound))
            self.begin()

    def begin(self) -> None:
        """Begins the threads that ask."""
        if not self.askers:
            self.askers = [threading.Thread(target=self.ask_on, daemon=True) for _ in range(ASKERS)]
            for it in self.askers:
                it.start()

    def ask_on(self) -> None:
        """Asks what is wanted, one after the other."""
        while True:
            followed, wants_plan, wants_bound = self.wanted.get()
            look = self.entries.get(followed.name, ViewedNetwork()).look
            try:
                look = self.asked(followed, look, wants_plan, wants_bound)
            except HttpRefusal as refusal:
                look = replace(look, why=refusal.why)
            self.take(followed, look, wants_bound)
            self.following.tell_of_news()

    def take(self, followed: Followed, look: PricedNetwork, was_bound: bool) -> None:
        """Keeps what was told."""
        with self.lock:
            entry = self.entries.get(followed.name)
            if entry:
                entry.look, entry.is_asked = look, False
                if was_bound and not look.why:
                    entry.bound_at, entry.lines_at_bound = self.clock(), followed.seen.lines

    def asked(self, followed: Followed, look: PricedNetwork, wants_plan: bool, wants_bound: bool) -> PricedNetwork:
        """What the server tells now."""
        who, priced, bound = self.own(followed.name), look.priced, look.bound
        try:
            plan = answer_of(self.kept.reply(who, "plan")) if wants_plan else None
            if isinstance(plan, Plan):
                new = Priced(time.time_ns() // 1_000_000, followed.seen.plans, plan.prices)
                priced = (*priced, new)[-MOST_PLANS:]
            told = answer_of(self.kept.reply(who, "hindsight")) if wants_bound else None
        except NoAnswer:
            raise HttpRefusal(502, "strange", "the server's answer can't be read")
        return PricedNetwork(priced, told if isinstance(told, Hindsight) else bound)
