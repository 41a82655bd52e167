"""A server among several that share a journal: what it sees of the others, and which networks it takes, moves to
itself, follows and loses.

Twice a second it tells that it is alive, and looks. All that keeps rows safe is in the statements that take and write;
what stands here decides only when they are tried.
"""
from __future__ import annotations

from dataclasses import dataclass, replace
from typing import Callable, Sequence

from nrm import Stop
from nrm.journal.networks import file_of
from nrm.journal.stores import Head, Member, Named, Opened, Replaced, SeenServers
from nrm.server.fleet_owners import MOVES, preferred, wanted_of
from nrm.server.journal_asking import Feed, Journal, Worker
from nrm.server.programs import Programs
from nrm.server.sessions import ANSWERS, FOLLOWS, RESTS, Session
from nrm.server.status_text import FleetStatus, Share

BEAT = 0.5  # seconds between two heartbeats
OLD = 3.0  # seconds after which a look says nothing more
FEW = 1000  # lines that a program may still have to answer again when its network is moved
LOADS = 2  # programs that are given their journals at a time to follow them
TO_LEAVE = 60.0  # the most seconds for which a server that is to end waits for others to take its networks
AT_END = 5.0  # and those in which it says that it leaves
WEAK = "the database waits for no other machine: {}, and without --alone no server answers from it"


@dataclass(frozen=True)
class Sharing:
    """How a server shares a journal: its name, where others reach it, whether it serves a database that is alone,
    whether desks are sent on to the owner of their network or passed on, and how many networks it follows at most."""
    name: str = ""
    address: str = ""
    is_alone: bool = False
    is_to_send_on: bool = False
    followers: int = 100


class Fleet:
    """What this server has, and what it knows of the others. `stop` has the server end, and `fail` ends all."""

    def __init__(self, journal: Journal, programs: Programs, named: Named, sharing: Sharing, stop: Callable[[], None],
                 fail: Callable[[Exception], None]) -> None:
        self.journal, self.programs, self.named, self.sharing = journal, programs, named, sharing
        self.stop, self.fail = stop, fail
        self.loop, self.events, self.counters = programs.loop, programs.events, programs.counters
        members = journal.store.members(named)
        try:
            self.seen = members.beat(False)
        except members.faults as fault:
            raise Stop(f"{journal.store.place}: {' '.join(str(fault).split())}")
        if not self.is_durable(self.seen):
            raise Stop(WEAK.format(self.seen.weakness))
        self.heads: dict[str, Head] = {it.name: it for it in self.seen.heads}
        self.by_number: dict[int, Head] = {it.number: it for it in self.seen.heads}
        # networks, by their epochs, whose takings were acknowledged, and the pasts of the database that these are in
        self.owned, self.histories = programs.owned.epochs, programs.owned.histories
        self.known: dict[int, int] = {}  # how many lines of each were answered here: they can't become fewer
        self.feeds: dict[int, Feed] = {}  # of the networks that are followed
        self.loading: set[int] = set()  # those of them whose network files are being read
        self.spoiled: dict[int, int] = {}  # networks whose programs couldn't follow, by the epochs of their owners
        self.taking: set[int] = set()
        self.waiting: list[Callable[[], None]] = []
        self.is_beating = self.is_leaving = self.is_closed = False
        self.leaving_since = self.seen_at = self.asked_at = self.loop.now
        self.worker = Worker(self.loop, members)
        self.loop.soon.append(lambda: self.looked(self.known, self.seen, None))

    def is_durable(self, seen: SeenServers) -> bool:
        """Whether the database acknowledges nothing that one disk alone has, or may."""
        return not seen.weakness or self.sharing.is_alone

    # What the server needs to know

    def networks(self) -> Sequence[Opened]:
        """All networks, as they were seen last."""
        return [*self.heads.values()]

    def network(self, name: str) -> Opened | None:
        """The network of a name, as it was seen last."""
        return self.heads.get(name)

    def size(self) -> int:
        """The bytes of the journal."""
        return self.seen.size

    def elsewhere(self, network: Opened) -> str | None:
        """Where a client finds a network that isn't here."""
        if network.number in self.owned:
            return None
        owner = self.member_of(network.name)
        return f"moved {owner.address}" if owner and owner.address and owner.server != self.seen.server else "wait"

    def when_looked(self, then: Callable[[], None]) -> bool:
        """Has something done once all was looked at anew, which begins now."""
        self.waiting.append(then)
        self.beat()
        return True

    def member_of(self, name: str) -> Member | None:
        """The server that has a network, as far as it was seen, and is alive."""
        head = self.heads.get(name)
        return next((it for it in self.seen.members if head and it.server == head.server), None)

    def owner_of(self, name: str) -> str:
        """The name of the server that has a network, or `none`."""
        head = self.heads.get(name)
        if head and head.number in self.owned:
            return self.named.name
        owner = self.member_of(name)
        return owner.name if owner and owner.server != self.seen.server else "none"

    def fleet(self) -> tuple[FleetStatus, tuple[Share, ...]]:
        """What is told of the servers, and whose each network is."""
        counters = self.counters
        told = FleetStatus(self.named.name, self.named.address or "none", len(self.seen.members), len(self.owned),
                           len(self.feeds), counters.taken, counters.lost, counters.passed)
        return told, tuple(Share(it.name, self.owner_of(it.name), it.epoch, it.number in self.feeds)
                           for it in self.heads.values())

    def may_read(self) -> bool:
        """Whether the journal was reached by a look that isn't old."""
        return self.loop.now - self.seen_at < OLD

    # Twice a second

    def beat(self) -> None:
        """Tells that this server is alive, and looks, unless that is being done."""
        if self.is_beating or self.is_closed:
            return
        self.is_beating = True
        for session in self.programs.sessions.values():
            self.remember(session)
        known, is_leaving, self.asked_at = dict(self.known), self.is_leaving, self.loop.now
        waiting, self.waiting = self.waiting, []
        self.worker.ask(lambda members: members.beat(is_leaving),
                        lambda seen, why: self.looked(known, seen, why, waiting))

    def looked(self, known: dict[int, int], seen: SeenServers | None, fault: Exception | None,
               waiting: Sequence[Callable[[], None]] = ()) -> None:
        """Does what follows from what was seen. `known` is what was answered before it was looked, and those that wait
        have waited for this look."""
        self.is_beating = False
        if self.is_closed:
            return
        self.loop.call_at(self.loop.now + BEAT, self.beat)
        if isinstance(fault, Replaced):
            self.fail(fault)
        elif fault or not seen or not self.is_durable(seen):  # nobody takes anything, nor is anything answered
            why = fault or WEAK.format(seen.weakness if seen else "")
            self.events.tell("database", why=" ".join(str(why).split()))
            if self.is_leaving and not self.may_read():
                self.stop()  # nobody can take anything
        else:
            self.see(known, seen)
        for then in waiting:
            then()
        if self.waiting:
            self.beat()

    def see(self, known: dict[int, int], seen: SeenServers) -> None:
        """Takes, follows, loses."""
        self.seen, self.seen_at = seen, self.asked_at
        self.heads = {it.name: it for it in seen.heads}
        self.by_number = {it.number: it for it in seen.heads}
        for head in seen.heads:
            self.see_head(head, known.get(head.number, 0))
        if self.is_leaving:
            self.leave_if_done()
            return
        wanted = wanted_of(seen, self.owned)
        self.follow_some(wanted.follows, wanted.moves, {it.number for it in wanted.takes} | self.taking)
        takes = [*wanted.takes, *[it for it in wanted.moves if self.may_move(it)][:MOVES]]
        self.take([it for it in takes if it.number not in self.taking])

    def see_head(self, head: Head, known: int) -> None:
        """Loses a network that another has, and halts one of which lines are gone that were answered."""
        if head.lines < known and not head.halted:
            why = f"lines {head.lines + 1} to {known} were answered and are gone from the journal"
            self.give_up(head.number)
            self.journal.asker.ask(lambda tables: self.journal.store.halt(head.number, head.epoch, why),
                                  lambda _: self.given_up(head.number))
            self.events.tell("halted", network=head.name, row=head.lines + 1, why=why)
            self.forget(head, "halted")
            self.known.pop(head.number, None)
        elif head.number in self.owned and head.epoch > self.owned[head.number] and not self.is_answering(head):
            self.forget(head, self.elsewhere_but_here(head))
        elif head.number in self.owned and head.halted:
            self.forget(head, "halted")

    def is_answering(self, head: Head) -> bool:
        """Whether a network that nobody else has, since its rights have changed, is answering lines: what was written
        of them is answered yet, and the next commit shows the change."""
        session = self.programs.sessions.get(head.name)
        is_busy = session is not None and session.state == ANSWERS and (session.is_keeping or session.is_asked())
        return head.server is None and is_busy

    def remember(self, session: Session) -> None:
        """Notes how many lines of a network were answered here, as long as it is this server's."""
        network = session.network
        if network.epoch == self.owned.get(network.number):
            self.known[network.number] = max(session.lines, self.known.get(network.number, 0))

    def disown(self, name: str, network: int) -> None:
        """This server has a network no more, but knows how many of its lines it has answered."""
        if session := self.programs.sessions.get(name):
            self.remember(session)
        self.owned.pop(network, None)

    def elsewhere_but_here(self, head: Head) -> str:
        """What clients are told of a network that another has."""
        self.disown(head.name, head.number)
        why = self.elsewhere(head) or "wait"
        return why if self.sharing.is_to_send_on else "wait"

    def forget(self, head: Head, why: str) -> None:
        """This server has a network no more."""
        self.disown(head.name, head.number)
        if why != "halted":
            self.counters.lost += 1
            self.events.tell("lost", network=head.name, owner=self.owner_of(head.name))
        session = self.programs.sessions.get(head.name)
        if session:
            session.network = replace(session.network, halted=session.network.halted or head.halted)
            session.lose(why)

    # Taking

    def take(self, heads: Sequence[Head]) -> None:
        """Takes networks by one commit."""
        if not heads:
            return
        self.taking |= {it.number for it in heads}
        wanted = [(it.number, it.epoch) for it in heads]
        self.worker.ask(lambda members: (members.take(wanted), members.history()),
                        lambda found, why: self.took(heads, found, why))

    def took(self, heads: Sequence[Head], found: tuple[dict[int, tuple[int, int]], str] | None,
             fault: Exception | None) -> None:
        """Has networks whose taking was acknowledged. Where nobody knows, the next look shows whether they were taken,
        and then they are taken anew."""
        self.taking -= {it.number for it in heads}
        if fault or not found:
            self.events.tell("database", why=" ".join(str(fault).split()))
            return
        taken, history = found
        for head in heads:
            if head.number in taken:
                epoch, lines = taken[head.number]
                self.has(replace(head, epoch=epoch, lines=lines, server=self.seen.server), history)

    def has(self, head: Head, history: str) -> None:
        """This server has a network, by a commit in a past of the database."""
        self.owned[head.number], self.histories[head.number] = head.epoch, history
        self.heads[head.name] = self.by_number[head.number] = head
        self.counters.taken += 1
        self.events.tell("taken", network=head.name, epoch=head.epoch, lines=head.lines)
        session, feed = self.programs.sessions.get(head.name), self.feeds.pop(head.number, None)
        if session and feed:
            self.take_over(session, feed, head, history)

    def take_over(self, session: Session, feed: Feed, network: Opened, history: str) -> None:
        """Goes on with a program that has followed, if all that it was given is still there: it was read in the same
        past of the database, which the taking has behind it."""
        if session.state != FOLLOWS:
            return
        if feed.histories <= {history} and feed.read <= network.lines:
            session.take_over(network)
            feed.history = history  # of what is still being read too
            feed.more(network.lines, is_all=True)
        else:
            session.kill()

    def has_changed(self, network: Opened) -> bool:
        """Whether a network has other rights, by whose change nobody else has it: an earlier release ends one so."""
        head = self.heads.get(network.name)
        return head is not None and head.epoch == network.epoch and head.ended != network.ended

    def lost(self, session: Session, fault: Exception | None = None) -> None:
        """The fence didn't let a network's rows through; or nobody knows whether it did, or they were read from another
        past: then the network is taken anew, and its program ends with what it had ahead: the journal tells what was
        written."""
        name, number = session.network.name, session.network.number
        if fault:
            self.events.tell("unknown", network=name, why=str(fault))
            self.disown(name, number)
            session.lose("wait")
        elif self.heads[name].number in self.owned:
            self.forget(self.heads[name], self.elsewhere_but_here(self.heads[name]))
        self.beat()

    def give_up(self, network: int) -> None:
        """A network is about to be halted: nobody is taken to it, nor is it taken anew."""
        self.owned.pop(network, None)
        self.taking.add(network)

    def given_up(self, network: int) -> None:
        """It is halted, or another server has it, as is seen now."""
        self.taking.discard(network)
        self.beat()

    # Following, and moving

    def follow_some(self, follows: Sequence[Head], moves: Sequence[Head], taken: set[int]) -> None:
        """Follows the networks that this server would have next, as many as it may, and those that it moves to itself.
        Those that it is about to take are followed until it has them."""
        self.drop_ended()
        moving = [it for it in moves if it.lines >= FEW][:MOVES]
        chosen = {it.number: it for it in moving}
        for it in sorted(follows, key=lambda head: head.number not in self.feeds):
            if it.lines and len(chosen) < self.sharing.followers:
                chosen.setdefault(it.number, it)
        for network in [*self.feeds]:
            if network not in chosen and network not in taken:
                self.follow_no_more(network)
        for head in chosen.values():
            if head.number in self.feeds:
                self.feeds[head.number].more(head.lines)
            elif self.count_of_loading() < LOADS and self.spoiled.get(head.number) != head.epoch:
                self.follow(head)

    def drop_ended(self) -> None:
        """Forgets the rows of programs that followed and have ended; what spoiled one spoils the next as long as the
        network has the same owner."""
        for network, feed in [*self.feeds.items()]:
            head = self.by_number.get(network)
            session = self.programs.sessions.get(head.name) if head else None
            if not head or not session or session.state != FOLLOWS:
                feed.close()
                del self.feeds[network]
                if head:
                    self.spoiled[network] = head.epoch

    def count_of_loading(self) -> int:
        """How many are being given what the journal has."""
        return len(self.loading) + sum(not it.keeps_up(FEW) for it in self.feeds.values())

    def follow(self, head: Head) -> None:
        """Begins a program that is given a network's lines as they become part of the journal."""
        session = self.programs.session_for(head)
        if head.number in self.loading or session.state != RESTS or session.coming:
            return
        self.loading.add(head.number)
        self.journal.asker.ask(lambda tables: file_of(tables, head.number), lambda file: self.feed(session, head, file))

    def feed(self, session: Session, head: Head, file: bytes) -> None:
        """Has its network file, and gives the rows that are there."""
        self.loading.discard(head.number)
        if head.number in self.owned or session.state != RESTS or session.coming or self.is_leaving:
            return
        feed = self.journal.asker.rows(head.number, None, session.flush, None, lambda fault: self.lost(session, fault))
        assert isinstance(feed, Feed)
        if self.programs.follow(session, head, file, feed):
            self.feeds[head.number] = feed
            self.events.tell("followed", network=head.name, lines=head.lines)
            feed.more(head.lines)

    def follow_no_more(self, network: int) -> None:
        """Ends a program that followed."""
        feed = self.feeds.pop(network, None)
        head = self.by_number.get(network)
        session = self.programs.sessions.get(head.name) if head else None
        if feed:
            feed.close()
        if session and session.state == FOLLOWS:
            session.kill()

    def may_move(self, head: Head) -> bool:
        """Whether a network can be taken from a server that is alive so that its desks wait for little: its program is
        given what it lacks before it answers."""
        feed = self.feeds.get(head.number)
        return head.lines < FEW or feed is not None and feed.keeps_up(FEW)

    # Leaving

    def hands_over(self) -> bool:
        """Whether it goes on until others have its networks: not if it was told to end twice, or if there are none."""
        if self.is_leaving or not self.heirs():
            return False
        self.is_leaving, self.leaving_since = True, self.loop.now
        self.events.tell("leaving", networks=len(self.owned))
        for network in [*self.feeds]:
            self.follow_no_more(network)
        self.beat()
        return True

    def unfit(self) -> str:
        """Others take the networks, if there are others that have the program."""
        return "wait" if self.is_leaving or self.hands_over() else "version"

    def heirs(self) -> list[int]:
        """The networks of this server that another would take."""
        members = [it for it in self.seen.members if it.server != self.seen.server]
        return [it for it in self.owned if it in self.by_number and preferred(self.by_number[it], members)]

    def leave_if_done(self) -> None:
        """Ends once others have all that they will take."""
        if not self.heirs() or self.loop.now - self.leaving_since > TO_LEAVE:
            self.stop()

    def close(self) -> None:
        """Gives up what it has, so that others needn't wait for the lease."""
        self.is_closed = True
        owned = [*self.owned.items()]
        self.worker.ask(lambda members: members.leave(owned), lambda _, __: None)
        if self.worker.end(AT_END):
            self.worker.subject.close()
