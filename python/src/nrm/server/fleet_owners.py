"""Whose a network is to be, of the servers that are alive: all that know the same of them come to the same.

Nothing that is told to a desk stands on it: it says only who tries to take a network, and when.
"""
from __future__ import annotations

import functools
import hashlib
from dataclasses import dataclass
from typing import Sequence

from nrm.journal.stores import Head, Member, SeenServers

MOVES = 8  # networks that a server moves to itself at a time


@functools.lru_cache(100_000)
def rank(network: str, server: str) -> bytes:
    """How much a network belongs to a server, both by their names: it is its with the greatest rank."""
    return hashlib.blake2b(f"{network} {server}".encode(), digest_size=16).digest()


def standing(members: Sequence[Member], program: str) -> list[Member]:
    """The servers that may have networks of a program: those that have it, aren't about to leave, and haven't only just
    begun. Where all have, it is the first of them, so that what they take doesn't go to and fro."""
    there = [it for it in members if it.program == program and not it.is_leaving]
    return [it for it in there if not it.is_young] or sorted(there, key=lambda it: it.server)[:1]


def preferred(head: Head, members: Sequence[Member], but: int | None = None) -> Member | None:
    """The server that a network belongs to, of those that may have it, without one of them."""
    there = [it for it in standing(members, head.program) if it.server != but]
    return max(there, key=lambda it: rank(head.name, it.name)) if there else None


@dataclass(frozen=True)
class WantedNetworks:
    """What a server is to do, as far as it sees: the networks that it takes, since nobody has them; those that it moves
    to itself from a server that is alive; and those that it follows, since it would have them next."""
    takes: tuple[Head, ...]
    moves: tuple[Head, ...]
    follows: tuple[Head, ...]


def wanted_of(seen: SeenServers, owned: dict[int, int]) -> WantedNetworks:
    """What a server is to do that has some networks, each by an epoch."""
    alive = {it.server for it in seen.members}
    takes, moves, follows = [], [], []
    for head in seen.heads:
        if head.halted or head.number in owned:
            continue
        own = preferred(head, seen.members)
        is_mine = own is not None and own.server == seen.server
        has_owner = head.server is not None and head.server != seen.server and (
            head.server in alive or head.server not in seen.dead and not seen.is_sure)
        if not has_owner:
            takes += [head] if is_mine else []
            continue
        moves += [head] if is_mine and head.server in alive else []
        heir = preferred(head, seen.members, head.server)
        follows += [head] if heir and heir.server == seen.server and not head.is_ended else []
    return WantedNetworks(tuple(takes), tuple(moves), tuple(follows))
