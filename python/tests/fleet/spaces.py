"""Network namespaces that stand for machines: each has an address, all reach each other, and what comes to one or goes
from it can be dropped in silence, as on a cable that was pulled."""
from __future__ import annotations

import os
import shutil
import subprocess
from typing import Sequence

TOOLS = ("ip", "nft")
# names and addresses of this process, so that another's tests may run beside
BRIDGE, NET = f"nrm{os.getpid() % 100_000}", f"10.213.{os.getpid() % 250 + 1}"
FIRST = f"{NET}.1"  # the address of this machine there


def why_not() -> str:
    """Why there can be none here; empty if there can."""
    without = [it for it in TOOLS if not shutil.which(it, path=path())]
    if without:
        return f"there is no {' and no '.join(without)} (Debian has iproute2 and nftables)"
    if os.geteuid():
        return "cut networks need the rights of root"
    tried = [done(it) for it in (["ip", "netns", "add", BRIDGE], ["ip", "link", "add", BRIDGE, "type", "bridge"],
                                 ["ip", "netns", "exec", BRIDGE, "nft", "add", "table", "inet", "cut"])]
    done(["ip", "netns", "del", BRIDGE])
    done(["ip", "link", "del", BRIDGE])
    return next((f"networks can't be cut here: {it}" for it in tried if it), "")


def path() -> str:
    """Where programs are looked for, those for administrators too."""
    return f"{os.environ.get('PATH', '')}:/usr/sbin:/sbin"


def done(words: Sequence[str]) -> str:
    """Runs a command, and gives what it tells if it fails."""
    it = subprocess.run(words, stdout=subprocess.PIPE, stderr=subprocess.STDOUT, text=True,
                        env={**os.environ, "PATH": path()})
    return (it.stdout.strip() or f"status {it.returncode}") if it.returncode else ""


def run(text: str) -> None:
    """Runs commands, a line each, which must not fail."""
    for line in text.strip().splitlines():
        if told := done(line.split()):
            raise AssertionError(f"{line.strip()}: {told}")


class Spaces:
    """Machines, and the bridge between them and this one."""

    def __init__(self, count: int) -> None:
        self.names = [f"{BRIDGE}-{at}" for at in range(count)]
        self.end()
        run(f"""ip link add {BRIDGE} type bridge
                ip addr add {FIRST}/24 dev {BRIDGE}
                ip link set {BRIDGE} up""")
        for at, name in enumerate(self.names):
            run(f"""ip netns add {name}
                    ip link add {name} type veth peer name inside netns {name}
                    ip link set {name} master {BRIDGE}
                    ip link set {name} up
                    ip -n {name} addr add {self.address(at)}/24 dev inside
                    ip -n {name} link set inside up
                    ip -n {name} link set lo up""")

    def address(self, at: int) -> str:
        """The address of a machine."""
        return f"{NET}.{at + 2}"

    def within(self, at: int) -> list[str]:
        """The words before a command by which it runs on a machine."""
        return ["ip", "netns", "exec", self.names[at]]

    def cut(self, at: int, ports: Sequence[int], other: str = "") -> None:
        """Has everything dropped that goes between a machine and ports: its own, or those of others; with one other
        machine alone, if its address is given."""
        inside, some = " ".join(self.within(at)), ",".join(map(str, ports))
        run(f"{inside} nft add table inet cut")
        for chain, peer in ("input", "saddr"), ("output", "daddr"):
            run(f"{inside} nft add chain inet cut {chain} {{ type filter hook {chain} priority 0 ; }}")
            for side in "sport", "dport":
                run(f"{inside} nft add rule inet cut {chain} {f'ip {peer} {other} ' if other else ''}"
                    f"tcp {side} {{{some}}} drop")

    def heal(self, at: int) -> None:
        """Has everything through again."""
        run(f"{' '.join(self.within(at))} nft delete table inet cut")

    def end(self) -> None:
        """Takes the machines away, if they are there."""
        for name in self.names:
            done(["ip", "netns", "del", name])
        done(["ip", "link", "del", BRIDGE])
