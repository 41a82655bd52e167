"""Where clients come: a Unix socket that is one run's alone, by a lock beside it, and a TCP port."""
from __future__ import annotations

import contextlib
import fcntl
import io
import ipaddress
import os
import re
import resource
import socket
import stat
from dataclasses import dataclass
from typing import Tuple

from nrm import Stop

MOST_TRIES = 100  # to have the lock of a socket, while other runs end
OWN_RIGHTS = 0o600
Place = Tuple[int, int]


@dataclass(frozen=True)
class Places:
    """Where clients come: a Unix socket with its rights, a TCP port, or both."""
    socket: str | None = None
    rights: int = OWN_RIGHTS
    listen: str | None = None
    is_beyond_allowed: bool = False


def allow_files(count: int) -> None:
    """Lets this process have so many files open."""
    soft, hard = resource.getrlimit(resource.RLIMIT_NOFILE)
    if hard != resource.RLIM_INFINITY and hard < count:
        raise Stop(f"for so many clients {count} files must be open, and {hard} may be: `ulimit -Hn` tells it")
    if soft != resource.RLIM_INFINITY and soft < count:
        resource.setrlimit(resource.RLIMIT_NOFILE, (count, hard))


def place_of(found: os.stat_result) -> Place:
    """What tells a file from another, of what `stat` tells of it."""
    return found.st_dev, found.st_ino


def opened(path: str) -> io.FileIO:
    """The plain file at a path, which is no link. If it isn't there it is made, for its owner alone."""
    number = os.open(path, os.O_RDWR | os.O_CREAT | os.O_NOFOLLOW | os.O_NONBLOCK | os.O_CLOEXEC, 0o600)  # no waiting
    if not stat.S_ISREG(os.fstat(number).st_mode):
        os.close(number)
        raise Stop(f"{path} is no plain file")
    return os.fdopen(number, "r+b", buffering=0)


def is_locked(file: io.FileIO) -> bool:
    """Whether this process alone has the file now, for as long as it is open."""
    try:
        fcntl.flock(file, fcntl.LOCK_EX | fcntl.LOCK_NB)
        return True
    except BlockingIOError:
        return False


class SocketPath:
    """A path for a Unix socket. It is this run's alone, while this process has the lock in a file beside it."""

    def __init__(self, path: str) -> None:
        self.path, self.lock_path = path, f"{path}.lock"
        self.bound: Place | None = None
        self.lock = self.locked()

    def locked(self) -> io.FileIO:
        """The file of the lock. One that its run took away as it ended isn't the one that is there: it tries anew."""
        for _ in range(MOST_TRIES):
            file = opened(self.lock_path)
            if not is_locked(file):
                raise Stop(f"another run has the socket {self.path}")
            if self.is_there(self.lock_path, place_of(os.fstat(file.fileno()))):
                return file
            file.close()
        raise Stop(f"{self.lock_path} is taken away again and again")

    def is_there(self, path: str, place: Place) -> bool:
        """Whether a file is still the one at a path."""
        with contextlib.suppress(FileNotFoundError):
            return place_of(os.lstat(path)) == place
        return False

    def listener(self, mode: int) -> socket.socket:
        """A socket that is bound to the path. One that nobody listens on is left from a killed run, and goes."""
        self.see_that_it_is_free()
        listener = socket.socket(socket.AF_UNIX)
        before = os.umask(0o177)
        try:
            listener.bind(self.path)
        except OSError as fault:
            raise Stop(f"{self.path}: {fault.strerror or fault}")
        finally:
            os.umask(before)
        self.bound = place_of(os.lstat(self.path))
        os.chmod(self.path, mode)
        return listener

    def see_that_it_is_free(self) -> None:
        """Takes away a socket that nobody listens on; a Stop for anything else that is there."""
        with contextlib.suppress(FileNotFoundError), socket.socket(socket.AF_UNIX) as other:
            if not stat.S_ISSOCK(os.stat(self.path).st_mode):
                raise Stop(f"{self.path} is there, and no socket")
            other.setblocking(False)
            try:
                other.connect(self.path)
            except ConnectionRefusedError:
                os.unlink(self.path)
                return
            except BlockingIOError:
                pass  # so many wait to be taken that no more may
            raise Stop(f"another process listens on {self.path}")

    def unlink(self) -> None:
        """Takes the socket away if it is the one that was bound, which is still open: so no other has its inode."""
        if self.bound and self.is_there(self.path, self.bound):
            os.unlink(self.path)
        self.bound = None

    def leave(self) -> None:
        """Takes socket and lock away."""
        self.unlink()
        if self.is_there(self.lock_path, place_of(os.fstat(self.lock.fileno()))):
            os.unlink(self.lock_path)
        self.lock.close()


def is_loopback(address: str) -> bool:
    """Whether an address is of this machine's loopback range, in which one of IPv4 may be written as one of IPv6."""
    found = ipaddress.ip_address(address)
    return (getattr(found, "ipv4_mapped", None) or found).is_loopback


def tcp_socket(place: str, is_beyond_allowed: bool) -> socket.socket:
    """A socket that is bound to HOST:PORT, of the loopback range unless others are allowed in so many words."""
    host, _, port = place.rpartition(":")
    if not (host and re.fullmatch(r"[0-9]{1,5}", port) and int(port) < 65_536):
        raise Stop(f"--listen {place}: HOST:PORT is wanted", 2)
    try:
        family, kind, protocol, _, address = socket.getaddrinfo(host.strip("[]"), int(port), type=socket.SOCK_STREAM)[0]
        if not is_loopback(str(address[0])) and not is_beyond_allowed:
            raise Stop(f"--listen {place} is beyond this machine's loopback range, "
                       "and there is no --beyond-this-machine", 2)
        listener = socket.socket(family, kind, protocol)
        listener.setsockopt(socket.SOL_SOCKET, socket.SO_REUSEADDR, 1)
        listener.bind(address)
    except UnicodeError:  # which is how Python answers a part of more than 63 letters
        raise Stop(f"--listen {place}: the name of the host is too long, or not one")
    except OSError as fault:
        raise Stop(f"--listen {place}: {fault.strerror or fault}")
    return listener
