"""Who may come to a server of many desks, and what each may do: the file of desks, read, and changed by an entry.

    [COUNTER-7]
    token = "sha256:7f83b1657ff1fc53b92dc18148a1d65dfc2d4b1fa3d677284addd200126d9069"
    rights = ["look", "book", "cancel-own"]

The file is TOML. It has no token, but the SHA-256 of each, in hexadecimal. A plain hash is enough, since a token is 32
bytes of chance: there are too many to try, so that it needs no salt, and no hash that takes long. Who comes is looked
up by the hash of the token that he gave, in a dictionary. How long that takes depends on hashes, of which nobody can
make one that begins as he likes; so it tells nothing to go by. What is wrong in the file is told without the text that
may be a token. No entry may have a name that the server gives itself: CLOCK, and AT-1, AT-2 and so on.
"""
from __future__ import annotations

import contextlib
import fcntl
import hashlib
import importlib
import os
import re
import secrets
import stat
import tempfile
from dataclasses import dataclass, field
from typing import Any, Iterator, Mapping, Sequence, Tuple

from nrm import Stop, bytes_in
from nrm.libraries import lacks
from nrm.network import NAME

RIGHTS = ("look", "book", "cancel-own", "cancel-any", "plan", "greet")
KEYS = {"token", "rights"}
FORM = "sha256:"
HASH = re.compile(FORM + "[0-9a-f]{64}")
READERS = "tomllib", "tomli"  # the first is in Python from 3.11 on
TOKEN_BYTES = 32
GIVEN = re.compile(r"CLOCK|AT-\d+")  # names of the server's own desk, and of clients that say none
LONGEST_SHOWN = 20  # characters of what is wrong: a token is longer
TOKEN_LINE = r'^(\s*token\s*=\s*)(?:"[^"\n]*"|\'[^\'\n]*\')'
RIGHTS_LINE = r"^(\s*rights\s*=\s*)\[[^\]]*\]"


@dataclass(frozen=True)
class Right:
    """A desk, the hash of its token, which is empty for the server's own desk, and what it may do."""
    name: str
    hash: str = field(repr=False)
    rights: Tuple[str, ...]


CLOCK = Right("CLOCK", "", ("look", "plan"))


@dataclass(frozen=True)
class Access:
    """The desks that may come, by the hashes of their tokens."""
    desks: Mapping[str, Right] = field(default_factory=dict)

    def named(self, token: bytes) -> Right | None:
        """The desk of a token, if there is one."""
        return self.desks.get(hash_of(token))

    def has(self, right: Right) -> bool:
        """Whether a desk may still come with this token, and do this; the server's own always may."""
        return right is CLOCK or self.desks.get(right.hash) == right


def hash_of(token: bytes) -> str:
    """The hash of a token, as it stands in the file."""
    return FORM + hashlib.sha256(token).hexdigest()


# How the file is read


def bytes_of_plain_file(path: str) -> bytes:
    """The bytes of a plain file. Another isn't read, since one might wait for who writes into it."""
    try:
        if not stat.S_ISREG(os.stat(path).st_mode):
            raise Stop(f"{path} is no plain file")
    except OSError as fault:
        raise Stop(f"{path}: {fault.strerror}")
    return bytes_in(path)


def read_access(path: str) -> Access:
    """The desks of a file; a Stop with the entry for what is wrong in it."""
    return access_in(bytes_of_plain_file(path), path)


def access_in(text: bytes, path: str) -> Access:
    """The desks of a text, which is that of the file at a path."""
    desks: dict[str, Right] = {}
    for name, entry in tables_in(text, path).items():
        right = right_of(name, entry, f"{path}: [{shown(name)}]")
        if right.hash in desks:
            raise Stop(f"{path}: [{name}] has the same token as [{desks[right.hash].name}]")
        desks[right.hash] = right
    return Access(desks)


def tables_in(text: bytes, path: str) -> dict[str, Any]:
    """What a text in TOML says."""
    for reader in READERS:
        with contextlib.suppress(ImportError):
            module = importlib.import_module(reader)
            break
    else:
        raise Stop(lacks(READERS[-1:]))
    try:
        found: dict[str, Any] = module.loads(text.decode())
    except UnicodeDecodeError:
        raise Stop(f"{path} is no text in UTF-8") from None
    except (ValueError, RecursionError) as fault:
        where = re.search(r"at line \d+", str(fault))
        raise Stop(f"{path} is no TOML{f' {where[0]}' if where else ''}") from None
    return found


def right_of(name: str, entry: object, place: str) -> Right:
    """The desk of an entry, which stands at a place."""
    if not NAME.fullmatch(name):
        raise Stop(f"{place}: that is no name of a desk: 1 to 12 of `A` to `Z`, `0` to `9` and `-`")
    if GIVEN.fullmatch(name):
        raise Stop(f"{place}: that name is one that the server gives, so no desk may have it")
    if not isinstance(entry, dict):
        raise Stop(f"{place}: token and rights are wanted")
    if unknown := sorted(entry.keys() - KEYS):
        raise Stop(f"{place}: nothing is called {shown(unknown[0])}")
    token = entry.get("token")
    if not (isinstance(token, str) and HASH.fullmatch(token)):
        raise Stop(f"{place}: as token `{FORM}` and 64 hexadecimal digits in small letters are wanted")
    rights = entry.get("rights")
    if not isinstance(rights, list):
        raise Stop(f"{place}: a list of rights is wanted")
    return Right(name, token, rights_in(rights, place))


def rights_in(words: Sequence[object], place: str) -> Tuple[str, ...]:
    """The rights that are named at a place, in an order of their own."""
    for it in words:
        if it not in RIGHTS:
            raise Stop(f"{place}: there is no right {shown(it)}; there are {', '.join(RIGHTS)}")
    if not words:
        raise Stop(f"{place}: at least one right is wanted, of {', '.join(RIGHTS)}")
    return tuple(it for it in RIGHTS if it in words)


def shown(it: object) -> str:
    """Something that is wrong as it is told, unless it could be a token."""
    text = it if isinstance(it, str) else repr(it)
    return (text if text.isprintable() else repr(text)) if len(text) <= LONGEST_SHOWN else "(a long text)"


# How an entry is made


def add_desk(path: str, name: str, rights: Sequence[str], is_again: bool) -> str:
    """Gives a desk a token, of which the file at a path keeps the hash, and gives the token. One that is there gets
    another if it is to be so, with the rights that it has if no others are named."""
    path = os.path.realpath(path)
    with alone_in(os.path.dirname(path)):
        text = bytes_of_plain_file(path) if os.path.lexists(path) else b""
        before = {it.name: it for it in access_in(text, path).desks.values()}
        if name in before and not is_again:
            raise Stop(f"{path} has {name}: --again gives it another token")
        if name not in before and is_again:
            raise Stop(f"{path} has no {shown(name)}")
        token = secrets.token_hex(TOKEN_BYTES)
        named = before[name].rights if is_again and not rights else rights
        made = right_of(name, {"token": hash_of(token.encode()), "rights": list(named)}, f"{path}: [{shown(name)}]")
        changed = with_entry(text.decode(), made, before.get(name)).encode()
        if {it.name: it for it in access_in(changed, path).desks.values()} != {**before, name: made}:
            raise Stop(f"{path}: [{name}] stands there in a form that this tool doesn't change")
        put_in_place(path, changed)
    return token


def with_entry(text: str, right: Right, before: Right | None) -> str:
    """A text with the entry of a desk, in the place of the one before or behind all others; the rest stays."""
    rights = "[" + ", ".join(f'"{it}"' for it in right.rights) + "]"
    if not before:
        gap = "\n" * (bool(text) + (bool(text) and not text.endswith("\n")))
        return f'{text}{gap}[{right.name}]\ntoken = "{right.hash}"\nrights = {rights}\n'
    head = re.search(rf"""^[ \t]*\[[ \t]*["']?{right.name}["']?[ \t]*\][^\n]*\n""", text, re.MULTILINE)
    if not head:
        return text
    following = re.compile(r"^[ \t]*\[", re.MULTILINE).search(text, head.end())
    end = following.start() if following else len(text)
    entry = re.sub(TOKEN_LINE, rf'\g<1>"{right.hash}"', text[head.end():end], flags=re.MULTILINE)
    if right.rights != before.rights:
        entry = re.sub(RIGHTS_LINE, rf"\g<1>{rights}", entry, flags=re.MULTILINE)
    return text[:head.end()] + entry + text[end:]


@contextlib.contextmanager
def alone_in(folder: str) -> Iterator[None]:
    """Has no other run change a file of a folder meanwhile."""
    number = os.open(folder, os.O_RDONLY | os.O_DIRECTORY | os.O_CLOEXEC)
    try:
        fcntl.flock(number, fcntl.LOCK_EX)
        yield
    finally:
        os.close(number)


def put_in_place(path: str, content: bytes) -> None:
    """Has a file hold something, so that at each moment it is whole: with the owner and the rights that it had, or for
    its owner alone."""
    number, beside = tempfile.mkstemp(dir=os.path.dirname(path), prefix=f"{os.path.basename(path)}.")
    try:
        with open(number, "wb") as file:
            file.write(content)
            with contextlib.suppress(FileNotFoundError):
                found = os.stat(path)
                os.fchmod(number, stat.S_IMODE(found.st_mode))
                if (found.st_uid, found.st_gid) != (os.fstat(number).st_uid, os.fstat(number).st_gid):
                    os.fchown(number, found.st_uid, found.st_gid)
            file.flush()
            os.fsync(number)
        os.replace(beside, path)
    except BaseException:
        os.unlink(beside)
        raise
