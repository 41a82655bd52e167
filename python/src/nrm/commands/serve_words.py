"""The words of a server of many desks: where clients come, who may, what ends waiting, which program answers, how often
plans are made, and what is told.
"""
from __future__ import annotations

import argparse
import re
from typing import Callable

from nrm import Stop, bytes_in
from nrm.commands.running import at_least, refused_word
from nrm.desk import TOKEN
from nrm.program import PIECE
from nrm.server.clients import ClientLimits
from nrm.server.event_log import FORMS, LEVELS, LogForm
from nrm.server.fleet import Sharing
from nrm.server.sockets import OWN_RIGHTS, Places
from nrm.server.watched_files import Guard

LEAST_EVERY = 60
MOST_SECONDS, MOST_DIGITS = 1_000_000_000, 20
MOST_COUNT = 999_999_999
MOST_TOKEN = 1000  # bytes of its file


def of_server(text: str) -> str:
    """The name of a server, or its address."""
    if not re.fullmatch("[!-~]{1,100}", text):
        raise refused_word(text, "1 to 100 characters of ASCII without blanks")
    return text


def rights(text: str) -> int:
    """Rights in octal digits."""
    if not re.fullmatch("0*[0-7]{1,3}", text):
        raise refused_word(text, "a file mode in octal digits, such as 660")
    return int(text, 8)


def seconds(text: str) -> float:
    """A time that may pass."""
    try:
        value = float(text) if len(text) < MOST_DIGITS else 0
    except ValueError:
        value = 0
    if not 0 < value < MOST_SECONDS:
        raise refused_word(text, f"a number of seconds above 0 and below {MOST_SECONDS:,}")
    return value


def every(text: str) -> int:
    """The seconds of a time that is said in seconds, minutes or hours, and is no shorter than a minute."""
    found = re.fullmatch("([1-9][0-9]{0,7})([mh]?)", text)
    value = int(found[1]) * {"": 1, "m": 60, "h": 3600}[found[2]] if found else 0
    if value < LEAST_EVERY:
        raise refused_word(text, f"a time of at least {LEAST_EVERY} seconds, such as 90, 30m or 2h")
    return value


def token_in(path: str) -> str:
    """The token of a file."""
    token = bytes_in(path, MOST_TOKEN).decode("latin-1").strip()
    if not TOKEN.fullmatch(token):
        raise Stop(f"{path} has no token, which is one word and nothing else")
    return token


OF_LIMITS: tuple[tuple[str, Callable[[str], float], str, str], ...] = (
    ("clients", at_least(1, MOST_COUNT), "N", "the most clients at a time; if there is --listen too, the last tenth "
                                              "are for --socket alone"),
    ("unsent", at_least(1, MOST_COUNT), "BYTES", "the most bytes of replies that a client hasn't taken"),
    ("slow", seconds, "SECONDS", "how long a client may take to finish a line, to say who it is, to take its replies, "
                                 "and to end"),
    ("idle", seconds, "SECONDS", "how long a client may be without a line"),
    ("answer", seconds, "SECONDS", "how long a program may take for its next answer, after which it is ended"),
    ("linger", seconds, "SECONDS", "how long a program stays without clients"))  # each a field of `ClientLimits`


def add_places(words: argparse.ArgumentParser) -> None:
    """The options for where clients come, and for the program."""
    words.add_argument("--socket", metavar="PATH", help="the Unix socket")
    words.add_argument("--mode", type=rights, default=OWN_RIGHTS, metavar="RIGHTS",
                       help="the mode of the socket, in octal digits; default 600")
    words.add_argument("--listen", metavar="HOST:PORT", help="a TCP port, beside the socket or instead of it")
    words.add_argument("--beyond-this-machine", action="store_true", help="let --listen be beyond the loopback range")
    words.add_argument("--program", nargs="+", metavar="WORD",
                       help="the program nrm_desks and its first arguments; by default that of this folder, or the "
                            "one on the path")


def add_guard(words: argparse.ArgumentParser) -> None:
    """The options for the files that say who may come."""
    words.add_argument("--desks", metavar="FILE", help="the file of the desks that may come, and what each may do")
    words.add_argument("--certificate", metavar="FILE", help="the certificate of --listen, which then takes TLS alone")
    words.add_argument("--key", metavar="FILE", help="the key of the certificate")


def add_limits(words: argparse.ArgumentParser) -> None:
    """The options that end waiting and bound memory."""
    for name, kind, value, what in OF_LIMITS:
        words.add_argument(f"--{name}", type=kind, default=getattr(ClientLimits, name), metavar=value,
                           help=f"{what}; default %(default)s")


def add_clock(words: argparse.ArgumentParser) -> None:
    """The option for how often plans are made."""
    words.add_argument("--every", type=every, default=0, metavar="TIME",
                       help=f"make another plan of each network with times after this time, if lines were written "
                            f"since: seconds, minutes such as 30m, or hours such as 2h; at least {LEAST_EVERY} seconds")


def add_log(words: argparse.ArgumentParser) -> None:
    """The options for what is told on standard error."""
    words.add_argument("--log", choices=FORMS, default=LogForm.form,
                       help="the form of the log on standard error; default %(default)s")
    words.add_argument("--log-level", choices=LEVELS, default=LogForm.level,
                       help="the least level that is logged; default %(default)s")


def add_sharing(words: argparse.ArgumentParser) -> None:
    """The options for a journal that several servers share."""
    words.add_argument("--name", type=of_server, metavar="NAME",
                       help="the name of this server among others; by default the address on which it listens")
    words.add_argument("--address", type=of_server, metavar="HOST:PORT",
                       help="the address at which others reach this server, if it isn't that of --listen")
    words.add_argument("--alone", action="store_true",
                       help="take a database that waits for no standby: if its disk is lost, lines are lost")
    ways = words.add_mutually_exclusive_group()
    ways.add_argument("--pass-on", action="store_true",
                      help="pass desks on to the owner of their network, which is the default")
    ways.add_argument("--send-on", action="store_true", help="send desks the address of the owner of their network")
    words.add_argument("--followers", type=at_least(0, MOST_COUNT), metavar="N",
                       help=f"how many networks this server follows, 0 for none; default {Sharing.followers}")


def sharing_in(words: argparse.ArgumentParser, asked: argparse.Namespace, is_shared: bool) -> Sharing:
    """How a journal is shared, as the words say; an end with the usage where it can't be."""
    said = [asked.name, asked.address, asked.alone, asked.pass_on, asked.send_on, asked.followers is not None]
    if any(said) and not is_shared:
        words.error("--name, --address, --alone, --pass-on, --send-on and --followers can be used with a journal in "
                    "PostgreSQL only")
    followers = Sharing.followers if asked.followers is None else asked.followers
    return Sharing(asked.name or "", asked.address or "", asked.alone, asked.send_on, followers)


def places_in(words: argparse.ArgumentParser, asked: argparse.Namespace) -> Places:
    """Where clients come, as the words say; an end with the usage where they say nowhere."""
    if not (asked.socket or asked.listen):
        words.error("--socket or --listen must be given")
    if "" in (asked.socket, asked.listen, asked.journal):
        words.error("JOURNAL, --socket and --listen can't be empty")
    return Places(asked.socket, asked.mode, asked.listen, asked.beyond_this_machine)


def guard_in(words: argparse.ArgumentParser, asked: argparse.Namespace) -> Guard:
    """The files that say who may come, as the words say; an end with the usage where one is missing."""
    if "" in (asked.desks, asked.certificate, asked.key):
        words.error("--desks, --certificate and --key can't be empty")
    if bool(asked.certificate) != bool(asked.key):
        words.error("--certificate and --key must be given together")
    if asked.certificate and not asked.listen:
        words.error("--certificate and --key can be used with --listen only")
    if asked.desks and asked.listen and not asked.certificate:
        words.error("with --desks, --listen needs --certificate and --key, so that nobody reads a token on its way")
    return Guard(asked.desks, asked.certificate, asked.key)


def limits_in(words: argparse.ArgumentParser, asked: argparse.Namespace) -> ClientLimits:
    """What ends waiting and bounds memory, as the words say; an end with the usage where that can't be."""
    if asked.unsent < PIECE:
        words.error(f"--unsent must be at least {PIECE}")
    return ClientLimits(**{name: getattr(asked, name) for name, *_ in OF_LIMITS})
