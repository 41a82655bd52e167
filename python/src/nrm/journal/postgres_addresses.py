"""Where a database is, as a URI says it: what it is asked with, and how it is told without its password."""
from __future__ import annotations

from dataclasses import dataclass
from typing import Mapping

import psycopg
from psycopg.conninfo import conninfo_to_dict

from nrm import Stop

# what is asked of each session, whatever the URI says: a commit waits for the disk of a standby, only a primary will
# do, and a machine that is gone is missed within seconds
SETTINGS = "-c synchronous_commit=on"
ASKED = {"target_session_attrs": "read-write", "connect_timeout": "2", "keepalives": "1", "keepalives_idle": "3",
         "keepalives_interval": "1", "keepalives_count": "3", "tcp_user_timeout": "5000"}
SECRETS = ("password", "sslpassword")
PORT = "5432"


@dataclass(frozen=True)
class Address:
    """A database: the words for each of its hosts, and how it is told."""
    hosts: tuple[Mapping[str, str], ...]
    shown: str
    secrets: tuple[str, ...]

    def told(self, text: str) -> str:
        """A text in one line, in which no password stands."""
        for secret in self.secrets:
            text = text.replace(secret, "..")
        return " ".join(text.split())


def address_of(uri: str) -> Address:
    """The database that a URI means; a Stop for one that libpq doesn't read, which isn't told, since it may have a
    password in it."""
    try:
        words = {name: str(value) for name, value in conninfo_to_dict(uri).items() if value is not None}
    except psycopg.Error:
        raise Stop("JOURNAL isn't a URI such as postgresql://HOST:PORT/DATABASE") from None
    hosts, ports = (words.pop(it, "").split(",") for it in ("host", "port"))
    if len(ports) == 1:
        ports *= len(hosts)
    if len(ports) != len(hosts):
        raise Stop(f"JOURNAL has {len(hosts)} hosts and {len(ports)} ports")
    secrets = tuple(words[it] for it in SECRETS if words.get(it))
    options = f"{words.pop('options', '')} {SETTINGS}".strip()
    made = tuple({**words, **ASKED, "options": options, **({"host": host} if host else {}),
                  **({"port": port} if port else {})} for host, port in zip(hosts, ports))
    places = ",".join(f"[{host}]:{port or PORT}" if ":" in host else f"{host}:{port or PORT}"
                      for host, port in zip(hosts, ports))
    user = f"{words['user']}@" if words.get("user") else ""
    return Address(made, f"postgresql://{user}{places}/{words.get('dbname', '')}", secrets)
