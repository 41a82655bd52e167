"""Explains every row of a network file that is refused, and how to mend it; of a certificate file, every line.

    nrm-tools explain NETWORK [CERTIFICATE] [--names FILE]

`nrm print NETWORK` reports the first row that it refuses, and `nrm check NETWORK CERTIFICATE` the first line. This
command reports all of them. For each row it prints what the program says of it, and below that for each wrong field the
line of the file as an editor counts it, the field with its contents, and how to mend it. The first that it prints is
the one that the program reports. A refused row still makes its name known, so no row is reported for the fault of
another. The row of periods says which version the file has: with `,2` at its end it has version 2, with authorised
seats after the seats of each leg, and with rows of refunds.

The status is 3 if something is refused, 9 if a file can't be read, and otherwise 0. A certificate that can be read may
still be wrong: use `nrm check` or `nrm-tools audit`.
"""
from __future__ import annotations

from typing import Mapping, Sequence

from nrm import Stop, said
from nrm.commands.running import add_names, parser
from nrm.limits import MOST_NETWORK_BYTES
from nrm.network import Network, rows_of
from nrm.pages.tables import with_text
from nrm.records.certificate_faults import faults_of_certificate
from nrm.records.name_lists import texts_in
from nrm.records.network_faults import refusals_of

REFUSED, UNREADABLE = 3, 9


def run(given: Sequence[str]) -> int:
    """Tells what is wrong with the files that the words name."""
    words = parser("explain", __doc__)
    words.add_argument("network")
    words.add_argument("certificate", nargs="?")
    add_names(words)
    asked = words.parse_args(given)
    return explain(asked.network, asked.certificate, texts_in(asked.names))


def explain(path: str, certificate: str | None = None, texts: Mapping[str, str] | None = None) -> int:
    """Tells what is wrong with the files at two paths, and gives the status."""
    data = bytes_of(path, "refused no file")
    refusals = refusals_of(data)
    for refusal in refusals:
        named = [with_text(it, texts) for it in dict.fromkeys(refusal.row.fields[1:]) if texts and it in texts]
        print(*refusal.lines(), *(f"    {it}" for it in named), sep="\n")
    if refusals:
        print(f"{said(path)}: rows refused {len(refusals)}{'; the certificate was not read' if certificate else ''}")
        return REFUSED
    network = Network.of(rows_of(data))
    faults: list[tuple[str, str]] = []
    if certificate is not None:
        faults += faults_of_certificate(bytes_of(certificate, "refused certificate no file"), network)
    for words, advice in faults:
        print(f"{words}\n    {advice}")
    print(f"{said(path)}: no row is refused; legs {len(network.legs)}, products {len(network.products)}, "
          f"histories {network.histories}, periods {network.periods}")
    if certificate is not None:
        print(f"{said(certificate)}: {f'faults {len(faults)}' if faults else 'no line is refused'}")
    return REFUSED if faults else 0


def bytes_of(path: str, missing: str) -> bytes:
    """The bytes of a file, as far as shows that it is too long; that there is none is told as the program does."""
    try:
        with open(path, "rb") as file:
            return file.read(MOST_NETWORK_BYTES + 1)
    except FileNotFoundError:
        print(missing)
        raise Stop(f"there is no file {said(path)}", REFUSED)
    except OSError as fault:
        print("file fault")
        raise Stop(f"{said(path)} can't be read: {fault.strerror}", UNREADABLE)
