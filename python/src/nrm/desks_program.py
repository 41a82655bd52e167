"""How `nrm_desks` is begun on a network file that is in memory, and whether it opens one."""
from __future__ import annotations

import os
import subprocess
from typing import Sequence

from nrm import Stop
from nrm.desks_frames import ALL_AGAIN, END
from nrm.program import Program, ended

READY = b"ready 0\n"


def begun(words: Sequence[str], mode: str, file: bytes) -> subprocess.Popen[bytes]:
    """A run of a program on a network file, of which it gets a copy in memory. It is in a session of its own, so that a
    Ctrl-C reaches it as the end of its input alone."""
    copy = os.memfd_create("network")
    try:
        with open(copy, "wb", closefd=False) as written:
            written.write(file)
        return subprocess.Popen([*words, mode, f"/dev/fd/{copy}"], bufsize=0, pass_fds=[copy], stdin=subprocess.PIPE,
                                stdout=subprocess.PIPE, start_new_session=True)
    finally:
        os.close(copy)


def see_that_it_opens(program: Program, mode: str, file: bytes, path: str) -> None:
    """A Stop for a network file that the program doesn't open, and for what is no such program."""
    try:
        process = begun(program.words, mode, file)
    except OSError as fault:
        raise Stop(f"{program.words[0]}: {fault.strerror}")
    told = process.communicate(ALL_AGAIN + END)[0]
    if process.returncode or told != READY:
        raise ended(f"{' '.join(program.words)} {mode} {path}", process.returncode,
                    told.decode("latin-1").rstrip("\n").rpartition("\n")[2])
