#!/usr/bin/env python3
"""Types lines at a socket and writes what comes back, as `socat` does: for the tests of pages where it isn't installed.

    typed.py -t SECONDS - UNIX-CONNECT:SOCKET

All of standard input is sent, and its end told; then what comes back is written, until the other side closes or is
silent for so many seconds.
"""
import contextlib
import os
import socket
import sys


def main():
    option, seconds, dash, address = sys.argv[1:] if len(sys.argv) == 5 else [""] * 4
    if (option, dash) != ("-t", "-") or not seconds.isdecimal() or not address.startswith("UNIX-CONNECT:"):
        sys.exit(__doc__)
    with socket.socket(socket.AF_UNIX) as line:
        try:
            line.connect(address.removeprefix("UNIX-CONNECT:"))
        except OSError as error:
            sys.exit(f"typed.py: {address}: {error.strerror}")
        with contextlib.suppress(OSError):  # the other side has closed, and what it said before is there to be read
            line.sendall(sys.stdin.buffer.read())
            line.shutdown(socket.SHUT_WR)
        line.settimeout(int(seconds))
        with contextlib.suppress(OSError):
            while part := line.recv(65536):
                os.write(sys.stdout.fileno(), part)


if __name__ == "__main__":
    main()
