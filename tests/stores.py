"""Stores of `nrm_kept`, made and read by the `sqlite3` of Python.

A store is the file and, beside it, its log, whose name begins with that of the file. It is read in a copy of both, so
that reading changes neither, and while a program has it. Where Python has no `sqlite3`, `is_there` is false, and what
needs it says so.
"""
import glob
import os
import shutil
import tempfile

try:
    import sqlite3
except ImportError:
    sqlite3 = None

is_there = sqlite3 is not None
WANTING = "that needs the module `sqlite3` of Python, and there is none here"
TABLE = "CREATE TABLE kept (number INTEGER PRIMARY KEY, product TEXT NOT NULL, party INTEGER NOT NULL) STRICT;\n"


class Unread(Exception):
    """A file that is no database, or whose table `kept` can't be read."""


def files(path):
    """The file of a store and what stands beside it, as far as they are there."""
    return sorted(glob.glob(glob.escape(path) + "*"))


def make(path, statements):
    """Makes an SQLite file by statements, bytes of SQL."""
    connection = sqlite3.connect(path)
    connection.executescript(statements.decode())
    connection.commit()
    connection.close()


def rows(path):
    """The rows of the table `kept`, each (number, product, party) as the file has them, by rising number."""
    with tempfile.TemporaryDirectory() as folder:
        for it in files(path):
            shutil.copy(it, folder)
        copy = os.path.join(folder, os.path.basename(path))
        if not os.path.exists(copy):
            raise Unread(f"there is no {path}")
        connection = sqlite3.connect(copy)
        try:
            return connection.execute("SELECT number, product, party FROM kept ORDER BY number").fetchall()
        except sqlite3.Error as error:
            raise Unread(str(error)) from error
        finally:
            connection.close()


def faults(path):
    """What `PRAGMA integrity_check` says of the file, which is `ok` alone if it finds nothing."""
    connection = sqlite3.connect(path)
    try:
        return [row[0] for row in connection.execute("PRAGMA integrity_check")]
    except sqlite3.Error as error:
        raise Unread(str(error)) from error
    finally:
        connection.close()


def text(path):
    """The rows in lines, a blank between two columns."""
    return "".join(" ".join(map(str, row)) + "\n" for row in rows(path)).encode()
