"""Small libraries in C that are loaded before the C library, by which tests make some calls of a program fail."""
import os
import shutil
import subprocess

WANTING = "that needs a C compiler, `cc`, and there is none here"


class Wrong(Exception):
    """What stands against trying at all."""


def is_there():
    """Whether libraries can be built here."""
    return shutil.which("cc") is not None


def built(source, folder, name="library"):
    """The path of the library that is built of a text in C."""
    text, library = os.path.join(folder, name + ".c"), os.path.join(folder, name + ".so")
    with open(text, "w", encoding="ascii") as file:
        file.write(source)
    done = subprocess.run(["cc", "-shared", "-fPIC", "-fno-builtin", "-o", library, text], capture_output=True)
    if done.returncode:
        raise Wrong(f"the library isn't built: {done.stderr.decode()}")
    return library


def must_be_a_program(path):
    """A script would have its own calls fail."""
    with open(path, "rb") as file:
        if file.read(4) != b"\x7fELF":
            raise Wrong(f"{path} is a script or another file, and must be the program itself")
