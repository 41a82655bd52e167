"""Which libraries are there for pictures, pages and seasons, and what is said where one isn't."""
from __future__ import annotations

import importlib
import os
import sys
from typing import Sequence

DEBIANS_PYTHON = "/usr/bin/python3"
NEEDED_FOR = {"matplotlib": "pictures", "jinja2": "page"}
KNOWN_AS = {"distributed": "Dask"}


def is_there(library: str) -> bool:
    """Whether a library can be imported."""
    try:
        importlib.import_module(library)
        return True
    except ImportError:
        return False


def is_debians() -> bool:
    """Whether this Python is Debian's own, and not one of a virtual environment beside it."""
    return sys.prefix == sys.base_prefix and os.path.realpath(sys.executable) == os.path.realpath(DEBIANS_PYTHON)


def lacks(libraries: Sequence[str]) -> str:
    """A sentence that says that this Python lacks some libraries, and which of Debian's packages have them."""
    names = " and no ".join(KNOWN_AS.get(it, it) for it in libraries)
    packages = [f"python3-{it.replace('_', '-')}" for it in libraries]
    if is_debians():
        advice = f"`apt-get install {' '.join(packages)}` installs what is missing"
    else:
        advice = (f"Debian's {' and '.join(packages)} {'are' if len(packages) > 1 else 'is'} for {DEBIANS_PYTHON}: use "
                  f"NRM_PYTHON={DEBIANS_PYTHON} nrm-tools ..")
    return f"{sys.executable}, the Python that runs this, has no {names}; {advice}"


def missing(libraries: Sequence[str]) -> str:
    """A sentence that says what isn't made, since this Python lacks some libraries."""
    verb = "is" if libraries[0] == "jinja2" else "are"
    return f"there {verb} no {' and no '.join(NEEDED_FOR[it] for it in libraries)}, since {lacks(libraries)}"
