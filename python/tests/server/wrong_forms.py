"""Has the crowd or a test find each of the wrong forms of `forms.py`, by what it tells then.

    python3 -m server.wrong_forms FOLDER [PATTERN]
"""
from __future__ import annotations

import sys

from server.forms import FORMS
from trials.mistakes import main

if __name__ == "__main__":
    sys.exit(main(FORMS, sys.argv[1:]))
