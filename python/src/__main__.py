"""Runs the tools from this folder, with which Python's path begins: never with the user's own."""
import sys

from nrm.__main__ import main

sys.exit(main())
