"""The commands: a file each, whose head is its manual, and whose `run` takes the words behind the name.

Words in, calls out, a status at the end, and nothing else: what a command does stands in the other rooms, and no room
uses a command.
"""
from __future__ import annotations

NAMED = {
    "asked": "nrm.commands.asked",
    "audit": "nrm.audit",
    "demand": "nrm.commands.demand",
    "explain": "nrm.commands.explain",
    "log": "nrm.commands.log",
    "lp": "nrm.commands.lp",
    "split": "nrm.commands.split",
    "optimum": "nrm.commands.optimum",
    "replay": "nrm.commands.replay",
    "season": "nrm.commands.season",
    "simulate": "nrm.commands.simulate",
    "thresholds": "nrm.commands.thresholds",
    "why": "nrm.commands.why",
    "authorise": "nrm.commands.authorise",
    "averaged": "nrm.commands.averaged",
    "journal": "nrm.commands.journal",
    "serve": "nrm.commands.serve",
    "status": "nrm.commands.status",
    "token": "nrm.commands.token",
    "resume": "nrm.commands.resume",
    "web": "nrm.commands.web",
    "completion": "nrm.commands.completion",
}
ALONE = ("audit",)  # these begin and end by themselves
