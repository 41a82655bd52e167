"""Tests of `nrm.commands`."""
