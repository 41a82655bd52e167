"""Tests of `nrm.seasons`."""
