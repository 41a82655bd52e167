"""Tests of `nrm.records`."""
