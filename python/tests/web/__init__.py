"""Tests of `nrm.web`."""
