"""Tests of `nrm.legs`."""
