"""Tests of `nrm.accounts`."""
