"""Tests of `nrm.journal`."""
