"""Tests of `nrm.pages`."""
