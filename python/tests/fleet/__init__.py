"""Tests of several servers that share a journal in PostgreSQL, one after the other."""
