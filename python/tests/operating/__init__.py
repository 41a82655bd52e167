"""Tests of units, and of what a manager of services is told."""
