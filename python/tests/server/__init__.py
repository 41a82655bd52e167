"""Tests of `nrm.server`: who comes, what is answered, what is written and told, and how it ends.

They look at how soon replies come, so `python/check` runs these files one after the other.
"""
