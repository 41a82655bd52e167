"""What a browser, a program that speaks HTTP and a monitor see of `nrm-tools serve`: pages, lines, metrics, health.

It is a client of the server's socket and a reader of its journal, in a process of its own.
"""
