"""The server of a journal: it moves bytes between clients, the program of each network, and the journal.

How a line is answered, whose reply it is, and when it may be sent is decided by `nrm_desks`; of what a client sends
only the first line is read here, as far as it has a token, names the network or asks for the status.
"""
