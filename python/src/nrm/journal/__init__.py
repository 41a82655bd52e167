"""The journal of many desks: networks, lines, replies and times, in SQLite or PostgreSQL, and older ones."""
