"""What trials of servers share: desks that ask, what must hold after, rounds, and mistakes to be found."""
