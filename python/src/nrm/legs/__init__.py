"""A leg by itself: how its fares are grouped, what the optimum and EMSR-b protect, and that it was joined."""
