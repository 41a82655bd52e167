"""Why a line was answered as it was: its account is read, its rule is done again, and a page says both."""
