"""Many seasons: how they are drawn and played, and what is compared, searched and shown of them."""
