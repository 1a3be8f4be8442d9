"""Messages of players, and letters to them."""
