"""Orders as the replies to players show them."""
