"""A club's folder, and the program that keeps its campaign."""
