"""Months: close, replay, go back, keep copies, publish."""
