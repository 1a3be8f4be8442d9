"""What the office did: one line an event in the club's file office/log."""

from __future__ import annotations

from datetime import datetime
from pathlib import Path

from office.club.files import append_line

MOST_LINE = 500


def log(path: Path, what: str) -> None:
    """Adds a line with the time. What a sender wrote can't make a second line of it."""
    append_line(path, f"{datetime.now().astimezone():%Y-%m-%d %H:%M:%S%z} {what}"[:MOST_LINE])
