"""The lines of a mailing as the program finds them (docs/RULES.md, "Reading a mailing"), each byte as one letter."""

from __future__ import annotations

from office.mail.blocks import END, HEADER
from office.orders.words import begins


def split_lines(mailing: bytes) -> list[str]:
    """The lines without their ends. One carriage return before the end is a part of it."""
    return [line.removesuffix("\r") for line in mailing.decode("latin-1").split("\n")]


def find_header(lines: list[str]) -> int | None:
    """The index of the header line; None where there is none."""
    return next((at for at, line in enumerate(lines) if begins(line, HEADER)), None)


def find_end(lines: list[str], header: int) -> int:
    """The index of the line of #END, or of the end of the text."""
    return next((at for at in range(header + 1, len(lines)) if begins(lines[at], END)), len(lines))
