"""The faults of a line and the refusals of a mailing: numbers and names by docs/PLAYER.md, "The answer", and
docs/MODERATOR.md, "Refusals"."""

from __future__ import annotations

from enum import IntEnum


class LineFault(IntEnum):
    """Why the program can't read a line."""

    NO_UNIT = 1
    UNKNOWN_ORDER = 2
    BAD_NUMBER = 3
    UNKNOWN_THING = 4
    MISSING_WORD = 5
    BAD_BYTE = 6
    BAD_ALIAS = 7
    NESTED_FORM = 8
    END_ALONE = 9
    BAD_DIRECTION = 10
    BAD_NAME = 11


class Refusal(IntEnum):
    """Why the program does nothing at all."""

    BAD_NAME = 1
    BAD_PASS_TEXT = 2
    NAME_TAKEN = 3
    FULL = 4
    NO_FACTION = 5
    WRONG_PASS = 6
    GONE = 7
    TOO_LONG = 8
    NO_HEADER = 9
    BAD_HEADER = 10
    WRONG_FACTION = 11
    WRONG_MONTH = 12
    MONTH_LIMIT = 13


def program_name(fault: LineFault | Refusal) -> str:
    """The name as the program prints it, such as `NoUnit`."""
    return fault.name.title().replace("_", "")
