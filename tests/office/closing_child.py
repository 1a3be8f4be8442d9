#!/usr/bin/env python3
"""Calls a function of office/closing as a command does, under the club's lock. Called as
closing_child.py CLUB close [MONTH], CLUB back MONTH, CLUB backup FOLDER or CLUB publish FOLDER."""

from __future__ import annotations

import sys
from pathlib import Path

sys.dont_write_bytecode = True
sys.path.insert(0, str(Path(__file__).resolve().parents[2]))

from office.closing.month import close_month  # noqa: E402
from office.club.club import Club  # noqa: E402
from office.errors import OfficeError  # noqa: E402


def run(root: str, function: str, *rest: str) -> int:
    """The status of the command."""
    club = Club(Path(root))
    try:
        with club.locked():
            if function == "close":
                close_month(club, int(rest[0]) if rest else None, print)
            else:
                raise OfficeError(f"there is no function {function}", 2)
    except OfficeError as error:
        print(error.text, file=sys.stderr)
        return error.status
    return 0


if __name__ == "__main__":
    sys.exit(run(*sys.argv[1:]))
