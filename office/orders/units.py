"""The units in the text of a report, by docs/FORMATS.md, "Reports"."""

from __future__ import annotations

import re
from dataclasses import dataclass

_UNIT = re.compile(r'^([*-]) Unit (\d{1,9}) "([^"]*)"', re.MULTILINE)
_TITLE = re.compile(r"Atlantis report, month (\d{1,4}), faction (\d{1,4}) ")


@dataclass(frozen=True)
class Units:
    """The units of a report. `month` is the one that was closed last. `own` has the names of the faction's own units by
    their numbers, and `others` the numbers of all that it sees of other factions."""

    month: int
    faction: int
    own: dict[int, str]
    others: frozenset[int]


def units_of_report(report: str) -> Units | None:
    """The units of a report, None for a text that is no report."""
    title = _TITLE.match(report)
    if not title:
        return None
    found = _UNIT.findall(report)
    own = {int(number): name for sign, number, name in found if sign == "*"}
    others = frozenset(int(number) for sign, number, _ in found if sign == "-")
    return Units(int(title[1]), int(title[2]), own, others)


def own_units(report: str) -> frozenset[int] | None:
    """The numbers of the faction's own units, None for a text that is no report."""
    units = units_of_report(report)
    return frozenset(units.own) if units else None
