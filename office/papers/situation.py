"""What there is in each region at the end of a month, and how all reports of that month show it together: all units
with people, but only the regions where these are."""

from collections.abc import Iterable, Mapping
from dataclasses import dataclass

from office.papers.months import Month
from office.papers.report import Report
from office.papers.world import World


@dataclass(frozen=True)
class Unit:
    """`inside` is a structure, or 0."""

    number: int
    name: str
    faction: int
    people: int
    guard: bool
    inside: int


@dataclass(frozen=True)
class Structure:
    """`owner` is a unit, or 0."""

    number: int
    name: str
    kind: str
    ship: bool
    done: int
    size: int
    owner: int


@dataclass(frozen=True)
class Scene:
    """What there is in a region. `peasants` and `money` are None, and there are no stocks, if nobody saw the region."""

    peasants: int | None
    money: int | None
    units: tuple[Unit, ...]
    structures: tuple[Structure, ...]
    stocks: Mapping[str, int]


NOT_SEEN = Scene(None, None, (), (), {})


@dataclass(frozen=True)
class Situation:
    """The whole world at the end of a month. `source` says where it is from, for a person."""

    month: int
    source: str
    world: World
    factions: Mapping[int, str]
    scenes: Mapping[int, Scene]


def from_reports(month: Month) -> Situation:
    """What the reports of the month show together."""
    reports = list(month.new_reports())
    names = {listed.number: month.reports[listed.number].name for listed in month.factions}
    numbers = sorted({region.number for report in reports for region in report.regions})
    scenes = {number: _scene(number, reports, month.world) for number in numbers}
    source = f"From the reports of month {month.number}, which show the regions where somebody has people."
    return Situation(month.number, source, month.world, names, scenes)


def _scene(number: int, reports: Iterable[Report], world: World) -> Scene:
    seen = [region for report in reports for region in report.regions if region.number == number]
    ships = {kind.name for kind in world.kinds if kind.ship}
    units = {it.number: Unit(it.number, it.name, it.faction, it.men, it.guard, it.inside)
             for region in seen for it in region.units}
    # A report shows owner 0 where the faction doesn't see the owner.
    owners: dict[int, int] = {}
    for it in (structure for region in seen for structure in region.structures):
        owners[it.number] = max(owners.get(it.number, 0), it.owner)
    structures = tuple(Structure(it.number, it.name, it.kind, it.kind in ships, it.done, it.size, owners[it.number])
                       for it in seen[0].structures)
    stocks = {market.item: market.stock for market in seen[0].markets}
    return Scene(seen[0].peasants, seen[0].money, tuple(units[it] for it in sorted(units)), structures, stocks)
