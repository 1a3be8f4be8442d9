"""Makes a folder `months` as closing leaves it, of factions that a test describes, in the world of the coast."""

import shutil
from collections.abc import Mapping, Sequence
from dataclasses import dataclass, field
from pathlib import Path

ROOT = Path(__file__).resolve().parents[2]
COAST = ROOT / "worlds/coast.toml"
# Regions of the coast as a report begins them, with their exits.
PORT = 'Region 6 "Port", plain: {peasants} peasants, 200 money.\nExits: north 2, south 10, east 7, west 5.\n'
DOWN = 'Region 9 "Down", plain: {peasants} peasants, 150 money.\nExits: north 5, south 16, east 10.\n'
REGIONS = {6: PORT, 9: DOWN}
MARKETS = {6: 'Market wood: {stock} in stock at 20, {wanted} wanted at 8.\n', 9: ""}
ITEMS = ("wood", "iron", "cart", "tool", "wine", "wool")


@dataclass(frozen=True)
class Faction:
    """A faction of a test. `people` and `money` are for its one unit, month after month; 0 people: it is gone."""

    name: str
    region: int
    people: Sequence[int]
    money: Sequence[int]
    mail: Mapping[int, bytes] = field(default_factory=dict)
    shown: Mapping[int, str] = field(default_factory=dict)
    joins: int = 1


def make_months(months: Path, factions: Sequence[Faction], world: Path = COAST) -> None:
    """Writes the folders of as many months as the first faction has numbers for."""
    for month in range(1, len(factions[0].people) + 1):
        folder = months / str(month)
        folder.mkdir(parents=True)
        shutil.copy(world, folder / "world.toml")
        (folder / "seed").write_text("7\n")
        (folder / "books.txt").write_text(books(month, factions))
        lines = [listed(month, number, faction) for number, faction in numbered(factions, month)]
        (folder / "factions.txt").write_text("".join(lines))
        for number, faction in numbered(factions, month):
            last = next((it for it in range(faction.joins, month) if not faction.people[it - 1]), month)
            (folder / f"report-{number}.txt").write_text(report(last, number, faction))
            if month in faction.mail:
                (folder / f"mail-{number}.txt").write_bytes(faction.mail[month])


def numbered(factions: Sequence[Faction], month: int) -> list[tuple[int, Faction]]:
    return [(number, it) for number, it in enumerate(factions, 1) if it.joins <= month]


def listed(month: int, number: int, faction: Faction) -> str:
    is_gone = any(not people for people in faction.people[faction.joins - 1:month - 1])
    state = "gone" if is_gone else "mail" if month in faction.mail else "silent"
    return f"{number} {state} {faction.name}\n"


def report(month: int, number: int, faction: Faction) -> str:
    name = faction.shown.get(max((it for it in faction.shown if it <= month), default=0), faction.name)
    head = f'Atlantis report, month {month}, faction {number} "{name}".\nOrders:\nNone.\n'
    people = faction.people[month - 1]
    if not people:
        return head
    region = REGIONS[faction.region].format(peasants=300 + month)
    market = MARKETS[faction.region].format(stock=month, wanted=60 - month)
    unit = f'* Unit {number} "Unit {number}": {people} men, {faction.money[month - 1]} money.\n'
    return head + region + market + unit


def books(month: int, factions: Sequence[Faction]) -> str:
    held = sum(faction.money[month - 1] for _, faction in numbered(factions, month))
    lines = ["money founding 2325", f"money income {held - 2325 + month}", f"money upkeep -{month}"]
    lines += [f"money total {held}"]
    people = sum(faction.people[month - 1] for _, faction in numbered(factions, month))
    lines += ["people founding 4550", f"people starved -{month}", f"people total {4550 + people - month}"]
    for item in ITEMS:
        made = 10 * month if item == "wood" else 0
        lines += [f'item "{item}" made {made}'] * bool(made) + [f'item "{item}" total {made}']
    return "\n".join(lines) + "\n"
