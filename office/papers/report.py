"""Reads the text of a report (docs/FORMATS.md, "Reports"). The names of terrains, items, skills and kinds have no
quotes and may hold `,`, `:` and `(`, so they are found by the names of the world."""

import re
from collections.abc import Callable, Iterator, Mapping, Sequence
from dataclasses import dataclass, field
from enum import Enum

from office.errors import OfficeError
from office.papers.world import WAYS, World

# No number of a report has more digits. Python refuses to read one of thousands.
NUMBER = r"(\d{1,15})"
NAME = r'"([^"]*)"'
HEAD = re.compile(rf"Atlantis report, month {NUMBER}, faction {NUMBER} {NAME}\.")
FAULTY = re.compile(rf"Line {NUMBER}: {NUMBER} (\w+)\.")
DONE = re.compile(rf"Unit {NUMBER}, line {NUMBER}, ([A-Z]+): done {NUMBER}\.")
FAILED = re.compile(rf"Unit {NUMBER}, line {NUMBER}, ([A-Z]+): fault {NUMBER} (\w+)\.")
STARVED = re.compile(rf"Unit {NUMBER}: {NUMBER} starved\.")
REGION = re.compile(rf"Region {NUMBER} {NAME}, (.+): {NUMBER} peasants, {NUMBER} money\.")
EXITS = re.compile(r"Exits: (none|(?:(?:north|south|east|west) \d{1,15}(?:, )?)+)\.")
EXIT = re.compile(rf"(north|south|east|west) {NUMBER}")
MARKET = re.compile(rf"Market (.+): {NUMBER} in stock at {NUMBER}, {NUMBER} wanted at {NUMBER}\.")
STRUCTURE = re.compile(rf"Structure {NUMBER} {NAME}, (.+), {NUMBER} of {NUMBER}, owner {NUMBER}\.")
OWN = re.compile(rf"\* Unit {NUMBER} {NAME}: {NUMBER} men, {NUMBER} money(|, .+)\.")
OTHER = re.compile(rf"- Unit {NUMBER} {NAME} of faction {NUMBER} {NAME}: {NUMBER} men(|, .+)\.")
# How the rest of a unit's line may begin: each is tried, since a skill may be called `in 3` or `guard`.
PLACED = tuple(re.compile(form) for form in (rf"(, guard)?, in {NUMBER}(?=,|$)", r"(, guard)(?=,|$)()", "()()"))
AMOUNT = re.compile(rf", {NUMBER} ")
DAYS = re.compile(rf" (\d) \({NUMBER}\)(?=,|$)")
MOST_LETTERS_OF_A_NAME = 40


class Outcome(Enum):
    """What an event says: the order was carried out, it failed, or people starved."""

    DONE = "done"
    FAULT = "fault"
    STARVED = "starved"


@dataclass(frozen=True)
class FaultyLine:
    """A line of the mailing that gave no order, with the number and the name of its fault."""

    line: int
    number: int
    name: str


@dataclass(frozen=True)
class Event:
    """What came of an order, of work without one (line 0), or of upkeep (STARVED, with no line and no verb).
    `number` is what was done, the number of the fault `name`, or how many starved."""

    unit: int
    line: int
    verb: str
    outcome: Outcome
    number: int
    name: str = ""


@dataclass(frozen=True)
class SeenMarket:
    """`stock` pieces are sold at `price`, and `wanted` more are bought at what the market `pays`."""

    item: str
    stock: int
    price: int
    wanted: int
    pays: int


@dataclass(frozen=True)
class SeenStructure:
    """`done` of `size` parts are built. `owner` is a unit, or 0 if there is none or it isn't seen."""

    number: int
    name: str
    kind: str
    done: int
    size: int
    owner: int


@dataclass(frozen=True)
class KnownSkill:
    """`days` are those of all men of the unit together."""

    name: str
    level: int
    days: int


@dataclass(frozen=True)
class SeenUnit:
    """`money` is None, and items and skills are empty, for a unit of another faction. `inside` is a structure, or 0."""

    number: int
    name: str
    faction: int
    faction_name: str
    men: int
    money: int | None
    guard: bool
    inside: int
    items: tuple[tuple[str, int], ...]
    skills: tuple[KnownSkill, ...]

    @property
    def own(self) -> bool:
        """Whether the unit is one of the faction that got the report."""
        return self.money is not None


@dataclass(frozen=True)
class SeenRegion:
    """A region where the faction has people, with all that it sees there, each in the order of the report."""

    number: int
    name: str
    terrain: str
    peasants: int
    money: int
    exits: Mapping[str, int]
    markets: tuple[SeenMarket, ...]
    structures: tuple[SeenStructure, ...]
    units: tuple[SeenUnit, ...]


@dataclass(frozen=True)
class Report:
    """`month` is the one that was last closed when the report was made; `name` is what the faction showed then."""

    month: int
    faction: int
    name: str
    faulty_lines: tuple[FaultyLine, ...]
    events: tuple[Event, ...]
    regions: tuple[SeenRegion, ...]

    def own_units(self) -> Iterator[SeenUnit]:
        """The faction's own units, by region and number."""
        return (unit for region in self.regions for unit in region.units if unit.own)

    @property
    def men(self) -> int:
        """The people of all own units."""
        return sum(unit.men for unit in self.own_units())

    @property
    def money(self) -> int:
        """The money of all own units."""
        return sum(unit.money or 0 for unit in self.own_units())


def parse_report(text: str, world: World, source: str = "report") -> Report:
    """The report of a text. OfficeError, which begins with `source`, names the first line that has no known form."""
    lines = text.split("\n")
    head = HEAD.fullmatch(lines[0])
    if not head:
        raise OfficeError(f"{source}: line 1 isn't the first line of a report")
    reader = _Reader(world, int(head[2]), head[3])
    for number, line in enumerate(lines[1:], 2):
        if line and not reader.read(line):
            raise OfficeError(f"{source}: line {number} is no line of a report of this world")
    regions = tuple(draft.region() for draft in reader.regions)
    return Report(int(head[1]), int(head[2]), head[3], tuple(reader.faulty_lines), tuple(reader.events), regions)


@dataclass
class _Draft:
    """A region whose lines are still being read."""

    number: int
    name: str
    terrain: str
    peasants: int
    money: int
    exits: dict[str, int] = field(default_factory=dict)
    markets: list[SeenMarket] = field(default_factory=list)
    structures: list[SeenStructure] = field(default_factory=list)
    units: list[SeenUnit] = field(default_factory=list)

    def region(self) -> SeenRegion:
        parts = (tuple(self.markets), tuple(self.structures), tuple(self.units))
        return SeenRegion(self.number, self.name, self.terrain, self.peasants, self.money, self.exits, *parts)


class _Reader:
    """Reads line after line. Each method that reads a line returns whether the line has its form."""

    def __init__(self, world: World, faction: int, name: str) -> None:
        self.faction, self.name = faction, name
        self.terrains = {terrain.name for terrain in world.terrains}
        self.kinds = {kind.name for kind in world.kinds}
        self.items = {item.name for item in world.items}
        self.holdings = _Holdings([item.name for item in world.items], [skill.name for skill in world.skills])
        self.parts: dict[str, Callable[[_Draft, str], bool]] = {
            "Exits:": self.exits, "Market": self.market, "Structure": self.structure, "*": self.own_unit,
            "-": self.other_unit,
        }
        self.faulty_lines: list[FaultyLine] = []
        self.events: list[Event] = []
        self.regions: list[_Draft] = []

    def read(self, line: str) -> bool:
        first = line.partition(" ")[0]
        if first == "Region":
            return self.region(line)
        if not self.regions:
            return line in ("Orders:", "None.") or self.order(line)
        read = self.parts.get(first)
        return read is not None and read(self.regions[-1], line)

    def order(self, line: str) -> bool:
        if found := FAULTY.fullmatch(line):
            self.faulty_lines.append(FaultyLine(int(found[1]), int(found[2]), found[3]))
        elif found := DONE.fullmatch(line):
            self.events.append(Event(int(found[1]), int(found[2]), found[3], Outcome.DONE, int(found[4])))
        elif found := FAILED.fullmatch(line):
            event = Event(int(found[1]), int(found[2]), found[3], Outcome.FAULT, int(found[4]), found[5])
            self.events.append(event)
        elif found := STARVED.fullmatch(line):
            self.events.append(Event(int(found[1]), 0, "", Outcome.STARVED, int(found[2])))
        return found is not None

    def region(self, line: str) -> bool:
        found = REGION.fullmatch(line)
        if not found or found[3] not in self.terrains:
            return False
        self.regions.append(_Draft(int(found[1]), found[2], found[3], int(found[4]), int(found[5])))
        return True

    def exits(self, region: _Draft, line: str) -> bool:
        found = EXITS.fullmatch(line)
        if not found:
            return False
        exits = {way: int(number) for way, number in EXIT.findall(found[1])}
        region.exits.update((way, exits[way]) for way in WAYS if way in exits)
        return True

    def market(self, region: _Draft, line: str) -> bool:
        found = MARKET.fullmatch(line)
        if not found or found[1] not in self.items:
            return False
        region.markets.append(SeenMarket(found[1], int(found[2]), int(found[3]), int(found[4]), int(found[5])))
        return True

    def structure(self, region: _Draft, line: str) -> bool:
        found = STRUCTURE.fullmatch(line)
        if not found or found[3] not in self.kinds:
            return False
        numbers = (int(found[4]), int(found[5]), int(found[6]))
        region.structures.append(SeenStructure(int(found[1]), found[2], found[3], *numbers))
        return True

    def own_unit(self, region: _Draft, line: str) -> bool:
        found = OWN.fullmatch(line)
        rest = self.holdings.read(found[5]) if found else None
        if not found or not rest:
            return False
        head = (int(found[1]), found[2], self.faction, self.name, int(found[3]), int(found[4]))
        region.units.append(SeenUnit(*head, rest.guard, rest.inside, rest.items, rest.skills))
        return True

    def other_unit(self, region: _Draft, line: str) -> bool:
        found = OTHER.fullmatch(line)
        rest = self.holdings.read(found[6]) if found else None
        if not found or not rest:
            return False
        head = (int(found[1]), found[2], int(found[3]), found[4], int(found[5]), None)
        region.units.append(SeenUnit(*head, rest.guard, rest.inside, rest.items, rest.skills))
        return True


# ---- the rest of a unit's line


@dataclass(frozen=True)
class _Rest:
    guard: bool
    inside: int
    items: tuple[tuple[str, int], ...]
    skills: tuple[KnownSkill, ...]


NOTHING = _Rest(False, 0, (), ())
Part = tuple[str, int] | KnownSkill


class _Holdings:
    """Splits the rest of a unit's line. Items come before skills, both in the order of the world, and a name may hold
    what looks like the next part. So a part that leads nowhere is given up, and another one is tried."""

    def __init__(self, items: Sequence[str], skills: Sequence[str]) -> None:
        self.places = {name: place for place, name in enumerate(items)}
        self.skill_places = {name: len(items) + place for place, name in enumerate(skills)}

    def read(self, text: str) -> _Rest | None:
        if not text:
            return NOTHING
        for placed in filter(None, (form.match(text) for form in PLACED)):
            parts = self.split(text, placed.end(), 0, set())
            if parts is not None:
                items = tuple(part for part in parts if not isinstance(part, KnownSkill))
                skills = tuple(part for part in parts if isinstance(part, KnownSkill))
                return _Rest(bool(placed[1]), int(placed[2] or 0), items, skills)
        return None

    def split(self, text: str, at: int, least: int, failed: set[tuple[int, int]]) -> list[Part] | None:
        """The parts from `at` on, of which the first one has at least the place `least`. None if there is no way."""
        if at == len(text):
            return []
        if (at, least) in failed:
            return None
        for end, place, part in (*self.items_at(text, at), *self.skills_at(text, at)):
            rest = self.split(text, end, place + 1, failed) if place >= least else None
            if rest is not None:
                return [part, *rest]
        failed.add((at, least))
        return None

    def items_at(self, text: str, at: int) -> Iterator[tuple[int, int, Part]]:
        """Where an item that begins at `at` may end, its place in the world, and the item."""
        found = AMOUNT.match(text, at)
        if not found:
            return
        for end in _ends(text, found.end()):
            name = text[found.end():end]
            if name in self.places:
                yield end, self.places[name], (name, int(found[1]))

    def skills_at(self, text: str, at: int) -> Iterator[tuple[int, int, Part]]:
        """The same for a skill."""
        begin = at + len(", ")
        for found in DAYS.finditer(text, begin):
            name = text[begin:found.start()]
            if len(name) > MOST_LETTERS_OF_A_NAME:
                return
            if name in self.skill_places:
                yield found.end(), self.skill_places[name], KnownSkill(name, int(found[1]), int(found[2]))


def _ends(text: str, begin: int) -> Iterator[int]:
    """Where a name that begins at `begin` may end: before each `, `, and at the end of the text."""
    most = begin + MOST_LETTERS_OF_A_NAME
    end = text.find(", ", begin, most + len(", "))
    while end >= 0:
        yield end
        end = text.find(", ", end + 1, most + len(", "))
    if len(text) <= most:
        yield len(text)
