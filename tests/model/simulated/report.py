"""A report, read as a player reads it (docs/FORMATS.md, "Reports")."""
import re
from dataclasses import dataclass, field

HEAD = re.compile(r'Atlantis report, month (\d+), faction (\d+) "(.*)"\.')
EVENT = re.compile(r"Unit (\d+), line (\d+), (\w+): (done|fault) (\d+)")
STARVED = re.compile(r"Unit (\d+): (\d+) starved\.")
REGION = re.compile(r'Region (\d+) "(.*)", (.*): (\d+) peasants, (\d+) money\.')
MARKET = re.compile(r"Market (.*): (\d+) in stock at (\d+), (\d+) wanted at (\d+)\.")
STRUCTURE = re.compile(r'Structure (\d+) "(.*)", (.*), (\d+) of (\d+), owner (\d+)\.')
UNIT = re.compile(r'([*-]) Unit (\d+) "(.*?)"(?: of faction (\d+) ".*?")?: (\d+) men(.*)\.')


@dataclass
class Unit:
    number: int
    name: str
    men: int
    region: int
    money: int = 0
    guard: bool = False
    inside: int = 0
    items: dict = field(default_factory=dict)
    levels: dict = field(default_factory=dict)

    def has(self, item):
        return self.items.get(item, 0)

    def level(self, skill):
        return self.levels.get(skill, 0)


@dataclass
class Market:
    stock: int
    price: int
    wanted: int
    pays: int


@dataclass
class Structure:
    number: int
    kind: str
    done: int
    size: int
    owner: int


@dataclass
class Region:
    number: int
    name: str
    terrain: str
    peasants: int
    money: int
    exits: dict = field(default_factory=dict)
    markets: dict = field(default_factory=dict)
    structures: list = field(default_factory=list)
    units: list = field(default_factory=list)
    # whether a unit of another faction guards here
    guarded: bool = False


@dataclass
class Event:
    unit: int
    line: int
    verb: str
    fault: bool
    number: int


class Report:
    def __init__(self, text):
        lines = text.split("\n")
        month, faction, _ = HEAD.fullmatch(lines[0]).groups()
        self.month, self.faction = int(month), int(faction)
        self.events, self.starved, self.regions = [], 0, {}
        region = None
        for line in lines[1:]:
            if found := EVENT.match(line):
                unit, number, verb, came, value = found.groups()
                self.events.append(Event(int(unit), int(number), verb, came == "fault", int(value)))
            elif found := STARVED.fullmatch(line):
                self.starved += int(found[2])
            elif found := REGION.fullmatch(line):
                number, name, terrain, peasants, money = found.groups()
                region = self.regions[int(number)] = Region(int(number), name, terrain, int(peasants), int(money))
            elif line.startswith("Exits: "):
                region.exits = {way: int(number) for way, number in re.findall(r"(\w+) (\d+)", line)}
            elif found := MARKET.fullmatch(line):
                region.markets[found[1]] = Market(*map(int, found.groups()[1:]))
            elif found := STRUCTURE.fullmatch(line):
                number, _, kind, done, size, owner = found.groups()
                region.structures.append(Structure(int(number), kind, int(done), int(size), int(owner)))
            elif found := UNIT.fullmatch(line):
                self.add(region, found)

    @staticmethod
    def add(region, found):
        mark, number, name, _, men, rest = found.groups()
        words = rest.split(", ")
        unit = Unit(int(number), name, int(men), region.number, guard="guard" in words)
        if mark == "-":
            region.guarded |= unit.guard
            return
        for word in words:
            if inside := re.fullmatch(r"in (\d+)", word):
                unit.inside = int(inside[1])
            elif skill := re.fullmatch(r"(.*) (\d) \(\d+\)", word):
                unit.levels[skill[1]] = int(skill[2])
            elif item := re.fullmatch(r"(\d+) (.*)", word):
                unit.items[item[2]] = int(item[1])
        unit.money = unit.items.pop("money")
        region.units.append(unit)

    @property
    def units(self):
        return [unit for region in self.regions.values() for unit in region.units]

    def named(self, name):
        """The first unit of this name, or none."""
        return next((unit for unit in self.units if unit.name == name), None)

    @property
    def men(self):
        return sum(unit.men for unit in self.units)

    @property
    def money(self):
        return sum(unit.money for unit in self.units)
