"""Reads a world file (docs/FORMATS.md, "The world file") into records. Missing keys have their defaults, and a text
that refers to a name has the name's own spelling."""

import tomllib
from collections.abc import Iterable, Mapping
from dataclasses import dataclass
from pathlib import Path

from office.errors import OfficeError

OPPOSITE = {"north": "south", "south": "north", "east": "west", "west": "east"}
# The order in which a report lists exits.
WAYS = tuple(OPPOSITE)
NO_NAME = "world"


@dataclass(frozen=True)
class Rules:
    """The table `[rules]`. A skill is None where the file names none: then everybody's level in it is 0."""

    maintenance: int
    tax_per_man: int
    recruit_price: int
    recruit_fraction: int
    growth: int
    income: int
    start_money: int
    man_weight: int
    man_carry: int
    observation: str | None
    stealth: str | None
    sailing: str | None


@dataclass(frozen=True)
class Terrain:
    """`output` has the items of which PRODUCE finds some, in the order of the world, each with its amount a month."""

    name: str
    land: bool
    wage: int
    places: int
    money_limit: int
    peasant_limit: int
    output: Mapping[str, int]


@dataclass(frozen=True)
class Item:
    """`skill` is None for an item that nobody makes, and `raw` for one that is made of no other item."""

    name: str
    weight: int
    carry: int
    skill: str | None
    level: int
    raw: str | None
    raw_count: int


@dataclass(frozen=True)
class Skill:
    """`fee` is what a month of STUDY costs for a person."""

    name: str
    fee: int


@dataclass(frozen=True)
class Kind:
    """A kind of ship or building, which takes `size` pieces of the material. `helps` is a skill or None."""

    name: str
    ship: bool
    material: str
    size: int
    skill: str
    level: int
    capacity: int
    crew: int
    helps: str | None


@dataclass(frozen=True)
class Market:
    """A market asks `price` and `pays` for one piece of the item, and gets `restock` pieces a month, up to `limit`."""

    item: str
    price: int
    pays: int
    limit: int
    restock: int


@dataclass(frozen=True)
class Region:
    """A region as the campaign begins. Its exits lead to the numbers of regions, and are in the order of WAYS."""

    number: int
    name: str
    terrain: str
    peasants: int
    money: int
    exits: Mapping[str, int]
    markets: tuple[Market, ...]


@dataclass(frozen=True)
class World:
    """All that a world file has, each in the order of the file. `name` is the file's name without its ending, and empty
    for `world.toml`, as a club's own copy is called."""

    name: str
    rules: Rules
    terrains: tuple[Terrain, ...]
    items: tuple[Item, ...]
    skills: tuple[Skill, ...]
    kinds: tuple[Kind, ...]
    regions: tuple[Region, ...]

    def terrain(self, name: str) -> Terrain:
        """The terrain of this name, in the spelling of the world."""
        return next(terrain for terrain in self.terrains if terrain.name == name)


def read_world(path: Path) -> World:
    """The world of a file. OfficeError if it can't be read, is no TOML, or has a fault."""
    try:
        text = path.read_bytes().decode("utf-8-sig")
    except OSError as error:
        raise OfficeError(f"{path}: the world file can't be read: {error.strerror}") from error
    except UnicodeDecodeError as error:
        raise OfficeError(f"{path}: the world file is no UTF-8") from error
    return parse_world(text, "" if path.stem == NO_NAME else path.stem, str(path))


def parse_world(text: str, name: str, source: str = "world") -> World:
    """The world of a text. `source` begins the text of an OfficeError."""
    try:
        values = tomllib.loads(text)
    except (tomllib.TOMLDecodeError, RecursionError) as error:
        raise OfficeError(f"{source}: the world file is no TOML that Python reads: {error}") from error
    return _read(_Table(values, "", source), name)


# ---- tables of the file


class _Table:
    """A table of the file with its path, such as `terrain[0]`, for the text of a fault."""

    def __init__(self, values: Mapping[str, object], path: str, source: str) -> None:
        self.values, self.path, self.source = values, path, source

    def at(self, key: str) -> str:
        return f"{self.path}.{key}" if self.path else key

    def fault(self, key: str, words: str) -> OfficeError:
        return OfficeError(f"{self.source}: {self.at(key)} {words}")

    def number(self, key: str, default: int | None = None) -> int:
        value = self.values.get(key, default)
        if value is None:
            raise self.fault(key, "is missing")
        if not isinstance(value, int) or isinstance(value, bool):
            raise self.fault(key, "is no whole number")
        if value < 0:
            raise self.fault(key, "is less than 0")
        return value

    def flag(self, key: str) -> bool:
        value = self.values.get(key)
        if not isinstance(value, bool):
            raise self.fault(key, "is missing" if value is None else "is neither true nor false")
        return value

    def optional(self, key: str) -> str | None:
        value = self.values.get(key)
        if value is not None and not isinstance(value, str):
            raise self.fault(key, "is no text")
        return value

    def text(self, key: str) -> str:
        value = self.optional(key)
        if value is None:
            raise self.fault(key, "is missing")
        return value

    def table(self, key: str) -> "_Table":
        value = self.values.get(key, {})
        if not isinstance(value, dict):
            raise self.fault(key, "is no table")
        return _Table(value, self.at(key), self.source)

    def tables(self, key: str) -> list["_Table"]:
        values = self.values.get(key, [])
        if not isinstance(values, list):
            raise self.fault(key, "is no array of tables")
        for place, value in enumerate(values):
            if not isinstance(value, dict):
                raise self.fault(f"{key}[{place}]", "is no table")
        return [_Table(value, self.at(f"{key}[{place}]"), self.source) for place, value in enumerate(values)]


class _Names:
    """The names of all terrains, items or skills, to be found by any capitals."""

    def __init__(self, what: str, tables: Iterable[_Table]) -> None:
        self.what = what
        self.spelled: dict[str, str] = {}
        for table in tables:
            name = table.text("name")
            if name.lower() in self.spelled:
                raise table.fault("name", f"is the name of another {what} too")
            self.spelled[name.lower()] = name

    def find(self, table: _Table, key: str, name: str) -> str:
        if name.lower() not in self.spelled:
            raise table.fault(key, f"names no {self.what} of this world")
        return self.spelled[name.lower()]

    def needed(self, table: _Table, key: str) -> str:
        return self.find(table, key, table.text(key))

    def optional(self, table: _Table, key: str) -> str | None:
        name = table.optional(key)
        return None if name is None else self.find(table, key, name)


# ---- the parts of a world


def _read(root: _Table, name: str) -> World:
    terrains = _Names("terrain", root.tables("terrain"))
    items = _Names("item", root.tables("item"))
    skills = _Names("skill", root.tables("skill"))
    _Names("kind", root.tables("kind"))
    regions = tuple(_region(table, terrains, items) for table in root.tables("region"))
    _check_ways(regions, root.tables("region"))
    if not regions:
        raise root.fault("region", "is missing")
    return World(
        name,
        _rules(root.table("rules"), skills),
        tuple(_terrain(table, items) for table in root.tables("terrain")),
        tuple(_item(table, items, skills) for table in root.tables("item")),
        tuple(Skill(table.text("name"), table.number("fee")) for table in root.tables("skill")),
        tuple(_kind(table, items, skills) for table in root.tables("kind")),
        regions,
    )


def _rules(table: _Table, skills: _Names) -> Rules:
    return Rules(
        maintenance=table.number("maintenance"),
        tax_per_man=table.number("tax_per_man"),
        recruit_price=table.number("recruit_price"),
        recruit_fraction=table.number("recruit_fraction"),
        growth=table.number("growth"),
        income=table.number("income"),
        start_money=table.number("start_money"),
        man_weight=table.number("man_weight"),
        man_carry=table.number("man_carry"),
        observation=skills.optional(table, "observation"),
        stealth=skills.optional(table, "stealth"),
        sailing=skills.optional(table, "sailing"),
    )


def _terrain(table: _Table, items: _Names) -> Terrain:
    given = table.table("output")
    amounts = {items.find(given, key, key): given.number(key) for key in given.values}
    return Terrain(
        name=table.text("name"),
        land=table.flag("land"),
        wage=table.number("wage"),
        places=table.number("places"),
        money_limit=table.number("money_limit"),
        peasant_limit=table.number("peasant_limit"),
        output={name: amounts[name] for name in items.spelled.values() if name in amounts},
    )


def _item(table: _Table, items: _Names, skills: _Names) -> Item:
    return Item(
        name=table.text("name"),
        weight=table.number("weight"),
        carry=table.number("carry"),
        skill=skills.optional(table, "skill"),
        level=table.number("level", 1),
        raw=items.optional(table, "raw"),
        raw_count=table.number("raw_count", 1),
    )


def _kind(table: _Table, items: _Names, skills: _Names) -> Kind:
    return Kind(
        name=table.text("name"),
        ship=table.flag("ship"),
        material=items.needed(table, "material"),
        size=table.number("size"),
        skill=skills.needed(table, "skill"),
        level=table.number("level"),
        capacity=table.number("capacity", 0),
        crew=table.number("crew", 0),
        helps=skills.optional(table, "helps"),
    )


def _region(table: _Table, terrains: _Names, items: _Names) -> Region:
    return Region(
        number=table.number("number"),
        name=table.text("name"),
        terrain=terrains.needed(table, "terrain"),
        peasants=table.number("peasants"),
        money=table.number("money"),
        exits={way: table.number(way) for way in WAYS if way in table.values},
        markets=tuple(_market(market, items) for market in table.tables("market")),
    )


def _market(table: _Table, items: _Names) -> Market:
    return Market(
        item=items.needed(table, "item"),
        price=table.number("price"),
        pays=table.number("pays"),
        limit=table.number("limit"),
        restock=table.number("restock"),
    )


def _check_ways(regions: tuple[Region, ...], tables: list[_Table]) -> None:
    """OfficeError unless each number is there once, and each way leads back."""
    exits: dict[int, Mapping[str, int]] = {}
    for region, table in zip(regions, tables):
        if region.number in exits:
            raise table.fault("number", "is the number of another region too")
        exits[region.number] = region.exits
    for region, table in zip(regions, tables):
        for way, to in region.exits.items():
            if exits.get(to, {}).get(OPPOSITE[way]) != region.number:
                raise table.fault(way, f"is {to}, and no region {to} has {OPPOSITE[way]} = {region.number}")
