"""The world, the campaign and the orders of a month, as tests/model/plain.py reckons with them."""
import re, tomllib
from dataclasses import dataclass, field

HOLDING_LIMIT, MEN_LIMIT = 999_999_999, 999_999
MONTH_LONG = ("STUDY", "TEACH", "WORK", "PRODUCE", "BUILD", "MOVE", "SAIL")
KNOWN = "NAME GUARD ENTER BOARD LEAVE TAX WORK PROMOTE GIVE PAY TRANSFER SELL BUY RECRUIT QUIT STUDY PRODUCE TEACH BUILD MOVE SAIL".split()
FAULTS = (
    "NotYours NotHere NotEnough NoRoom Guarded NotOwner NotInside UnitLimit AtSea NoMen WrongNumber NotGuarding NoSkill NoMaterial Complete "
    "StructureLimit NoWay TooHeavy NotComplete NoCrew NotLearning CannotTeach NoFee NoMarket"
).split()
# verbs of which a unit carries out one order, the last
ONCE = ("TAX", "RECRUIT", "SELL", "BUY")
# a level n takes LEVEL_DAYS * n * (n + 1) days of each man
LEVEL_DAYS, HIGHEST_LEVEL = 15, 5


class Fault(Exception):
    """Why an order isn't carried out."""


def must(holds, fault):
    if not holds:
        raise Fault(fault)


# ---- the world


class World:
    def __init__(self, path):
        with open(path, "rb") as file:
            text = tomllib.load(file)
        self.rules = text["rules"]
        named = lambda key: {it["name"]: it for it in text.get(key, [])}
        self.terrains, self.items, self.skills, self.kinds = named("terrain"), named("item"), named("skill"), named("kind")
        self.regions = {it["number"]: it for it in text["region"]}
        # of each region its markets by their items
        self.markets = {n: {it["item"]: it for it in region.get("market", [])} for n, region in self.regions.items()}

    def terrain(self, region):
        return self.terrains[self.regions[region]["terrain"]]

    def is_land(self, region):
        return region in self.regions and self.terrain(region)["land"]

    def beside(self, region, direction):
        return self.regions[region].get(direction.lower())


# ---- the campaign


def stock(item):
    """Under what name a region has its stock of an item."""
    return f"stock {item}"


@dataclass
class Unit:
    faction: int
    region: int
    inside: int
    men: int = 0
    money: int = 0
    guard: int = 0
    name: str = "A unit"
    items: dict = field(default_factory=dict)
    days: dict = field(default_factory=dict)

    def has(self, item):
        return self.items.get(item, 0)

    def level(self, skill):
        days = self.days.get(skill, 0)
        return max((n for n in range(HIGHEST_LEVEL + 1) if self.men and LEVEL_DAYS * n * (n + 1) * self.men <= days), default=0)


@dataclass
class Structure:
    kind: str
    region: int
    done: int
    owner: int
    name: str = "A place"


class Campaign:
    def __init__(self, world):
        self.world = world
        self.units, self.structures, self.books = {}, {}, {}
        stocks = {stock(item): 0 for item in world.items}
        self.regions = {n: {"peasants": it["peasants"], "money": it["money"], **stocks} for n, it in world.regions.items()}
        self.factions = {1: {"name": "Avalon", "gone": 0}, 2: {"name": "Bree", "gone": 0}}
        self.next_unit = 1

    def begin(self):
        self.next_unit = max(self.next_unit, len(self.units) + 1)
        self.mark_gone()

    def next(self, what):
        """The number of the unit or the structure that comes next."""
        return self.next_unit if what == "unit" else len(self.structures) + 1

    def mark_gone(self):
        for number, faction in self.factions.items():
            faction["gone"] = int(not any(u.faction == number for u in self.units.values()))

    def book(self, thing, entry, amount):
        self.books[thing, entry] = self.books.get((thing, entry), 0) + amount

    def is_ship(self, structure):
        return self.world.kinds[structure.kind]["ship"]

    def is_complete(self, structure):
        return structure.done == self.world.kinds[structure.kind]["size"]

    def weight(self, unit):
        return sum(amount * self.world.items[item]["weight"] for item, amount in unit.items.items())

    def carried(self, unit):
        return unit.men * self.world.rules["man_carry"] + sum(amount * self.world.items[item]["carry"] for item, amount in unit.items.items())

    def aboard(self, number):
        return [n for n, u in sorted(self.units.items()) if u.inside == number]

    def place(self, number, region, inside):
        """A unit goes elsewhere: who owned what it leaves hands it on, and an empty structure is owned by who enters it."""
        unit = self.units[number]
        left, unit.region, unit.inside = unit.inside, region, inside
        if left and left != inside and self.structures[left].owner == number:
            self.structures[left].owner = min(self.aboard(left), default=0)
        if inside and self.structures[inside].owner == 0:
            self.structures[inside].owner = number

    def remove(self, number):
        self.place(number, self.units[number].region, 0)
        del self.units[number]


# ---- orders


@dataclass
class Order:
    faction: int
    line: int
    unit: object
    verb: str
    words: list


def words_of(line):
    """The words of a line, each with whether it was quoted."""
    return [(quoted, True) if mark else (bare, False) for mark, quoted, bare in re.findall(r'(")([^"]*)"?|([^\s;"]+)', line.split(";")[0] if '"' not in line else line)]


def reading(text):
    """The orders of a mailing without faulty lines; orders that no rule knows are passed over."""
    orders, faction, unit, parent = [], None, None, None
    for number, line in enumerate(text.split("\n"), 1):
        words = words_of(line)
        verb = words[0][0].upper() if words else ""
        if faction is None:
            faction = int(words[1][0]) if verb == "#ATLANTIS" else None
        elif verb == "UNIT":
            unit, parent = int(words[1][0]), None
        elif verb == "END":
            unit, parent = parent, None
        elif verb == "FORM":
            orders.append(Order(faction, number, unit, "FORM", [words[1][0]]))
            unit, parent = ("NEW", int(words[1][0])), unit
        elif verb in KNOWN:
            texts = [text if quoted else text.replace("_", " ") for text, quoted in words[1:]]
            orders.append(Order(faction, number, unit, "ENTER" if verb == "BOARD" else verb, texts))
    return orders


class Month:
    """The orders of all mailings, the units that FORM made, and what came of the orders."""

    def __init__(self, texts, words):
        self.orders = [order for text in texts for order in reading(text)]
        self.aliases, self.words, self.events = {}, words, []

    def unit(self, faction, named):
        return self.aliases.get((faction, named[1]), 0) if isinstance(named, tuple) else named

    def named(self, faction, words):
        """The unit that the first of some words name, and the words behind it."""
        if words[0].upper() == "NEW":
            return self.unit(faction, ("NEW", int(words[1]))), words[2:]
        return int(words[0]), words[1:]

    def listed(self, order):
        """All units that the words of an order name."""
        units, words = [], order.words
        while words:
            unit, words = self.named(order.faction, words)
            units.append(unit)
        return units

    def of(self, *verbs):
        """The orders of some verbs that stand, by unit, line and faction."""
        def slot(order):
            return "long" if order.verb in MONTH_LONG else order.verb if order.verb in ONCE else None

        def key(order):
            return self.unit(order.faction, order.unit), order.line, order.faction

        def stands(order):
            rivals = [o for o in self.orders if slot(order) and slot(o) == slot(order) and o.faction == order.faction and key(o)[0] == key(order)[0]]
            return all(o.line <= order.line for o in rivals)

        return sorted(((key(o)[0], o) for o in self.orders if o.verb in verbs and stands(o)), key=lambda it: key(it[1]))

    def done(self, number, order, value):
        self.tell(number, order, f"done {value}")

    def failed(self, number, order, fault):
        self.tell(number, order, f"fault {FAULTS.index(str(fault)) + 1}")

    def tell(self, number, order, outcome):
        self.events.append(f"unit {number}, line {order.line}, faction {order.faction}, {order.verb}: {outcome}")


def own(c, number, order):
    """The order's unit, which is its faction's."""
    must(number in c.units and c.units[number].faction == order.faction, "NotYours")
    return c.units[number]
