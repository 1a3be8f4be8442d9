#!/usr/bin/env python3
"""Prints the cases of crates/atl_phase_tests/data/crowd.txt: 300 units of two factions in 12 regions with markets and orders of all sorts, and what
comes of them by tests/model/plain.py."""
import random, sys
from pathlib import Path

sys.dont_write_bytecode = True

from plain import Case, World, played

WORLD = Path(__file__).resolve().parents[2] / "crates/atl_phase_tests/data/crowd.toml"
UNITS = 300
dice = random.Random(1993)
world = World(WORLD)
land = [n for n in world.regions if world.is_land(n)]
sea = [n for n in world.regions if not world.is_land(n)]


class Stood:
    def __init__(self, number):
        self.number, self.faction, self.inside = number, dice.choice((1, 2)), 0
        self.region, self.men = dice.choice(land), dice.choice((1, 1, 2, 3, 5, 8, 13, 40, 90))
        self.money = dice.choice((0, 3, 20, 150, 900, 4000))
        self.guard, self.items, self.days = False, {}, {}
        for item in world.items:
            if dice.random() < 0.2:
                self.items[item] = dice.choice((1, 4, 11, 30, 200))
        # each has a trade
        self.trade = dice.choice([*world.skills])
        self.days[self.trade] = dice.choice((29, 30, 90, 180, 300, 450)) * self.men
        for skill in world.skills:
            if dice.random() < 0.2:
                self.days[skill] = dice.randint(1, 450 * self.men)


class Built:
    def __init__(self, region, kind, done):
        self.region, self.kind, self.done, self.inside = region, kind, done, []


def size(kind):
    return world.kinds[kind]["size"]


units = [Stood(number) for number in range(1, UNITS + 1)]
# ships at sea are complete; on land there are structures of all sorts
structures = [Built(dice.choice(sea), kind, size(kind)) for kind in ("barge", "barge", "galley", "galley", "barge")]
structures += [Built(dice.choice(land), kind, dice.choice((1, size(kind) - 1, size(kind), size(kind)))) for kind in [*world.kinds] * 6]
# some units are inside
for unit in dice.sample(units, 90):
    place = dice.choice(structures)
    unit.region, unit.inside = place.region, structures.index(place) + 1
    place.inside.append(unit.number)
# carpenters have wood; who is aboard is a sailor, and one in eleven has too much for a barge
for unit in units:
    unit.study = dice.choice([*world.skills])
    if unit.trade == "carpentry":
        unit.items["wood"] = dice.choice((2, 9, 50))
for place in structures:
    place.owner = dice.choice(place.inside) if place.inside else 0
    for number in place.inside if world.kinds[place.kind]["ship"] else []:
        sailors = units[number - 1]
        sailors.days = {skill: days // sailors.men for skill, days in sailors.days.items()}
        sailors.men, sailors.days["sailing"], sailors.items = 1 + number % 4, 180 * (1 + number % 4), {"wood": 200 if number % 11 == 0 else 1 + number % 30}
# in each region units of one faction guard
for region in world.regions:
    faction = dice.choice((1, 2))
    for unit in units:
        unit.guard = unit.guard or (unit.region == region and unit.faction == faction and dice.random() < 0.4)
# some have full purses
for unit in dice.sample(units, 12):
    unit.money = 999_999_999 - dice.randint(0, 60)
# of each market so much is in stock
stocks = {(region, item): dice.choice((0, 1, market["limit"] // 2, market["limit"])) for region in world.regions for item, market in world.markets[region].items()}


def campaign():
    for u in units:
        yield f"unit {u.faction} {u.region} {u.inside} {u.men} {u.money}" + (" guard" if u.guard else "")
    for u in units:
        for thing, amount in (*u.items.items(), *u.days.items()):
            yield f"has {u.number} {thing} {amount}"
    for place in structures:
        yield f"structure {place.kind} {place.region} {place.done} {place.owner}"
    for (region, item), amount in stocks.items():
        if amount:
            yield f"stock {region} {item} {amount}"


def near(unit):
    """A unit, mostly of the same region."""
    there = [u.number for u in units if u.region == unit.region and u is not unit]
    return dice.choice(there) if there and dice.random() < 0.9 else dice.randint(1, UNITS + 5)


def trade(unit):
    """An order to sell or to buy, mostly an item of the markets where the unit stands, and to sell mostly what it has."""
    verb, there = dice.choice(("SELL", "BUY")), world.markets[unit.region]
    fit = [item for item in there if verb == "BUY" or item in unit.items] or [*there]
    return f"{verb} {dice.choice((1, 3, 10, 400))} {dice.choice(fit if fit and dice.random() < 0.9 else [*world.items])}"


def instant(unit):
    """One order that takes no month."""
    item = dice.choice([*unit.items] or [*world.items])
    if dice.random() < 0.2:
        return trade(unit)
    if unit.guard and dice.random() < 0.3:
        return "TAX"
    return dice.choice(
        (
            f"NAME UNIT Band_{unit.number}",
            f"NAME {dice.choice(('SHIP', 'BUILDING'))} Place_{unit.number}",
            f"GUARD {dice.choice('01')}",
            f"ENTER {dice.randint(1, len(structures))}",
            "LEAVE",
            f"PROMOTE {near(unit)}",
            f"GIVE {near(unit)} {dice.choice((1, 3, 10))} {item}",
            f"PAY {near(unit)} {dice.choice((1, 5, 40, 500))}",
            f"TRANSFER {near(unit)} {dice.choice((1, 2, 5))}",
            "TAX",
            f"RECRUIT {dice.choice((1, 3, 20))}",
            f"QUIT {3 - unit.faction}",
        )
    )


def made_by(unit):
    """What the unit's trade makes, or anything."""
    items = [name for name, item in world.items.items() if item["skill"] == unit.trade]
    return dice.choice(items if items and dice.random() < 0.8 else [*world.items])


def listed(unit):
    """Units to teach, mostly those of the region that are told to study something that the unit knows."""
    fit = [u.number for u in units if u.region == unit.region and unit.trade in (u.study, u.trade)]
    return " ".join(str(dice.choice(fit) if fit and dice.random() < 0.8 else near(unit)) for _ in range(dice.randint(1, 6)))


def owns_ship(unit):
    place = structures[unit.inside - 1] if unit.inside else None
    return place and place.owner == unit.number and world.kinds[place.kind]["ship"]


def month_long(unit):
    """One order that takes the month."""
    way = dice.choice(("NORTH", "SOUTH", "EAST", "WEST"))
    if owns_ship(unit) and dice.random() < 0.7:
        return f"SAIL {way}"
    if unit.inside and dice.random() < 0.5:
        return dice.choice((f"SAIL {way}", "BUILD", f"STUDY {unit.study}"))
    return dice.choice(
        (
            "WORK",
            f"STUDY {unit.study}",
            f"STUDY {unit.study}",
            f"TEACH {listed(unit)}",
            f"TEACH {listed(unit)}",
            f"PRODUCE {made_by(unit)}",
            f"PRODUCE {made_by(unit)}",
            f"BUILD {dice.choice([*world.kinds])}",
            f"MOVE {way}",
        )
    )


def travelling(unit):
    """Owners of ships sail; of the others some teach what is studied in their region, most study it, and some move or build."""
    skill = [*world.skills][unit.region % len(world.skills)]
    if owns_ship(unit):
        return f"SAIL {dice.choice(('NORTH', 'SOUTH', 'EAST', 'WEST'))}"
    if unit.inside and dice.random() < 0.4:
        return "BUILD"
    if unit.days.get(skill, 0) >= 30 * unit.men:
        students = [u.number for u in units if u.region == unit.region]
        return "TEACH " + " ".join(str(number) for number in dice.choices(students, k=dice.randint(2, 9)))
    return dice.choice((f"STUDY {skill}", f"STUDY {skill}", f"STUDY {skill}", f"MOVE {dice.choice(('NORTH', 'SOUTH', 'EAST', 'WEST'))}"))


def long_mailing(faction):
    """Each unit of the faction has one order that takes the month."""
    yield f"#ATLANTIS {faction}"
    for unit in units:
        if unit.faction == faction:
            yield from (f"UNIT {unit.number}", travelling(unit))


def mailing(faction):
    """A unit of another faction is ordered about now and then, and some units form others."""
    yield f"#ATLANTIS {faction}"
    alias = 0
    for unit in dice.sample(units, UNITS):
        if unit.faction != faction and dice.random() < 0.97:
            continue
        yield f"UNIT {unit.number}"
        for _ in range(dice.choice((0, 1, 1, 2, 3))):
            yield instant(unit)
        for _ in range(dice.choice((0, 1, 1, 1, 2))):
            yield month_long(unit)
        if dice.random() < 0.1:
            alias += 1
            yield from (f"FORM {alias}", "STUDY felling", f"NAME UNIT New_{alias}", "END", f"PAY NEW {alias} 20", f"TRANSFER NEW {alias} 1")


def case(title, run, mailings, words, lines, more=()):
    it = Case(title)
    it.mailings, it.words = [list(mail) for mail in mailings], words
    yield from ("", f"run {run}", *more, f"case {title}")
    for mail in it.mailings:
        yield from ("mail", *("> " + line for line in mail))
    yield from (f"word {word}" for word in words)
    yield from ("= " + line for line in played(world, run, [*lines, *more], it))


def main():
    lines = [*campaign()]
    passengers = [f"menless {u.number}" for u in units if u.inside and not owns_ship(u) and u.number % 4 == 0]
    menless = [f"menless {u.number}" for u in dice.sample(units, 70)]
    words = [dice.randrange(2**32) for _ in world.regions]
    mailings = [[*mailing(2)], [*mailing(1)]]
    print("world crowd.toml\n-- 300 units of two factions in 12 regions. Made by tests/model/crowd.py, which reckons them plainly.\n\ncampaign")
    print("\n".join(lines))
    for part in (
        case("Orders of all sorts.", "orders", mailings, [], lines),
        case("Who has no month-long order works.", "work", mailings, [], lines),
        case("Upkeep of all.", "upkeep", [], [], lines),
        case("A season of all regions.", "season", [], words, lines),
        case("A whole month.", "month", mailings, words, lines),
        case("Travel, building and lessons; some who are inside have lost their men.", "orders", [[*long_mailing(2)], [*long_mailing(1)]], [], lines, passengers),
        case("Seventy units more have lost their men.", "sweep", [], [], [*lines, *passengers], menless),
    ):
        print("\n".join(part))


main()
