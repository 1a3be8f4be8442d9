"""Simple players: each reads its last report and the world file, and writes the orders of a month."""
RESERVE_MONTHS = 3
HIRED = 10


def letter(report, orders):
    """A mailing of (unit, orders) in the order given."""
    lines = [f"#ATLANTIS {report.faction}"]
    for number, texts in orders:
        lines += [f"UNIT {number}", *texts]
    return "\n".join([*lines, "#END", ""])


def spare(unit, world):
    """How many recruits a careful player hires: the upkeep of some months stays in the purse."""
    rules = world.rules
    kept = RESERVE_MONTHS * rules["maintenance"]
    return max(0, (unit.money - unit.men * kept) // (rules["recruit_price"] + kept))


def hire(number):
    return [f"RECRUIT {number}"] if number > 0 else []


# ---- simple ways


def worker(report, world):
    """Hires ten people once, and works."""
    more = HIRED if report.month == 0 else 0
    return letter(report, [(unit.number, [*hire(more), "WORK"]) for unit in report.units])


def careless(report, world):
    """Hires with all its money, month after month, and lets all study."""
    all_money = lambda unit: unit.money // world.rules["recruit_price"]
    return letter(report, [(unit.number, [*hire(all_money(unit)), "STUDY lumberjack"]) for unit in report.units])


def haggler(report, world):
    """Walks with goods from a shop to the market that pays best for them, and back, to live on what they differ."""
    unit = report.units[0]
    here, texts, item = unit.region, ["NAME UNIT Hagglers"], next(iter(unit.items), None)
    to = lambda goal: world.on_foot(here, goal)
    near = [number for number in world.regions if number == here or to(lambda there: there == number)]
    best = lambda item: max(near, key=lambda number: world.paid(number, item))
    if item and best(item) == here:
        texts, item = [*texts, f"SELL {unit.has(item)} {item}"], None
    shops = [it for it, market in report.regions[here].markets.items() if world.sells(here, it) and market.stock]
    if not item and shops:
        item = max(shops, key=lambda it: world.paid(best(it), it) - world.markets(here)[it]["price"])
        texts.append(f"BUY {world.rules['man_carry'] // world.items[item]['weight']} {item}")
    goal = lambda number: number == best(item) if item else any(world.sells(number, it) for it in world.markets(number))
    way = to(goal)
    return letter(report, [(unit.number, [*texts, f"MOVE {way}" if way else "WORK"])])


# ---- tax


def fed(region, world):
    """How many people the peasants of a region feed."""
    return region.peasants * world.rules["income"] // world.rules["maintenance"]


def elsewhere(report, unit, world):
    """A way over land, another one each month."""
    ways = [way for way, there in world.exits(unit.region).items() if world.is_land(there)]
    return ways[(report.month + unit.number) % len(ways)]


def host(report, unit, world):
    """Guards, taxes, and hires as many as the region feeds. Where another faction guards, it walks on."""
    region = report.regions[unit.region]
    if region.guarded:
        return [f"MOVE {elsewhere(report, unit, world)}"]
    more = min(fed(region, world) - sum(it.men for it in region.units), spare(unit, world))
    return [*hire(more), "TAX" if unit.guard else "GUARD 1", "WORK"]


def taxer(report, world):
    return letter(report, [(unit.number, host(report, unit, world)) for unit in report.units])


def settler(report, world):
    """Does as the taxer. When a region has most of the people that it feeds, ten of them settle in the next one."""
    orders, waiting = [], any(not unit.guard for unit in report.units)
    for unit in report.units:
        region, texts = report.regions[unit.region], host(report, unit, world)
        free = [way for way, there in region.exits.items() if world.is_land(there) and there not in report.regions]
        if unit.guard and not waiting and free and unit.men >= fed(region, world) * 3 // 4 and unit.money >= 1000:
            texts += [f"TRANSFER NEW 1 {HIRED}", "PAY NEW 1 600", "FORM 1", f"MOVE {free[0]}", "END"]
            waiting = True
        orders.append((unit.number, texts))
    return letter(report, orders)


# ---- goods

# for each raw item: what is made of it, and the names of the units that make the one and the other
GOODS = {"wood": ("cart", "Woodcutters", "Cartwrights"), "iron": ("tool", "Miners", "Smiths")}
CUTTERS, CRAFTERS, MASTER = 20, 3, 2
# what crafters begin with, what they keep in their purse, and what they carry to a buyer
OUTFIT, PURSE, LOAD = 450, 200, 12


def maker(report, world):
    """Digs iron (a faction of odd number) or cuts wood, where a buyer is, and makes tools or carts of a part of it."""
    raw = "iron" if report.faction % 2 else "wood"
    crafters = next((unit for unit in report.units if unit.name in ("Cartwrights", "Smiths")), None)
    cutters = next(unit for unit in report.units if unit != crafters)
    way = world.on_foot(cutters.region, lambda number: world.buys(number, raw))
    if way:
        return letter(report, [(cutters.number, [f"MOVE {way}"])])
    made, name, crafters_name = GOODS[raw]
    skill, craft = world.items[raw]["skill"], world.items[made]["skill"]
    learned = cutters.level(skill) >= MASTER
    texts = [f"PRODUCE {raw}" if learned else f"STUDY {skill}"]
    if cutters.name != name:
        texts += [f"NAME UNIT {name}", *hire(min(CUTTERS - cutters.men, spare(cutters, world)))]
    wanted = 0
    at_home = crafters and crafters.region == cutters.region
    if at_home and crafters.level(craft) >= MASTER and crafters.has(made) < LOAD:
        month = crafters.men * MASTER * world.items[made]["raw_count"]
        wanted = min(cutters.has(raw), max(0, month - crafters.has(raw)))
    texts += [f"GIVE {crafters.number} {wanted} {raw}"] if wanted else []
    texts += [f"SELL {cutters.has(raw) - wanted} {raw}"] if cutters.has(raw) > wanted else []
    if learned and not crafters and cutters.money >= OUTFIT + PURSE:
        texts += [f"PAY NEW 1 {OUTFIT}", "FORM 1", f"NAME UNIT {crafters_name}", f"RECRUIT {CRAFTERS}"]
        texts += [f"STUDY {craft}", "END"]
    orders = [(cutters.number, texts)]
    if crafters:
        orders.append((crafters.number, crafting(crafters, world, made, cutters)))
    return letter(report, orders)


def crafting(unit, world, made, cutters):
    """The crafters learn, make a load of goods, and take it to the buyer."""
    sold, home = lambda number: world.buys(number, made), lambda number: number == cutters.region
    craft = world.items[made]["skill"]
    if sold(unit.region):
        sale = [f"SELL {unit.has(made)} {made}"] if unit.has(made) else []
        return [*sale, f"MOVE {world.on_foot(unit.region, home)}"]
    if unit.region != cutters.region:
        return [f"MOVE {world.on_foot(unit.region, sold if unit.has(made) else home)}"]
    paid = [f"PAY {cutters.number} {unit.money - PURSE}"] if unit.money > PURSE else []
    if unit.level(craft) < MASTER:
        return [f"STUDY {craft}"]
    return [*paid, f"MOVE {world.on_foot(unit.region, sold)}" if unit.has(made) >= LOAD else f"PRODUCE {made}"]


# ---- trade

BUILDERS, SAILORS, SHIP, FLEET = 5, 2, "boat", 3
# what a crew keeps for a load and to live, what it begins with, and what a boat with its crew costs
STOCK, CREW, OUTLAY = 420, 520, 900


def ware_of(world, number):
    """What a port sells that nobody can make, if there is a buyer."""
    bought = lambda item: any(world.buys(there, item) for there in world.regions)
    wares = [item for item in world.markets(number) if world.sells(number, item) and "skill" not in world.items[item]]
    return next((item for item in wares if bought(item)), None)


def trader(report, world):
    """Builds boats in a port, and carries the wares of both ports over the sea."""
    crews = [unit for unit in report.units if unit.name == "Sailors"]
    builders = next(unit for unit in report.units if unit not in crews)
    way = world.on_foot(builders.region, lambda number: ware_of(world, number))
    texts = [f"MOVE {way}"] if way else shipyard(report, builders, world, crews)
    orders = [(unit.number, sailing(report, unit, world, builders)) for unit in crews]
    return letter(report, [(builders.number, texts), *orders])


def shipyard(report, unit, world, crews):
    ship = next((it for it in report.regions[unit.region].structures if it.number == unit.inside), None)
    if unit.level("shipbuilding") == 0:
        return ["NAME UNIT Shipwrights", *hire(BUILDERS - unit.men), "STUDY shipbuilding"]
    if ship and ship.done == ship.size:
        crew = ["FORM 1", "NAME UNIT Sailors", f"RECRUIT {SAILORS}", "STUDY sailing", "END"]
        return ["LEAVE", "WORK", f"PAY NEW 1 {CREW}", *crew]
    if not ship and (len(crews) == FLEET or unit.money < OUTLAY):
        return ["WORK"]
    missing = world.kinds[SHIP]["size"] - (ship.done if ship else 0) - unit.has("wood")
    buys = [f"BUY {missing} wood"] if missing > 0 else []
    return [*buys, "BUILD" if ship else f"BUILD {SHIP}"]


def sailing(report, unit, world, builders):
    """A crew sells its load in one port, buys the ware of that port, and sails to the other."""
    if unit.level("sailing") == 0:
        return ["STUDY sailing"]
    here, texts, item = unit.region, [], next(iter(unit.items), None)
    ware = ware_of(world, here)
    if ware:
        room = (world.kinds[SHIP]["capacity"] - unit.men * world.rules["man_weight"]) // world.items[ware]["weight"]
        if item and item != ware:
            texts.append(f"SELL {unit.has(item)} {item}")
        if here == builders.region and unit.money > STOCK:
            texts.append(f"PAY {builders.number} {unit.money - STOCK}")
        if room > unit.has(ware):
            texts.append(f"BUY {room - unit.has(ware)} {ware}")
        item = ware
    goal = lambda number: number != here and (world.buys(number, item) if item else ware_of(world, number))
    by_sea = lambda number: not world.is_land(number) or ware_of(world, number)
    return [*texts, f"SAIL {world.way(here, goal, by_sea)}"]
