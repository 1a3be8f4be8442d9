"""The phases that carry orders out one by one, and lessons, as tests/model/plain.py reckons them."""
from plain_campaign import HOLDING_LIMIT, MEN_LIMIT, Fault, Structure, Unit, must, own

LAST_UNIT, MOST_UNITS, MOST_STRUCTURES = 999_999_999, 100_000, 10_000
# how many men a teacher teaches for each of its own
PLACES_OF_TEACHER = 10
# what a month adds to a man's days: by his study, by a teacher and by a place that helps; and the most that he has
STUDY_DAYS, TAUGHT_DAYS, HELPED_DAYS, MOST_DAYS = 30, 30, 10, 450


def each(c, m, step, *verbs, flag=None):
    """Carries orders out one by one, each over what the one before left; of GUARD those of a flag."""
    for number, order in m.of(*verbs):
        if order.verb == "GUARD" and order.words[0] != flag:
            continue
        try:
            m.done(number, order, step(c, m, number, own(c, number, order), order))
        except Fault as fault:
            m.failed(number, order, fault)


def form(c, m):
    for order in sorted((o for o in m.orders if o.verb == "FORM"), key=lambda o: (o.faction, o.line)):
        try:
            parent = own(c, order.unit, order)
            must(len(c.units) < MOST_UNITS and c.next_unit <= LAST_UNIT, "UnitLimit")
            number, c.next_unit = c.next_unit, c.next_unit + 1
            c.units[number] = Unit(parent.faction, parent.region, parent.inside, name=f"Unit {number}")
            m.aliases[order.faction, int(order.words[0])] = number
            m.done(order.unit, order, number)
        except Fault as fault:
            m.failed(order.unit, order, fault)


def name(c, m, number, unit, order):
    if order.verb == "GUARD":
        unit.guard = 0
        return 0
    what, text = order.words[0].upper(), order.words[1]
    if what == "UNIT":
        unit.name = text
    elif what == "FACTION":
        c.factions[unit.faction]["name"] = text
    else:
        inside = c.structures.get(unit.inside)
        must(inside and c.is_ship(inside) == (what == "SHIP"), "NotInside")
        must(inside.owner == number, "NotOwner")
        inside.name = text
    return 0


def place(c, m, number, unit, order):
    if order.verb == "LEAVE":
        must(unit.inside, "NotInside")
        must(c.world.is_land(unit.region), "AtSea")
        c.place(number, unit.region, 0)
    elif order.verb == "ENTER":
        to = int(order.words[0])
        must(to in c.structures and c.structures[to].region == unit.region, "NotHere")
        if unit.inside != to:
            c.place(number, unit.region, to)
    else:
        heir = m.named(order.faction, order.words)[0]
        must(unit.inside, "NotInside")
        must(c.structures[unit.inside].owner == number, "NotOwner")
        must(heir in c.units and c.units[heir].inside == unit.inside, "NotHere")
        c.structures[unit.inside].owner = heir
    return 0


def give(c, m, number, unit, order):
    to, words = m.named(order.faction, order.words)
    amount, item = int(words[0]), words[1].lower() if order.verb == "GIVE" else None
    other = c.units.get(to)
    held = lambda u: u.has(item) if item else u.money
    must(other and other.region == unit.region, "NotHere")
    must(held(unit) >= amount, "NotEnough")
    must(to == number or held(other) + amount <= HOLDING_LIMIT, "NoRoom")
    for u, more in ((unit, -amount), (other, amount)):
        if item:
            u.items[item] = u.has(item) + more
        else:
            u.money += more
    return amount


def transfer(c, m, number, unit, order):
    to, words = m.named(order.faction, order.words)
    men = int(words[0])
    other = c.units.get(to)
    must(other and other.region == unit.region, "NotHere")
    must(other.faction == unit.faction, "NotYours")
    must(unit.men >= men, "NotEnough")
    must(to == number or other.men + men <= MEN_LIMIT, "NoRoom")
    if to != number:
        for skill, days in list(unit.days.items()):
            gone = days * men // unit.men
            unit.days[skill] = days - gone
            other.days[skill] = other.days.get(skill, 0) + gone
        unit.men, other.men = unit.men - men, other.men + men
    return men


def guard(c, m, number, unit, order):
    must(unit.men, "NoMen")
    must(not any(u.guard and u.men and u.faction != unit.faction and u.region == unit.region for u in c.units.values()), "Guarded")
    unit.guard = 1
    return 0


def quit_campaign(c, m, number, unit, order):
    must(int(order.words[0]) == unit.faction, "WrongNumber")
    for n in [n for n, u in sorted(c.units.items()) if u.faction == unit.faction]:
        gone = c.units[n]
        c.book("people", "left", -gone.men)
        c.book("money", "lost", -gone.money)
        for item, amount in gone.items.items():
            c.book(item, "lost", -amount)
        c.remove(n)
    return 0


def move(c, m, number, unit, order):
    to = c.world.beside(unit.region, order.words[0].upper())
    must(unit.men, "NoMen")
    must(c.world.is_land(unit.region), "AtSea")
    must(c.world.is_land(to), "NoWay")
    must(c.weight(unit) <= c.carried(unit), "TooHeavy")
    c.place(number, to, 0)
    unit.guard = 0
    return 0


def sail(c, m, number, unit, order):
    to = c.world.beside(unit.region, order.words[0].upper())
    ship = c.structures.get(unit.inside)
    must(unit.men, "NoMen")
    must(ship, "NotInside")
    must(ship.owner == number, "NotOwner")
    must(c.is_ship(ship) and c.is_complete(ship), "NotComplete")
    must(to is not None and not (c.world.is_land(unit.region) and c.world.is_land(to)), "NoWay")
    crew = [c.units[n] for n in c.aboard(unit.inside)]
    kind, skill = c.world.kinds[ship.kind], c.world.rules.get("sailing")
    must(sum(u.men * u.level(skill) for u in crew) >= kind.get("crew", 0), "NoCrew")
    must(sum(u.men * c.world.rules["man_weight"] + c.weight(u) for u in crew) <= kind.get("capacity", 0), "TooHeavy")
    ship.region = to
    for u in crew:
        u.region, u.guard = to, 0
    return 0


def build(c, m, number, unit, order):
    must(unit.men, "NoMen")
    new = order.words[0].lower() if order.words else None
    if new:
        must(c.world.is_land(unit.region), "AtSea")
    else:
        must(unit.inside, "NotInside")
    on = None if new else c.structures[unit.inside]
    kind = c.world.kinds[new or on.kind]
    done = 0 if new else on.done
    must(done < kind["size"], "Complete")
    must(unit.level(kind["skill"]) >= kind["level"], "NoSkill")
    must(unit.has(kind["material"]), "NoMaterial")
    must(not new or len(c.structures) < MOST_STRUCTURES, "StructureLimit")
    size = min(unit.men * unit.level(kind["skill"]), unit.has(kind["material"]), kind["size"] - done)
    unit.items[kind["material"]] -= size
    c.book(kind["material"], "used", -size)
    if new:
        k = c.next("structure")
        c.structures[k] = Structure(new, unit.region, size, 0, f"{'Ship' if kind['ship'] else 'Building'} {k}")
        c.place(number, unit.region, k)
    else:
        on.done += size
    return size


def fee(c, unit, order):
    """What it costs all men of a unit to study what an order says."""
    return c.world.skills[order.words[0].lower()]["fee"] * unit.men


def learners(c, m):
    """The units that are learning, each with its skill."""
    learning = {}
    for number, order in m.of("STUDY"):
        unit = c.units.get(number)
        if unit and unit.faction == order.faction and unit.men and unit.money >= fee(c, unit, order):
            learning[number] = order.words[0].lower()
    return learning


def learn(c, m):
    learning, taught = learners(c, m), {}

    def teach(c, m, number, unit, order):
        must(unit.men, "NoMen")
        pupils = [n for n in m.listed(order) if n in learning and c.units[n].region == unit.region]
        must(pupils, "NotLearning")
        below = [n for n in pupils if c.units[n].level(learning[n]) < unit.level(learning[n])]
        must(below, "CannotTeach")
        places = PLACES_OF_TEACHER * unit.men
        for n in dict.fromkeys(below):
            some = min(places, c.units[n].men - taught.get(n, 0))
            taught[n] = taught.get(n, 0) + some
            places -= some
        return PLACES_OF_TEACHER * unit.men - places

    def study(c, m, number, unit, order):
        skill, cost = order.words[0].lower(), fee(c, unit, order)
        must(unit.men, "NoMen")
        must(unit.money >= cost, "NoFee")
        inside = c.structures.get(unit.inside)
        helped = inside and c.is_complete(inside) and c.world.kinds[inside.kind].get("helps") == skill
        old = unit.days.get(skill, 0)
        more = STUDY_DAYS * unit.men + TAUGHT_DAYS * taught.get(number, 0) + (HELPED_DAYS * unit.men if helped else 0)
        unit.days[skill] = min(old + more, MOST_DAYS * unit.men)
        unit.money -= cost
        c.book("money", "study", -cost)
        return unit.days[skill] - old

    each(c, m, teach, "TEACH")
    each(c, m, study, "STUDY")
