"""The phases that share pots, and those that end a month, as tests/model/plain.py reckons them."""
from plain_campaign import HOLDING_LIMIT, MEN_LIMIT, MONTH_LONG, Fault, Order, must, own, stock

HUNDRED = 100
# a pot of which all get what they want
WITHOUT_END = float("inf")


def shares(pot, wants):
    """The shares of wants of a pot, by sums of the wants before each."""
    total, upto, all_shares = sum(wants), 0, []
    for want in wants:
        all_shares.append(want if total <= pot else pot * (upto + want) // total - pot * upto // total)
        upto += want
    return all_shares


def pots(c, m, orders, fault, want, pot_of, pot, pay):
    """Who takes part, and what there is, is read as the phase begins; all pots and all units change at once. Of a unit and its order `fault`, `want`
    and `pot_of` say what is wrong, how much is wanted and of which pot; `pot` says what is in one, and `pay` hands a share out."""
    takers, said, got = {}, [], {}
    for number, order in orders:
        try:
            unit = own(c, number, order)
            must(not fault(unit, order), fault(unit, order))
            takers[number] = (pot_of(unit, order), want(unit, order))
            said.append((number, order, None))
        except Fault as why:
            said.append((number, order, why))
    for shared in {of for of, _ in takers.values()}:
        sharing = [n for n in sorted(takers) if takers[n][0] == shared]
        got.update(zip(sharing, shares(pot(shared), [takers[n][1] for n in sharing])))
    for number, order, why in said:
        if why:
            m.failed(number, order, why)
        else:
            m.done(number, order, pay(number, c.units[number], order, got[number]))


def region_of(unit, order):
    return unit.region


def trade(c, m, verb, fault, want, pot, pay):
    """Units sell or buy: each item of each region has a pot of its own. `fault` and `want` are told of the unit, the item
    and its market, `pot` of the market and its stock. `pay` says how many pieces and how much money a share brings the unit."""
    item = lambda order: order.words[1].lower()
    market = lambda unit, order: c.world.markets[unit.region].get(item(order))

    def paid(number, unit, order, share):
        pieces, money, entry = pay(share, market(unit, order))
        unit.items[item(order)] = unit.has(item(order)) + pieces
        unit.money += money
        c.regions[unit.region][stock(item(order))] -= pieces
        c.book("money", entry, money)
        return share

    fault_of = lambda u, o: "NoMarket" if not market(u, o) else fault(u, item(o), market(u, o))
    want_of = lambda u, o: min(int(o.words[0]), want(u, item(o), market(u, o)))
    left = lambda place: pot(c.world.markets[place[0]][place[1]], c.regions[place[0]][stock(place[1])])
    pots(c, m, m.of(verb), fault_of, want_of, lambda unit, order: (unit.region, item(order)), left, paid)


def sell(c, m):
    fault = lambda unit, item, market: None if unit.has(item) else "NotEnough"
    want = lambda unit, item, market: min(unit.has(item), (HOLDING_LIMIT - unit.money) // market["pays"])
    pay = lambda share, market: (-share, share * market["pays"], "sold")
    trade(c, m, "SELL", fault, want, lambda market, held: market["limit"] - held, pay)


def buy(c, m):
    fault = lambda unit, item, market: "NotEnough" if unit.money < market["price"] else None
    want = lambda unit, item, market: min(unit.money // market["price"], HOLDING_LIMIT - unit.has(item))
    pay = lambda share, market: (share, -share * market["price"], "bought")
    trade(c, m, "BUY", fault, want, lambda market, held: held, pay)


def tax(c, m):
    money = {n: region["money"] for n, region in c.regions.items()}

    def pay(number, unit, order, share):
        unit.money += share
        c.regions[unit.region]["money"] -= share
        return share

    fault = lambda u, o: "NoMen" if not u.men else None if u.guard else "NotGuarding"
    want = lambda u, o: min(u.men * c.world.rules["tax_per_man"], HOLDING_LIMIT - u.money)
    pots(c, m, m.of("TAX"), fault, want, region_of, money.get, pay)


def recruit(c, m):
    price = c.world.rules["recruit_price"]
    peasants = {n: region["peasants"] // c.world.rules["recruit_fraction"] for n, region in c.regions.items()}

    def pay(number, unit, order, share):
        unit.men, unit.money = unit.men + share, unit.money - share * price
        c.regions[unit.region]["peasants"] -= share
        c.book("money", "recruiting", -share * price)
        return share

    fault = lambda u, o: "NotEnough" if u.money < price else None
    want = lambda u, o: min(int(o.words[0]), u.money // price, MEN_LIMIT - u.men)
    pots(c, m, m.of("RECRUIT"), fault, want, region_of, peasants.get, pay)


def produce(c, m):
    item = lambda order: order.words[0].lower()
    plan_of = lambda order: c.world.items[item(order)]
    enough_for = lambda unit, plan: unit.has(plan["raw"]) // plan.get("raw_count", 1)

    def fault(unit, order):
        plan = plan_of(order)
        if not unit.men:
            return "NoMen"
        if "skill" not in plan or unit.level(plan["skill"]) < plan.get("level", 1):
            return "NoSkill"
        return "NoMaterial" if "raw" in plan and enough_for(unit, plan) == 0 else None

    def want(unit, order):
        plan = plan_of(order)
        most = min(unit.men * unit.level(plan["skill"]), HOLDING_LIMIT - unit.has(item(order)))
        return min(most, enough_for(unit, plan)) if "raw" in plan else most

    def pot(place):
        region, name = place
        return WITHOUT_END if "raw" in c.world.items[name] else c.world.terrain(region).get("output", {}).get(name, 0)

    def pay(number, unit, order, made):
        plan = plan_of(order)
        if "raw" in plan:
            used = made * plan.get("raw_count", 1)
            unit.items[plan["raw"]] -= used
            c.book(plan["raw"], "used", -used)
        unit.items[item(order)] = unit.has(item(order)) + made
        c.book(item(order), "made", made)
        return made

    pots(c, m, m.of("PRODUCE"), fault, want, lambda unit, order: (unit.region, item(order)), pot, pay)


def work(c, m):
    busy = {number for number, order in m.of(*MONTH_LONG) if number in c.units and c.units[number].faction == order.faction}
    idle = [(n, Order(u.faction, 0, n, "WORK", [])) for n, u in c.units.items() if u.men and n not in busy]
    orders = sorted(m.of("WORK") + idle, key=lambda it: (it[0], it[1].line, it[1].faction))
    wage = lambda unit: c.world.terrain(unit.region)["wage"]

    def pay(number, unit, order, share):
        unit.money += share * wage(unit)
        c.book("money", "wages", share * wage(unit))
        return share * wage(unit)

    fault = lambda u, o: None if u.men else "NoMen"
    want = lambda u, o: min(u.men, (HOLDING_LIMIT - u.money) // wage(u))
    pots(c, m, orders, fault, want, region_of, lambda region: c.world.terrain(region)["places"], pay)


def dealt(amount, wants):
    """What each gets of an amount, one behind the other, by sums of the wants before each."""
    upto, all_dealt = 0, []
    for want in wants:
        all_dealt.append(min(upto + want, amount) - min(upto, amount))
        upto += want
    return all_dealt


def upkeep_of(c, region, faction):
    """A faction's units in a region pay for their men. Told is how many starve of which."""
    maintenance, starved = c.world.rules["maintenance"], {}
    units = [(n, u) for n, u in sorted(c.units.items()) if u.region == region and u.faction == faction]
    paid = [min(u.money, maintenance * u.men) for _, u in units]
    left = [u.money - p for (_, u), p in zip(units, paid)]
    short = [maintenance * u.men - p for (_, u), p in zip(units, paid)]
    pot = min(sum(left), sum(short))
    for (n, u), p, gives, lacks, covered in zip(units, paid, dealt(pot, left), short, dealt(pot, short)):
        u.money -= p + gives
        c.book("money", "upkeep", -p - gives)
        # so many as that would have kept, rounded up
        dead = -(-(lacks - covered) // maintenance)
        if dead:
            u.days = {skill: days * (u.men - dead) // u.men for skill, days in u.days.items()}
            u.men -= dead
            c.book("people", "starved", -dead)
            starved[n] = dead
    return starved


def upkeep(c, m):
    starved = {}
    for region in c.regions:
        for faction in c.factions:
            starved.update(upkeep_of(c, region, faction))
    for n, dead in sorted(starved.items()):
        m.tell(n, Order(c.units[n].faction, 0, n, "UPKEEP", []), f"starved {dead}")


def season(c, m):
    for (n, region), word in zip(sorted(c.regions.items()), m.words):
        terrain, rules = c.world.terrain(n), c.world.rules
        births = min(region["peasants"] * (word % (rules["growth"] + 1)) // HUNDRED, max(terrain["peasant_limit"] - region["peasants"], 0))
        region["peasants"] += births
        income = min(region["peasants"] * rules["income"], max(terrain["money_limit"] - region["money"], 0))
        region["money"] += income
        c.book("people", "births", births)
        c.book("money", "income", income)
        for item, market in c.world.markets[n].items():
            more = min(market["restock"], market["limit"] - region[stock(item)])
            region[stock(item)] += more
            c.book(item, "stocked", more)


def give_up(c, gone, heir):
    """What a unit without men has goes to its heir, if there is one; what that one has no room for is lost."""
    for thing, amount in [("money", gone.money), *gone.items.items()]:
        held = 0 if not heir else heir.money if thing == "money" else heir.has(thing)
        taken = min(amount, HOLDING_LIMIT - held) if heir else 0
        if heir and thing == "money":
            heir.money += taken
        elif heir:
            heir.items[thing] = held + taken
        c.book(thing, "lost", taken - amount)


def sweep(c, m):
    for n in [n for n, u in sorted(c.units.items()) if not u.men]:
        gone = c.units[n]
        heirs = [u for _, u in sorted(c.units.items()) if u.men and u.faction == gone.faction and u.region == gone.region]
        give_up(c, gone, heirs[0] if heirs else None)
        c.remove(n)
    c.mark_gone()
