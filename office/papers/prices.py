"""The price list of a world, for players: what the rules cost, and all terrains, items, skills, kinds and regions."""

from collections.abc import Sequence

from office.papers.html import Child, Element, el, table
from office.papers.situation import Scene, Situation
from office.papers.wording import listed
from office.papers.world import Item, Kind, Region, Rules, Skill, Terrain, World
from office.papers.worldmap import map_picture

NONE = "\N{EN DASH}"


def price_list(world: World, regions: bool) -> list[Element]:
    """The part of the handout. Without `regions` it has nothing that says where something is."""
    title = f"Prices of the world {world.name}" if world.name else "Prices"
    parts = [
        el("h1", {}, title),
        el("p", {}, "Keys of the world file are set as ", el("code", {}, "maintenance"), ". The guide explains them."),
        *_section("What everybody pays and gets", _rules(world.rules)),
        *_section("Terrains", _terrains(world)), *_section("Items", _items(world, regions)),
        *_section("Skills", _skills(world)), *_section("Ships and buildings", _kinds(world.kinds)),
    ]
    return [*parts, *_where(world)] if regions else parts


def _section(title: str, *parts: Element) -> tuple[Element, ...]:
    return (el("h2", {}, title), *parts)


def _number(number: int) -> str:
    return f"{number:,}"


def _rules(rules: Rules) -> Element:
    rows: list[tuple[str, str, Child]] = [
        ("maintenance", "upkeep of a person for a month", _number(rules.maintenance)),
        ("recruit_price", "a recruit", _number(rules.recruit_price)),
        ("recruit_fraction", "of how many peasants one can be hired in a month", _number(rules.recruit_fraction)),
        ("tax_per_man", "the most that a person takes by TAX in a month", _number(rules.tax_per_man)),
        ("income", "what each peasant earns for its region in a month", _number(rules.income)),
        ("growth", "the most births in a month, for each 100 peasants", _number(rules.growth)),
        ("start_money", "money of a new faction", _number(rules.start_money)),
        ("man_weight", "what a person weighs", _number(rules.man_weight)),
        ("man_carry", "what a person carries", _number(rules.man_carry)),
        ("observation", "the skill of seeing hidden units", rules.observation or NONE),
        ("stealth", "the skill of hiding", rules.stealth or NONE),
        ("sailing", "the skill of a ship's crew", rules.sailing or NONE),
    ]
    shown: list[list[Child]] = [[what, el("code", {}, key), amount] for key, what, amount in rows]
    return table(["what", "key", "amount"], shown, [False, False, True])


def _terrains(world: World) -> Element:
    return table(
        ["terrain", "", "wage", "places", "money_limit", "peasant_limit", "output in a month"],
        [_terrain(terrain) for terrain in world.terrains], [False, False, True, True, True, True, False],
    )


def _terrain(it: Terrain) -> list[Child]:
    output = ", ".join(f"{amount:,} {item}" for item, amount in it.output.items() if amount) or NONE
    numbers = (it.wage, it.places, it.money_limit, it.peasant_limit)
    return [it.name, "land" if it.land else "water", *map(_number, numbers), output]


def _items(world: World, prices: bool) -> Element:
    headings = ["item", "weight", "carry", "made by", "level", "made of", "found in"]
    numbers = [False, True, True, False, True, False, False]
    rows = [_item(item, world) for item in world.items]
    if prices:
        headings, numbers = [*headings, "least price", "most paid"], [*numbers, True, True]
        rows = [[*row, *_prices(item, world)] for row, item in zip(rows, world.items)]
    return table(headings, rows, numbers)


def _item(it: Item, world: World) -> list[Child]:
    found = [terrain.name for terrain in world.terrains if terrain.output.get(it.name, 0)]
    raw = f"{it.raw_count:,} {it.raw}" if it.raw else NONE
    return [
        it.name, _number(it.weight), _number(it.carry), it.skill or "nobody", it.level if it.skill else NONE, raw,
        listed(found) if found and not it.raw else NONE,
    ]


def _prices(it: Item, world: World) -> list[Child]:
    """What the cheapest market asks, and what the best one pays."""
    markets = [market for region in world.regions for market in region.markets if market.item == it.name]
    if not markets:
        return [NONE, NONE]
    return [_number(min(market.price for market in markets)), _number(max(market.pays for market in markets))]


def _skills(world: World) -> Element:
    return table(["skill", "fee", "what it is for"], [_skill(skill, world) for skill in world.skills],
                 [False, True, False])


def _skill(it: Skill, world: World) -> list[Child]:
    rules = world.rules
    uses = [f"makes {item.name}" for item in world.items if item.skill == it.name]
    uses += [f"builds {kind.name}" for kind in world.kinds if kind.skill == it.name]
    roles = ((rules.observation, "sees hidden units"), (rules.stealth, "hides"), (rules.sailing, "sails ships"))
    uses += [words for skill, words in roles if skill == it.name]
    return [it.name, _number(it.fee), ", ".join(uses) or NONE]


def _kinds(kinds: Sequence[Kind]) -> Element:
    return table(
        ["kind", "", "takes", "built by", "level", "capacity", "crew", "helps"],
        [[it.name, "ship" if it.ship else "building", f"{it.size:,} {it.material}", it.skill, it.level,
          _number(it.capacity), _number(it.crew), it.helps or NONE] for it in kinds],
        [False, False, True, False, True, True, True, False],
    )


# ---- regions


def _where(world: World) -> list[Element]:
    """The map, the regions and the markets, as the campaign begins."""
    scenes = {it.number: Scene(it.peasants, it.money, (), (), {}) for it in world.regions}
    drawn = map_picture(Situation(0, "", world, {}, scenes))
    begins = el("p", {}, "Peasants and money are those that the campaign begins with.")
    markets = _markets(world.regions)
    return [
        *_section("Map", el("p", {}, "North is up."), el("div", {"class": "wide map"}, drawn)),
        *_section("Regions", begins, _regions(world.regions)),
        *(_section("Markets", markets) if markets else ()),
    ]


def _regions(regions: Sequence[Region]) -> Element:
    return table(
        ["region", "name", "terrain", "peasants", "money", "exits"],
        [[it.number, it.name, it.terrain, _number(it.peasants), _number(it.money),
          ", ".join(f"{way} {to}" for way, to in it.exits.items()) or "none"]
         for it in sorted(regions, key=lambda it: it.number)],
        [True, False, False, True, True, False],
    )


def _markets(regions: Sequence[Region]) -> Element | None:
    rows: list[list[Child]] = [
        [f"{region.number} {region.name}", it.item, *map(_number, (it.price, it.pays, it.limit, it.restock))]
        for region in sorted(regions, key=lambda it: it.number) for it in region.markets
    ]
    headings = ["region", "item", "price", "pays", "limit", "restock"]
    return table(headings, rows, [False, False, True, True, True, True]) if rows else None
