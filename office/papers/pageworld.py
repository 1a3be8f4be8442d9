"""Makes `world.json`, which the players' page in the browser reads: what a world file says, in a form of its own.

The form has the names of the world file, with all defaults filled in. A key without a value is left out. Where the
regions are not public, `region` and `market` are left out."""

import json

from office.papers.world import Item, Kind, Region, Rules, Terrain, World

FORMAT = 1
Value = str | int | bool | dict[str, int]


def page_world(world: World, regions: bool = True) -> str:
    """The text of `world.json`, in ASCII with a line feed at its end."""
    page: dict[str, object] = {
        "format": FORMAT,
        "name": world.name,
        "rules": _rules(world.rules),
        "terrain": [_terrain(terrain) for terrain in world.terrains],
        "item": [_item(item) for item in world.items],
        "skill": [{"name": skill.name, "fee": skill.fee} for skill in world.skills],
        "kind": [_kind(kind) for kind in world.kinds],
    }
    if regions:
        page["region"] = [_region(region) for region in world.regions]
        page["market"] = [market for region in world.regions for market in _markets(region)]
    return json.dumps(page, indent=1) + "\n"


def _given(pairs: dict[str, Value | None]) -> dict[str, Value]:
    """What has a value."""
    return {key: value for key, value in pairs.items() if value is not None}


def _rules(rules: Rules) -> dict[str, Value]:
    return _given({
        "maintenance": rules.maintenance,
        "tax_per_man": rules.tax_per_man,
        "recruit_price": rules.recruit_price,
        "recruit_fraction": rules.recruit_fraction,
        "growth": rules.growth,
        "income": rules.income,
        "start_money": rules.start_money,
        "man_weight": rules.man_weight,
        "man_carry": rules.man_carry,
        "observation": rules.observation,
        "stealth": rules.stealth,
        "sailing": rules.sailing,
    })


def _terrain(terrain: Terrain) -> dict[str, Value]:
    return _given({
        "name": terrain.name,
        "land": terrain.land,
        "wage": terrain.wage,
        "places": terrain.places,
        "money_limit": terrain.money_limit,
        "peasant_limit": terrain.peasant_limit,
        "output": dict(terrain.output),
    })


def _item(item: Item) -> dict[str, Value]:
    return _given({
        "name": item.name,
        "weight": item.weight,
        "carry": item.carry,
        "skill": item.skill,
        "level": item.level,
        "raw": item.raw,
        "raw_count": item.raw_count,
    })


def _kind(kind: Kind) -> dict[str, Value]:
    return _given({
        "name": kind.name,
        "ship": kind.ship,
        "material": kind.material,
        "size": kind.size,
        "skill": kind.skill,
        "level": kind.level,
        "capacity": kind.capacity,
        "crew": kind.crew,
        "helps": kind.helps,
    })


def _region(region: Region) -> dict[str, Value]:
    return _given({"number": region.number, "name": region.name, "terrain": region.terrain, **region.exits})


def _markets(region: Region) -> list[dict[str, Value]]:
    return [
        _given({
            "region": region.number,
            "item": market.item,
            "price": market.price,
            "pays": market.pays,
            "limit": market.limit,
            "restock": market.restock,
        })
        for market in region.markets
    ]
