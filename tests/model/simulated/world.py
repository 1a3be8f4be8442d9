"""The world file as a player reads it, and the rules that a good world keeps."""
import tomllib
from collections import deque


class World:
    def __init__(self, path):
        with open(path, "rb") as file:
            text = tomllib.load(file)
        self.rules, self.items = text["rules"], {it["name"]: it for it in text["item"]}
        self.regions = {it["number"]: it for it in text["region"]}
        self.terrains = {it["name"]: it for it in text["terrain"]}
        self.kinds = {it["name"]: it for it in text["kind"]}
        self.fees = {it["name"]: it["fee"] for it in text["skill"]}

    def terrain(self, number):
        return self.terrains[self.regions[number]["terrain"]]

    def is_land(self, number):
        return self.terrain(number)["land"]

    def exits(self, number):
        region = self.regions[number]
        return {way: region[way] for way in ("north", "south", "east", "west") if way in region}

    def markets(self, number):
        return {it["item"]: it for it in self.regions[number].get("market", [])}

    def paid(self, number, item):
        """What a market there pays for an item: 0 without one."""
        return self.markets(number).get(item, {"pays": 0})["pays"]

    def buys(self, number, item):
        """Whether a market there is a buyer of the item."""
        market = self.markets(number).get(item)
        return bool(market) and market["restock"] == 0

    def sells(self, number, item):
        """Whether a market there is a shop for the item."""
        market = self.markets(number).get(item)
        return bool(market) and market["restock"] > 0

    def way(self, start, is_goal, may_enter):
        """The first step to the none_remaining goal; none where the start is a goal, or no way leads to one."""
        seen, queue = {start}, deque([(start, None)])
        while queue:
            here, first = queue.popleft()
            if is_goal(here):
                return first
            for way, there in self.exits(here).items():
                if there not in seen and may_enter(there):
                    seen.add(there)
                    queue.append((there, first or way))
        return None

    def on_foot(self, start, is_goal):
        return self.way(start, is_goal, self.is_land)


# ---- what a good world keeps


def wages(world):
    """In each region with land, work pays more than a person costs, and people can walk to another region."""
    for number, region in world.regions.items():
        if world.is_land(number):
            if world.terrain(number)["wage"] <= world.rules["maintenance"]:
                yield f"{region['name']}: work pays less than a person costs"
            if not any(world.is_land(there) for there in world.exits(number).values()):
                yield f"{region['name']}: nobody can leave it on foot"


def markets(world):
    """A shop has a limit of two or three months of its restock, and no market pays more than another near it asks."""
    for here, region in world.regions.items():
        for item, market in world.markets(here).items():
            if market["restock"] and not 2 * market["restock"] <= market["limit"] <= 3 * market["restock"]:
                yield f"{region['name']}: the shop for {item} has a limit of {market['limit']}"
            yield from bargains(world, here, item, market["price"])


def bargains(world, here, item, price):
    """The regions, this one or others on the same coast, that pay more for an item than it costs here."""
    for there, region in world.regions.items():
        near = here == there or world.on_foot(here, lambda number: number == there)
        if near and world.paid(there, item) > price:
            yield f"{item}: {world.regions[here]['name']} asks {price}, and {region['name']} pays more"


def crafts(world):
    """A buyer pays more for an item than its raw items and a month of work bring."""
    wage = max(terrain["wage"] for terrain in world.terrains.values())
    buyers = lambda item: [number for number in world.regions if world.buys(number, item)]
    best = lambda item: max((world.paid(number, item) for number in buyers(item)), default=0)
    for name, item in world.items.items():
        cost = item.get("raw_count", 1) * best(item["raw"]) if "raw" in item else 0
        if "skill" in item and best(name) <= cost + wage:
            yield f"{name}: no buyer pays for the month of work in it"


def complaints(world):
    return [*wages(world), *markets(world), *crafts(world)]
