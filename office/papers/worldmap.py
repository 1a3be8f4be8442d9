"""Draws the whole world at the end of a month, for the moderator: terrains, people, guards, markets and structures."""

from collections.abc import Iterator, Mapping, Sequence

from office.papers.chart import shorten
from office.papers.html import Child, Element, document, el, table
from office.papers.layout import STEPS, Layout, Way, lay_out
from office.papers.sheet import COLORS, DARK, MAP, MAP_PAGE, STYLE
from office.papers.situation import NOT_SEEN, Scene, Situation, Structure
from office.papers.svg import Point, file_text, group, line, picture, rect, title, words
from office.papers.terrains import Drawn, drawn_terrains, pattern
from office.papers.wording import counted
from office.papers.world import OPPOSITE, Region

WIDTH, HEIGHT, GAP = 204, 116, 26
STRIP = 20
# Rows of text in a region, by the height of their foot lines.
NAME_ROW, PEASANTS_ROW, FIRST_ROW, ROW, LAST_ROW = 17, 32, 49, 14, 108
MOST_FACTIONS = 4
# How wide texts may be, in the height of their letters.
NAME_WIDTH, ROW_WIDTH = 10.5, 16.0
SIGN_ROW, LEGEND_ROW, LEGEND_COLUMN, LEGEND_TOP = 17, 26, 190, 14
GUARD = "\N{BLACK UP-POINTING TRIANGLE}"
SIGNS_OF_PEOPLE = (f"{GUARD} 12 of 3 Avalon: faction 3 has 12 people there, and is on guard.",)
SIGNS = (
    "A dotted way is for ships alone.",
    "A number beside a region is where a way leads that can't be drawn.",
)


def map_svg(situation: Situation) -> str:
    """The map as the text of an SVG file of its own."""
    return file_text(_draw(situation, COLORS + DARK + MAP))


def map_page(situation: Situation) -> str:
    """The map as a page, with a table of all regions below it."""
    heading = f"The world after month {situation.month}"
    return document(
        heading, STYLE + MAP + MAP_PAGE,
        el("header", {}, el("h1", {}, heading),
           el("p", {"class": "quiet"}, f"For the moderator. {situation.source} North is up.")),
        el("main", {}, el("div", {"class": "wide map"}, map_picture(situation)), _table(situation)),
    )


def map_picture(situation: Situation) -> Element:
    """The map as a part of a page that has the style sheet MAP."""
    return _draw(situation, None)


def _draw(situation: Situation, style: str | None) -> Element:
    world = situation.world
    layout = lay_out({region.number: region.exits for region in world.regions})
    terrains = drawn_terrains(world.terrains)
    water = {region.number for region in world.regions if not world.terrain(region.terrain).land}
    width = max(layout.width * (WIDTH + GAP), 2 * LEGEND_COLUMN)
    columns = width // LEGEND_COLUMN
    foot = layout.height * (HEIGHT + GAP)
    signs = SIGNS_OF_PEOPLE + SIGNS if situation.factions else SIGNS
    height = foot + LEGEND_TOP + SIGN_ROW * len(signs) + LEGEND_ROW * -(-len(terrains) // columns)
    label = f"Map of {counted(len(world.regions), 'region')}"
    return picture(
        width, height, label, {"class": "world"},
        el("style", {}, style) if style else None,
        el("defs", {}, [pattern(terrain) for terrain in terrains.values()]),
        rect((0, 0), width, height, {"class": "ground"}),
        [_way(way, layout, water) for way in layout.ways],
        [_stubs(way, layout) for way in layout.crooked],
        [_region(region, situation, terrains[region.terrain], _corner(layout, region.number))
         for region in world.regions],
        _legend(list(terrains.values()), signs, columns, foot + LEGEND_TOP),
    )


def _corner(layout: Layout, number: int) -> Point:
    x, y = layout.places[number]
    return GAP / 2 + x * (WIDTH + GAP), GAP / 2 + y * (HEIGHT + GAP)


# ---- ways


def _way(way: Way, layout: Layout, water: set[int]) -> Element:
    kind = "by-sea" if way.start in water or way.to in water else "by-land"
    begin, end = _corner(layout, way.start), _corner(layout, way.to)
    middle = (WIDTH / 2, HEIGHT / 2)
    return line((begin[0] + middle[0], begin[1] + middle[1]), (end[0] + middle[0], end[1] + middle[1]),
                {"class": f"way {kind}"})


def _stubs(way: Way, layout: Layout) -> list[Element]:
    """A way that can't be drawn has at both of its ends the number of the region to which it leads."""
    here, there = _corner(layout, way.start), _corner(layout, way.to)
    return [_stub(here, way.way, way.to), _stub(there, OPPOSITE[way.way], way.start)]


def _stub(corner: Point, way: str, to: int) -> Element:
    dx, dy = STEPS[way]
    x, y = corner[0] + WIDTH / 2 * (1 + dx), corner[1] + HEIGHT / 2 * (1 + dy)
    anchor = "end" if dx < 0 else "start"
    at = (x + 8 * dx + 6 * abs(dy), y + 8 * dy + 4)
    stub = line((x, y), (x + 6 * dx, y + 6 * dy), {"class": "way"})
    return group({"class": "stub"}, title(f"{way} to region {to}"), stub, words(at, str(to), {"text-anchor": anchor}))


# ---- regions


def _region(region: Region, situation: Situation, terrain: Drawn, corner: Point) -> Element:
    scene = situation.scenes.get(region.number, NOT_SEEN)
    x, y = corner
    return group(
        {"class": f"region {terrain.look.label}"}, title(_sentence(region, scene, situation)),
        rect(corner, WIDTH, HEIGHT, {"class": "cell", "rx": 7}),
        rect((x + 1, y + 6), STRIP - 1, HEIGHT - 12, {"fill": f"url(#{terrain.pattern_id})"}),
        rect((x + 3, y + 5), STRIP - 5, 17, {"class": "badge", "rx": 3}),
        words((x + STRIP / 2 + 0.5, y + NAME_ROW), terrain.letters, {"class": "letter", "text-anchor": "middle"}),
        words((x + STRIP + 5, y + NAME_ROW), (el("tspan", {"class": "number"}, region.number),
                                              f" {shorten(region.name, NAME_WIDTH)}"), {"class": "name"}),
        words((x + STRIP + 5, y + PEASANTS_ROW), shorten(_peasants(scene), ROW_WIDTH), {"class": "quiet"}),
        [words((x + STRIP + 5, y + FIRST_ROW + ROW * row), text, {"class": "people"})
         for row, text in enumerate(_people_rows(scene, situation.factions))],
        words((x + STRIP + 5, y + LAST_ROW), shorten(_goods(region, scene), ROW_WIDTH), {"class": "quiet"}),
    )


def _peasants(scene: Scene) -> str:
    return "not seen" if scene.peasants is None else f"{counted(scene.peasants, 'peasant')}, {scene.money:,} money"


def _people(scene: Scene) -> dict[int, int]:
    """How many people each faction has there, by its number."""
    people: dict[int, int] = {}
    for unit in scene.units:
        people[unit.faction] = people.get(unit.faction, 0) + unit.people
    return dict(sorted(people.items()))


def _guards(scene: Scene) -> set[int]:
    return {unit.faction for unit in scene.units if unit.guard}


def _people_rows(scene: Scene, names: Mapping[int, str]) -> Iterator[str]:
    """A line for each faction that has people there. The last line says how many more there are."""
    people, guards = _people(scene), _guards(scene)
    shown = MOST_FACTIONS if len(people) <= MOST_FACTIONS else MOST_FACTIONS - 1
    for faction, count in list(people.items())[:shown]:
        mark = f"{GUARD} " if faction in guards else ""
        yield shorten(f"{mark}{count:,} of {faction} {names[faction]}", ROW_WIDTH)
    if len(people) > shown:
        rest = list(people.values())[shown:]
        yield f"{sum(rest):,} of {len(rest)} other factions"


def _goods(region: Region, scene: Scene) -> str:
    ships = sum(structure.ship for structure in scene.structures)
    counts = ((len(region.markets), "market"), (ships, "ship"), (len(scene.structures) - ships, "building"))
    return ", ".join(counted(count, word) for count, word in counts if count)


def _sentence(region: Region, scene: Scene, situation: Situation) -> str:
    return "; ".join((f"{region.number} {region.name}, {region.terrain}", _peasants(scene),
                      *_people_words(scene, situation.factions), *map(_structure, scene.structures)))


# ---- the legend


def _legend(terrains: Sequence[Drawn], signs: Sequence[str], columns: int, top: float) -> Element:
    """A row for each sign, and below them the terrains."""
    rows = [words((GAP / 2, top + SIGN_ROW * row + 6), text, {"class": "quiet"}) for row, text in enumerate(signs)]
    first = top + SIGN_ROW * len(signs)
    corners = [(GAP / 2 + LEGEND_COLUMN * (place % columns), first + LEGEND_ROW * (place // columns))
               for place in range(len(terrains))]
    return group({"class": "legend"}, rows, [_swatch(*pair) for pair in zip(terrains, corners)])


def _swatch(terrain: Drawn, corner: Point) -> Element:
    x, y = corner
    return group(
        {"class": f"region {terrain.look.label}"}, rect(corner, 44, 18, {"class": "cell", "rx": 3}),
        rect((x + 18, y + 1), 25, 16, {"fill": f"url(#{terrain.pattern_id})"}),
        words((x + 9, y + 13.5), terrain.letters, {"class": "letter", "text-anchor": "middle"}),
        words((x + 52, y + 13.5), shorten(terrain.name, ROW_WIDTH - 4), {"class": "people"}),
    )


# ---- the table


def _table(situation: Situation) -> Element:
    rows = [_row(region, situation) for region in sorted(situation.world.regions, key=lambda it: it.number)]
    headings = ["region", "name", "terrain", "ways", "peasants", "money", "people and guards", "stocks", "structures"]
    numbers = [True, False, False, False, True, True, False, False, False]
    return el("section", {}, el("h2", {}, "Regions"), table(headings, rows, numbers))


def _row(region: Region, situation: Situation) -> list[Child]:
    scene = situation.scenes.get(region.number, NOT_SEEN)
    ways = ", ".join(f"{way} {to}" for way, to in region.exits.items())
    amounts = ["not seen" if it is None else f"{it:,}" for it in (scene.peasants, scene.money)]
    stocks = ", ".join(f"{market.item} {_stock(scene, market.item)}" for market in region.markets)
    people = "; ".join(_people_words(scene, situation.factions))
    structures = "; ".join(map(_structure, scene.structures))
    return [region.number, region.name, region.terrain, ways, *amounts, people, stocks, structures]


def _stock(scene: Scene, item: str) -> str:
    return f"{scene.stocks[item]:,}" if item in scene.stocks else "not seen"


def _people_words(scene: Scene, names: Mapping[int, str]) -> Iterator[str]:
    guards = _guards(scene)
    for faction, count in _people(scene).items():
        yield f"{count:,} of {faction} {names[faction]}{', on guard' if faction in guards else ''}"


def _structure(it: Structure) -> str:
    done = "" if it.done == it.size else f", {it.done:,} of {it.size:,}"
    return f"{it.number} {it.name}, {it.kind}{done}"
