"""Finds a place on the map for each region by walking its exits. It does so as web/map_layout.js does, so that the map
of the whole world and the players' map in the browser show regions in the same places."""

import math
from collections.abc import Mapping, Sequence
from dataclasses import dataclass

from office.papers.world import OPPOSITE

STEPS = {"north": (0, -1), "south": (0, 1), "east": (1, 0), "west": (-1, 0)}
LEAST_WIDTH = 5

Exits = Mapping[int, Mapping[str, int]]
Place = tuple[int, int]


@dataclass(frozen=True)
class Way:
    """The exit `way` of region `start`, which leads to region `to`. A way of both directions is listed once."""

    start: int
    way: str
    to: int


@dataclass(frozen=True)
class Layout:
    """Columns are counted from the west and rows from the north, from 0. Ways are drawn between neighbouring places,
    and crooked ones can't be."""

    places: Mapping[int, Place]
    ways: tuple[Way, ...]
    crooked: tuple[Way, ...]
    width: int
    height: int


def lay_out(exits: Exits) -> Layout:
    """The layout of regions that have these exits. Each exit leads to one of the regions."""
    parts: list[dict[int, Place]] = []
    part_of: dict[int, int] = {}
    for number in sorted(exits):
        if number not in part_of:
            part = _walk(number, exits, part_of)
            part_of.update(dict.fromkeys(part, len(parts)))
            parts.append(part)
    places, width, height = _pack(parts)
    ways = [Way(start, way, to) for start, there in exits.items() for way, to in there.items()
            if _is_first(exits, start, way, to)]
    straight = [_is_straight(way, parts, part_of) for way in ways]
    drawn = tuple(way for way, is_straight in zip(ways, straight) if is_straight)
    crooked = tuple(way for way, is_straight in zip(ways, straight) if not is_straight)
    return Layout(places, drawn, crooked, width, height)


def _walk(start: int, exits: Exits, placed: Mapping[int, int]) -> dict[int, Place]:
    """The part of the map that is reached from a region. A region whose place is taken is left for a later part."""
    part = {start: (0, 0)}
    taken = {(0, 0)}
    queue = [start]
    for number in queue:
        for way, to in exits[number].items():
            place = (part[number][0] + STEPS[way][0], part[number][1] + STEPS[way][1])
            if to not in placed and to not in part and place not in taken:
                part[to] = place
                taken.add(place)
                queue.append(to)
    return part


@dataclass(frozen=True)
class _Box:
    part: Mapping[int, Place]
    left: int
    top: int
    width: int
    height: int


def _box(part: Mapping[int, Place]) -> _Box:
    columns = [x for x, _ in part.values()]
    rows = [y for _, y in part.values()]
    left, top = min(columns), min(rows)
    return _Box(part, left, top, max(columns) - left + 1, max(rows) - top + 1)


def _pack(parts: Sequence[Mapping[int, Place]]) -> tuple[dict[int, Place], int, int]:
    """Puts the parts beside and below one another, with a free column or row between. Returns the whole size too."""
    boxes = [_box(part) for part in parts]
    area = sum((box.width + 1) * (box.height + 1) for box in boxes)
    most = max([LEAST_WIDTH, math.ceil(math.sqrt(area)), *(box.width for box in boxes)])
    places: dict[int, Place] = {}
    left, top, width, height = 0, 0, 0, 0
    for box in boxes:
        if left > 0 and left + box.width > most:
            left, top, height = 0, top + height + 1, 0
        for number, (x, y) in box.part.items():
            places[number] = (left + x - box.left, top + y - box.top)
        width, height = max(width, left + box.width), max(height, box.height)
        left += box.width + 1
    return places, width, top + height


def _is_first(exits: Exits, start: int, way: str, to: int) -> bool:
    """Whether this is the exit by which a way of both directions is listed."""
    return exits[to].get(OPPOSITE[way]) != start or way in ("south", "east")


def _is_straight(way: Way, parts: Sequence[Mapping[int, Place]], part_of: Mapping[int, int]) -> bool:
    part = parts[part_of[way.start]]
    if way.to not in part:
        return False
    (x, y), (dx, dy) = part[way.start], STEPS[way.way]
    return part[way.to] == (x + dx, y + dy)
