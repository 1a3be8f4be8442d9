"""How terrains are told apart on the map: by colour, by a pattern and by a letter of their own."""

import re
from collections.abc import Sequence
from dataclasses import dataclass
from enum import Enum

from office.papers.html import Element, el
from office.papers.svg import short
from office.papers.world import Terrain

TURNS = (0, 45, 90, 135)


class Look(Enum):
    """The looks of terrains, by their names, as the map of the page in the browser has them: with the pattern, and the
    side of the square in which it repeats."""

    WATER = ("water", "ocean|sea|water|lake|river", "M0 4q2.5-3 5 0t5 0", 10)
    FOREST = ("forest", "forest|wood|jungle", "M5 1v7M2 5l3-4 3 4", 10)
    MOUNTAIN = ("mountain", "mountain|hill", "M0 9l4-7 4 7", 9)
    PLAIN = ("plain", "plain|field|grass|meadow", "M2 3h2M7 8h2", 11)
    SWAMP = ("swamp", "swamp|marsh", "M1 3h7M4 7h7", 11)
    DESERT = ("desert", "desert|sand", "M2 2v.1M6 6v.1M2 6v.1M6 2v.1", 8)
    OTHER = ("other", "", "M0 8l8-8", 8)

    def __init__(self, label: str, names: str, pattern: str, side: int) -> None:
        self.label, self.names, self.pattern, self.side = label, names, pattern, side


@dataclass(frozen=True)
class Drawn:
    """A terrain with its look. Terrains of one look have patterns that are turned differently."""

    place: int
    name: str
    letters: str
    look: Look
    turn: int

    @property
    def pattern_id(self) -> str:
        """What `fill` names the pattern by."""
        return f"pattern{self.place}"


def drawn_terrains(terrains: Sequence[Terrain]) -> dict[str, Drawn]:
    """How each terrain is drawn, by its name."""
    drawn: dict[str, Drawn] = {}
    for place, terrain in enumerate(terrains):
        look = look_of(terrain)
        turn = TURNS[sum(it.look is look for it in drawn.values()) % len(TURNS)]
        letters = _letters(terrain.name, {it.letters for it in drawn.values()}, place)
        drawn[terrain.name] = Drawn(place, terrain.name, letters, look, turn)
    return drawn


def look_of(terrain: Terrain) -> Look:
    """The first look whose names fit the terrain's name. Water of another name looks like water."""
    named = (look for look in Look if look.names and re.search(look.names, terrain.name, re.IGNORECASE))
    return next(named, Look.OTHER if terrain.land else Look.WATER)


def _letters(name: str, taken: set[str], place: int) -> str:
    """A letter of the name that no terrain before has, or else the terrain's number in the world file."""
    free = (letter for letter in name.upper() if letter.isalpha() and letter not in taken)
    return next(free, str(place + 1))


def pattern(drawn: Drawn) -> Element:
    """The pattern, as an element of `defs`."""
    side = short(drawn.look.side)
    box = {"id": drawn.pattern_id, "width": side, "height": side, "patternUnits": "userSpaceOnUse"}
    turned = {"patternTransform": f"rotate({drawn.turn})"}
    return el("pattern", {**box, **turned}, el("path", {"class": "hatch", "d": drawn.look.pattern}))
