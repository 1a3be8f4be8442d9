"""The layout of the map, compared with web/map_layout.js, which node runs."""

import json
import random
import shutil
import subprocess
import tempfile
import unittest
from pathlib import Path
from typing import Any

from office.papers.layout import Exits, Layout, Way, lay_out
from office.papers.world import OPPOSITE, WAYS, read_world

ROOT = Path(__file__).resolve().parents[2]
SCRIPT = """
import { readFileSync } from 'node:fs';
import { gather, layOut } from './map_layout.js';
const answers = JSON.parse(readFileSync(0, 'utf8')).map((world) => {
  const regions = world.map(([number, exits]) => ({ number, exits: Object.fromEntries(exits) }));
  const { places, ways, crooked, width, height } = layOut(gather([{ month: 1, regions }]));
  return { places: [...places].map(([number, { x, y }]) => [number, x, y]), ways, crooked, width, height };
});
console.log(JSON.stringify(answers));
"""


def exits_of(name: str) -> Exits:
    return {region.number: region.exits for region in read_world(ROOT / f"worlds/{name}.toml").regions}


def grid(width: int, height: int, wraps: bool) -> Exits:
    """A rectangle, whose sides are joined where it wraps."""
    exits: dict[int, dict[str, int]] = {}
    for y in range(height):
        for x in range(width):
            near = {"north": (x, y - 1), "south": (x, y + 1), "east": (x + 1, y), "west": (x - 1, y)}
            inside = {way: at for way, at in near.items() if wraps or 0 <= at[0] < width and 0 <= at[1] < height}
            exits[1 + y * width + x] = {way: 1 + b % height * width + a % width for way, (a, b) in inside.items()}
    return exits


def scattered(dice: random.Random) -> Exits:
    """Regions with some ways between any of them, so that places clash and parts are apart. Some lead to themselves."""
    numbers = dice.sample(range(1, 99999), dice.randint(1, 40))
    exits: dict[int, dict[str, int]] = {number: {} for number in numbers}
    for _ in range(dice.randint(0, 3 * len(numbers))):
        start, to, way = dice.choice(numbers), dice.choice(numbers), dice.choice(WAYS)
        if way not in exits[start] and OPPOSITE[way] not in exits[to]:
            exits[start][way] = to
            exits[to][OPPOSITE[way]] = start
    return {number: {way: there[way] for way in WAYS if way in there} for number, there in exits.items()}


@unittest.skipUnless(shutil.which("node"), "node is missing: apt-get install nodejs")
class SameAsThePage(unittest.TestCase):
    def answers(self, worlds: list[Exits]) -> list[Layout]:
        asked = [[[number, list(exits.items())] for number, exits in world.items()] for world in worlds]
        with tempfile.TemporaryDirectory() as folder:
            shutil.copy(ROOT / "web/map_layout.js", folder)
            (Path(folder) / "package.json").write_text('{"type":"module"}')
            (Path(folder) / "ask.js").write_text(SCRIPT)
            ran = subprocess.run(["node", "ask.js"], cwd=folder, input=json.dumps(asked), text=True,
                                 capture_output=True, timeout=60, check=True)
        return [self.layout(answer) for answer in json.loads(ran.stdout)]

    def layout(self, answer: Any) -> Layout:
        places = {number: (x, y) for number, x, y in answer["places"]}
        ways, crooked = (tuple(Way(way["from"], way["way"], way["to"]) for way in answer[key])
                         for key in ("ways", "crooked"))
        return Layout(places, ways, crooked, answer["width"], answer["height"])

    def test_worlds(self) -> None:
        dice = random.Random(5)
        worlds = [exits_of(name) for name in ("coast", "isle", "small")]
        worlds += [grid(width, height, wraps) for width, height in ((1, 1), (3, 2), (7, 5)) for wraps in (False, True)]
        worlds += [scattered(dice) for _ in range(200)]
        worlds += [{number: {} for number in range(1, count)} for count in (2, 30, 200)]
        for world, expected in zip(worlds, self.answers(worlds)):
            self.assertEqual(lay_out(world), expected)


class Coast(unittest.TestCase):
    def test_places_are_those_of_the_map_in_the_file(self) -> None:
        """The rows of the map at the head of worlds/coast.toml."""
        rows = ((1, 2, 3, 4, 13), (5, 6, 7, 8, 14), (9, 10, 11, 12, 15), (16, 17, 18, 19, 20))
        layout = lay_out(exits_of("coast"))
        expected = {number: (x, y) for y, row in enumerate(rows) for x, number in enumerate(row)}
        self.assertEqual(dict(layout.places), expected)
        self.assertEqual((layout.width, layout.height, layout.crooked), (5, 4, ()))
        self.assertEqual(len(layout.ways), 16 + 15)

    def test_clash_and_loop(self) -> None:
        layout = lay_out({1: {"east": 1, "west": 1}, 2: {}})
        self.assertEqual(layout.crooked, (Way(1, "east", 1),))
        self.assertEqual(dict(layout.places), {1: (0, 0), 2: (2, 0)})


if __name__ == "__main__":
    unittest.main()
