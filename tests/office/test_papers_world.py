"""Reading world files and making the page's world. Expected values are those of docs/PLAYER.md and docs/FORMATS.md."""

import json
import tempfile
import unittest
from pathlib import Path

from office.errors import OfficeError
from office.papers.command import main
from office.papers.pageworld import page_world
from office.papers.world import parse_world, read_world

ROOT = Path(__file__).resolve().parents[2]
RULES = """
[rules]
maintenance = 10
tax_per_man = 10
recruit_price = 50
recruit_fraction = 4
growth = 0
income = 1
start_money = 1000
man_weight = 10
man_carry = 5
"""
REST = """
[[terrain]]
name = "plain"
land = true
wage = 12
places = 100
money_limit = 5000
peasant_limit = 2000
[[item]]
name = "Wood"
weight = 5
carry = 0
[[region]]
number = 7
name = "Shore"
terrain = "PLAIN"
peasants = 10
money = 20
"""


class Reading(unittest.TestCase):
    def test_values_of_the_island(self) -> None:
        world = read_world(ROOT / "worlds/isle.toml")
        self.assertEqual(world.name, "isle")
        self.assertEqual((world.rules.recruit_price, world.rules.sailing), (50, "sailing"))
        forest = world.terrain("forest")
        self.assertEqual((forest.land, forest.wage, forest.places, dict(forest.output)), (True, 10, 50, {"wood": 20}))
        cart = world.items[1]
        self.assertEqual((cart.weight, cart.carry, cart.skill), (50, 100, "carpentry"))
        self.assertEqual((cart.raw, cart.raw_count, cart.level), ("wood", 5, 1))
        boat, lodge = world.kinds
        self.assertEqual((boat.capacity, boat.crew, boat.helps), (200, 2, None))
        self.assertEqual((lodge.capacity, lodge.crew, lodge.helps), (0, 0, "lumberjack"))
        self.assertEqual(dict(world.regions[2].exits), {"north": 4, "west": 2})

    def test_markets_of_the_coast(self) -> None:
        port = read_world(ROOT / "worlds/coast.toml").regions[5]
        self.assertEqual([market.item for market in port.markets], ["wood", "iron", "wine", "wool"])
        wood = port.markets[0]
        self.assertEqual((wood.price, wood.pays, wood.limit, wood.restock), (20, 8, 60, 20))

    def test_defaults(self) -> None:
        world = parse_world(RULES + REST, "")
        self.assertIsNone(world.rules.stealth)
        wood = world.items[0]
        self.assertEqual((wood.skill, wood.level, wood.raw, wood.raw_count), (None, 1, None, 1))
        self.assertEqual(dict(world.terrains[0].output), {})
        self.assertEqual((world.regions[0].exits, world.regions[0].markets), ({}, ()))

    def test_names_have_the_spelling_of_the_world(self) -> None:
        market = '[[region.market]]\nitem = "wOOD"\nprice = 1\npays = 1\nlimit = 0\nrestock = 0\n'
        world = parse_world(RULES + REST + market, "")
        self.assertEqual(world.regions[0].terrain, "plain")
        self.assertEqual(world.regions[0].markets[0].item, "Wood")

    def test_name_is_that_of_the_file(self) -> None:
        with tempfile.TemporaryDirectory() as folder:
            for file, name in (("coast.toml", "coast"), ("world.toml", "")):
                (Path(folder) / file).write_text(RULES + REST)
                self.assertEqual(read_world(Path(folder) / file).name, name)

    def test_byte_order_mark_is_skipped(self) -> None:
        with tempfile.TemporaryDirectory() as folder:
            path = Path(folder) / "marked.toml"
            path.write_text("\ufeff" + RULES + REST, encoding="utf-8")
            self.assertEqual(read_world(path).regions[0].number, 7)


class Faults(unittest.TestCase):
    def assert_fault(self, text: str, words: str) -> None:
        with self.assertRaises(OfficeError) as caught:
            parse_world(text, "", "w.toml")
        self.assertIn(words, caught.exception.text)
        self.assertNotIn("\n", caught.exception.text)

    def test_faults_name_their_path(self) -> None:
        whole = RULES + REST
        self.assert_fault(whole.replace("growth = 0", ""), "w.toml: rules.growth is missing")
        self.assert_fault(whole.replace("growth = 0", "growth = true"), "rules.growth is no whole number")
        self.assert_fault(whole.replace("land = true", "land = 1"), "terrain[0].land is neither true nor false")
        self.assert_fault(whole.replace("weight = 5", 'weight = 5\nskill = "x"'), "item[0].skill names no skill")
        self.assert_fault(whole + "north = 9\n", "region[0].north is 9")
        self.assert_fault(whole + "[[region.market]]\nitem = 3\n", "region[0].market[0].item is no text")
        self.assert_fault("x = ", "no TOML")
        self.assert_fault(RULES, "region is missing")

    def test_two_equal_names_and_numbers(self) -> None:
        item = '[[item]]\nname = "WOOD"\nweight = 1\ncarry = 0\n'
        self.assert_fault(RULES + REST + item, "item[1].name is the name of another item too")
        region = REST[REST.index("[[region]]"):]
        self.assert_fault(RULES + REST + region, "region[1].number is the number of another region too")

    def test_file_that_is_not_there(self) -> None:
        with self.assertRaises(OfficeError) as caught:
            read_world(Path("/nonexistent/world.toml"))
        self.assertIn("can't be read", caught.exception.text)


class PageWorld(unittest.TestCase):
    def test_keys_of_each_table(self) -> None:
        page = json.loads(page_world(read_world(ROOT / "worlds/coast.toml")))
        self.assertEqual((page["format"], page["name"]), (1, "coast"))
        self.assertEqual(
            set(page), {"format", "name", "rules", "terrain", "item", "skill", "kind", "region", "market"}
        )
        self.assertEqual(page["rules"]["stealth"], "stealth")
        self.assertEqual(page["terrain"][1]["output"], {"wood": 60})
        self.assertEqual(page["item"][5], {"name": "wool", "weight": 10, "carry": 0, "level": 1, "raw_count": 1})
        self.assertEqual(page["skill"][0], {"name": "lumberjack", "fee": 0})
        lodge = {"name": "lodge", "ship": False, "material": "wood", "size": 20, "skill": "carpentry", "level": 1}
        self.assertEqual(page["kind"][2], {**lodge, "capacity": 0, "crew": 0, "helps": "lumberjack"})
        self.assertEqual(page["region"][0], {"number": 1, "name": "Fell", "terrain": "mountain", "south": 5, "east": 2})
        fell = {"region": 1, "item": "iron", "price": 25, "pays": 18, "limit": 960, "restock": 0}
        self.assertEqual(page["market"][0], fell)

    def test_missing_skills_and_regions(self) -> None:
        page = json.loads(page_world(parse_world(RULES + REST, "w"), regions=False))
        self.assertNotIn("region", page)
        self.assertNotIn("market", page)
        self.assertNotIn("stealth", page["rules"])

    def test_command_writes_the_file(self) -> None:
        with tempfile.TemporaryDirectory() as folder:
            out = Path(folder) / "world.json"
            self.assertEqual(main(["page-world", str(ROOT / "worlds/isle.toml"), str(out)]), 0)
            self.assertEqual(json.loads(out.read_text())["region"][3]["south"], 3)
            self.assertEqual([path.name for path in Path(folder).iterdir()], ["world.json"])


if __name__ == "__main__":
    unittest.main()
