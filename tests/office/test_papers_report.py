"""Reading reports. Most of the texts are those that docs/TUTORIAL.md shows, as the program printed them."""

import unittest
from pathlib import Path

from office.errors import OfficeError
from office.papers.report import Event, FaultyLine, KnownSkill, Outcome, Report, SeenMarket, SeenStructure, parse_report
from office.papers.world import World, parse_world, read_world

ROOT = Path(__file__).resolve().parents[2]
THIRD_MONTH = """\
Atlantis report, month 3, faction 1 "Avalon".
Orders:
Line 6: 2 UnknownOrder.
Unit 1, line 9, FORM: done 4.
Unit 1, line 7, TAX: fault 12 NotGuarding.
Unit 1, line 0, WORK: done 50.
Unit 1: 2 starved.
Region 3 "Far", forest: 186 peasants, 402 money.
Exits: north 4, west 2.
Structure 1 "Ship 1", boat, 5 of 10, owner 1.
* Unit 1 "Guards of Far": 5 men, 40 money, guard, in 1, 3 wood, shipbuilding 1 (150).
- Unit 2 "Unit 2" of faction 2 "Bree": 1 men.
* Unit 3 "Woodcutters": 8 men, 20 money, guard, 8 wood, lumberjack 1 (240).
* Unit 4 "Unit 4": 2 men, 20 money, sailing 1 (60).
"""
ODD = """
[[terrain]]
name = "dry: 5 peasants, 3 money."
land = true
wage = 1
places = 1
money_limit = 1
peasant_limit = 1
[[terrain]]
name = "dry"
land = true
wage = 1
places = 1
money_limit = 1
peasant_limit = 1
[[item]]
name = "b"
weight = 1
carry = 1
[[item]]
name = "guard"
weight = 1
carry = 1
[[item]]
name = "a"
weight = 1
carry = 1
[[item]]
name = "a, 5 b"
weight = 1
carry = 1
[[item]]
name = "swim 1 (30)"
weight = 1
carry = 1
[[skill]]
name = "in 3"
fee = 1
[[skill]]
name = "guard, in 3"
fee = 1
[[kind]]
name = "hut, 1 of 2, owner 3."
ship = false
material = "a"
size = 9
skill = "in 3"
level = 1
[[region]]
number = 1
name = "Here"
terrain = "dry"
peasants = 1
money = 1
[rules]
maintenance = 1
tax_per_man = 1
recruit_price = 1
recruit_fraction = 1
growth = 1
income = 1
start_money = 1
man_weight = 1
man_carry = 1
"""
HEAD = 'Atlantis report, month 1, faction 1 "Avalon".\nOrders:\nNone.\n'


def isle(text: str) -> Report:
    return parse_report(text, read_world(ROOT / "worlds/isle.toml"))


class OrdinaryReports(unittest.TestCase):
    def test_orders(self) -> None:
        report = isle(THIRD_MONTH)
        self.assertEqual((report.month, report.faction, report.name), (3, 1, "Avalon"))
        self.assertEqual(report.faulty_lines, (FaultyLine(6, 2, "UnknownOrder"),))
        expected = (
            Event(1, 9, "FORM", Outcome.DONE, 4),
            Event(1, 7, "TAX", Outcome.FAULT, 12, "NotGuarding"),
            Event(1, 0, "WORK", Outcome.DONE, 50),
            Event(1, 0, "", Outcome.STARVED, 2),
        )
        self.assertEqual(report.events, expected)

    def test_region(self) -> None:
        report = isle(THIRD_MONTH)
        self.assertEqual(len(report.regions), 1)
        far = report.regions[0]
        self.assertEqual((far.number, far.name, far.terrain, far.peasants, far.money), (3, "Far", "forest", 186, 402))
        self.assertEqual(dict(far.exits), {"north": 4, "west": 2})
        self.assertEqual(far.structures, (SeenStructure(1, "Ship 1", "boat", 5, 10, 1),))

    def test_units(self) -> None:
        report = isle(THIRD_MONTH)
        guards, other, cutters, sailors = report.regions[0].units
        self.assertTrue(guards.own and guards.guard)
        self.assertEqual((guards.inside, guards.items), (1, (("wood", 3),)))
        self.assertEqual(guards.skills, (KnownSkill("shipbuilding", 1, 150),))
        self.assertEqual((other.own, other.faction, other.faction_name, other.men), (False, 2, "Bree", 1))
        self.assertEqual((cutters.money, cutters.inside), (20, 0))
        self.assertEqual((sailors.guard, sailors.skills), (False, (KnownSkill("sailing", 1, 60),)))
        self.assertEqual((report.men, report.money), (15, 80))

    def test_market(self) -> None:
        region = 'Region 6 "Port", plain: 1 peasants, 2 money.\nExits: none.\n'
        text = region + "Market wood: 0 in stock at 20, 60 wanted at 8.\n"
        report = parse_report(HEAD + text, read_world(ROOT / "worlds/coast.toml"))
        self.assertEqual(report.regions[0].markets, (SeenMarket("wood", 0, 20, 60, 8),))
        self.assertEqual(dict(report.regions[0].exits), {})

    def test_report_without_regions(self) -> None:
        report = isle(HEAD)
        self.assertEqual((report.regions, report.events, report.men), ((), (), 0))

    def test_every_report_of_the_guide(self) -> None:
        """Each block that a page for players shows as a report is read without a fault."""
        worlds = [read_world(ROOT / f"worlds/{name}.toml") for name in ("isle", "coast")]
        pages = [(ROOT / f"docs/{name}.md").read_text() for name in ("QUICKSTART", "TUTORIAL", "PLAYER")]
        blocks = [block for page in pages for block in page.split("```report ")[1:]]
        self.assertGreater(len(blocks), 5)
        for block in blocks:
            text = block.partition("\n")[2].partition("```")[0]
            self.assertTrue(any(is_read(text, world) for world in worlds), text)


def is_read(text: str, world: World) -> bool:
    try:
        parse_report(text, world)
    except OfficeError:
        return False
    return True


class OddNames(unittest.TestCase):
    def region(self, *lines: str) -> Report:
        head = 'Region 1 "Here", dry: 5 peasants, 3 money.: 7 peasants, 8 money.\n'
        text = HEAD + head + "Exits: none.\n" + "".join(f"{line}\n" for line in lines)
        return parse_report(text, parse_world(ODD, ""))

    def unit(self, rest: str) -> tuple[object, ...]:
        unit = self.region(f'* Unit 1 "x": 1 men, 2 money{rest}.').regions[0].units[0]
        return (unit.guard, unit.inside, unit.items, tuple((it.name, it.level, it.days) for it in unit.skills))

    def test_terrain_that_looks_like_the_end_of_its_line(self) -> None:
        region = self.region().regions[0]
        self.assertEqual((region.terrain, region.peasants, region.money), ("dry: 5 peasants, 3 money.", 7, 8))

    def test_kind_that_looks_like_the_end_of_its_line(self) -> None:
        structure = self.region('Structure 1 "Hut", hut, 1 of 2, owner 3., 4 of 9, owner 0.').regions[0].structures[0]
        self.assertEqual((structure.kind, structure.done, structure.owner), ("hut, 1 of 2, owner 3.", 4, 0))

    def test_items_and_skills_that_look_like_other_parts(self) -> None:
        self.assertEqual(self.unit(""), (False, 0, (), ()))
        self.assertEqual(self.unit(", guard, in 3"), (True, 3, (), ()))
        self.assertEqual(self.unit(", 5 guard"), (False, 0, (("guard", 5),), ()))
        # The world has b before a, so it can't come after a here.
        self.assertEqual(self.unit(", 3 a, 5 b"), (False, 0, (("a, 5 b", 3),), ()))
        self.assertEqual(self.unit(", 5 b, 3 a"), (False, 0, (("b", 5), ("a", 3)), ()))
        self.assertEqual(self.unit(", 3 a, 4 a, 5 b"), (False, 0, (("a", 3), ("a, 5 b", 4)), ()))
        self.assertEqual(self.unit(", 2 swim 1 (30)"), (False, 0, (("swim 1 (30)", 2),), ()))
        self.assertEqual(self.unit(", in 3 1 (30)"), (False, 0, (), (("in 3", 1, 30),)))
        self.assertEqual(self.unit(", in 3 1 (30), guard, in 3 1 (30)"),
                         (False, 0, (), (("in 3", 1, 30), ("guard, in 3", 1, 30))))
        self.assertEqual(self.unit(", guard, in 7, guard, in 3 1 (30)"), (True, 7, (), (("guard, in 3", 1, 30),)))
        self.assertEqual(self.unit(", in 7, in 3 1 (30), guard, in 3 2 (90)"),
                         (False, 7, (), (("in 3", 1, 30), ("guard, in 3", 2, 90))))

    def test_names_of_players(self) -> None:
        unit = self.region('- Unit 1 "a of faction 9: 3 men" of faction 2 ": 5 men.": 1 men.').regions[0].units[0]
        self.assertEqual((unit.name, unit.faction), ("a of faction 9: 3 men", 2))
        self.assertEqual((unit.faction_name, unit.men), (": 5 men.", 1))


class Faults(unittest.TestCase):
    def assert_fault(self, text: str, words: str) -> None:
        with self.assertRaises(OfficeError) as caught:
            isle(text)
        self.assertIn(words, caught.exception.text)

    def test_faults_name_their_line(self) -> None:
        self.assert_fault("", "line 1 isn't")
        self.assert_fault("<html>", "line 1 isn't")
        self.assert_fault(THIRD_MONTH.replace("3 wood", "3 gold"), "line 11 is no line")
        self.assert_fault(THIRD_MONTH.replace("forest", "moon"), "line 8 is no line")
        self.assert_fault(THIRD_MONTH.replace("boat", "raft"), "line 10 is no line")
        self.assert_fault(HEAD + "Exits: north 4.\n", "line 4 is no line")
        self.assert_fault(HEAD + "Unit 1: " + "9" * 5000 + " starved.\n", "line 4 is no line")
        self.assert_fault(THIRD_MONTH + "Unit 1: 1 starved.\n", "line 15 is no line")


if __name__ == "__main__":
    unittest.main()
