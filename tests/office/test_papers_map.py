"""The map of the whole world: what it takes from reports and from a database file, and what it shows."""

import shutil
import sqlite3
import tempfile
import unittest
import xml.etree.ElementTree as ElementTree
from dataclasses import replace
from pathlib import Path

from office.errors import OfficeError
from office.papers.command import main
from office.papers.command import map as write_map_of
from office.papers.database import from_database
from office.papers.months import read_month
from office.papers.report import parse_report
from office.papers.situation import Situation, from_reports
from office.papers.terrains import Look, drawn_terrains, look_of
from office.papers.world import Terrain, parse_world
from office.papers.worldmap import map_page, map_svg
from tests.office.papers_club import COAST, ROOT, Faction, make_months
from tests.office.test_papers_html import HOSTILE, seen

ISLE = ROOT / "worlds/isle.toml"
SVG = "{http://www.w3.org/2000/svg}"
# The tables that a map needs, as docs/FORMATS.md, "Tables", lists them.
TABLES = """
CREATE TABLE campaign (id INTEGER NOT NULL PRIMARY KEY, format INTEGER NOT NULL, month INTEGER NOT NULL,
 world TEXT NOT NULL) STRICT;
CREATE TABLE faction (number INTEGER NOT NULL PRIMARY KEY, name TEXT NOT NULL, gone INTEGER NOT NULL) STRICT;
CREATE TABLE region (number INTEGER NOT NULL PRIMARY KEY, peasants INTEGER NOT NULL, money INTEGER NOT NULL) STRICT;
CREATE TABLE unit (number INTEGER NOT NULL PRIMARY KEY, faction INTEGER NOT NULL, name TEXT NOT NULL,
 region INTEGER NOT NULL, structure INTEGER NOT NULL, men INTEGER NOT NULL, money INTEGER NOT NULL,
 guard INTEGER NOT NULL) STRICT;
CREATE TABLE structure (number INTEGER NOT NULL PRIMARY KEY, kind INTEGER NOT NULL, name TEXT NOT NULL,
 region INTEGER NOT NULL, done INTEGER NOT NULL, owner INTEGER NOT NULL) STRICT;
CREATE TABLE market (region INTEGER NOT NULL, item INTEGER NOT NULL, stock INTEGER NOT NULL,
 PRIMARY KEY (region, item)) STRICT;
"""
ROWS = """
INSERT INTO faction VALUES (1, 'Avalon', 0), (2, 'Bree', 0);
INSERT INTO unit VALUES (1, 1, 'Guards', 6, 0, 12, 300, 1), (2, 2, 'Crew', 6, 1, 3, 5, 0);
INSERT INTO unit VALUES (4, 2, 'Few', 6, 0, 4, 5, 0);
INSERT INTO structure VALUES (1, 0, 'Sea Lion', 6, 10, 2), (2, 2, 'Lodge', 6, 5, 0);
INSERT INTO market VALUES (6, 0, 40), (6, 4, 20);
"""
SHARED = """\
Region 6 "Port", plain: 390 peasants, 210 money.
Exits: north 2, south 10, east 7, west 5.
Market wood: 40 in stock at 20, 20 wanted at 8.
Structure 1 "Sea Lion", boat, 10 of 10, owner {owner}.
"""


class ClubCase(unittest.TestCase):
    def setUp(self) -> None:
        self.folder = Path(tempfile.mkdtemp())
        self.addCleanup(shutil.rmtree, self.folder)

    def database(self, name: str = "club.db", month: int = 3, form: int = 2) -> Path:
        """A database file whose newest rows are in its log."""
        path = self.folder / name
        made = sqlite3.connect(path)
        made.executescript(TABLES)
        made.execute("INSERT INTO campaign VALUES (1, ?, ?, ?)", (form, month, COAST.read_text()))
        made.executemany("INSERT INTO region VALUES (?, 300, 100)", [(number,) for number in range(1, 21)])
        made.commit()
        made.execute("PRAGMA journal_mode = WAL")
        made.executescript(ROWS)
        made.commit()
        for file in ("", "-wal"):
            shutil.copy(f"{path}{file}", f"{path}.kept{file}")
        made.close()
        for file in ("", "-wal"):
            Path(f"{path}.kept{file}").rename(f"{path}{file}")
        return path


class FromADatabase(ClubCase):
    def test_what_there_is(self) -> None:
        situation = from_database(self.database())
        port = situation.scenes[6]
        self.assertEqual((situation.month, len(situation.scenes)), (3, 20))
        self.assertEqual((port.peasants, port.money), (300, 100))
        self.assertEqual([(it.number, it.people, it.guard, it.inside) for it in port.units],
                         [(1, 12, True, 0), (2, 3, False, 1), (4, 4, False, 0)])
        self.assertEqual([(it.kind, it.ship, it.done, it.size) for it in port.structures],
                         [("boat", True, 10, 10), ("lodge", False, 5, 20)])
        self.assertEqual(dict(port.stocks), {"wood": 40, "iron": 0, "wine": 20, "wool": 0})
        self.assertIn("club.db", situation.source)

    def test_nothing_changes_in_the_folder(self) -> None:
        path = self.database()
        before = {file.name: file.read_bytes() for file in self.folder.iterdir()}
        from_database(path)
        self.assertEqual({file.name: file.read_bytes() for file in self.folder.iterdir()}, before)

    def test_faults(self) -> None:
        (self.folder / "text.db").write_text("x" * 5000)
        (self.folder / "empty.db").touch()
        old = self.database("old.db", form=1)
        cases = (("none.db", "can't be read"), ("text.db", "no database file"), ("empty.db", "no database file"),
                 ("old.db", "upgrade it"))
        for name, words in cases:
            with self.assertRaises(OfficeError) as caught:
                from_database(old.with_name(name))
            self.assertIn(words, caught.exception.text)
            self.assertNotIn("\n", caught.exception.text)


class FromReports(ClubCase):
    def test_reports_are_put_together(self) -> None:
        """Only one of the factions sees who owns the ship, whichever report comes first."""
        make_months(self.folder, [Faction("Avalon", 6, [12], [1]), Faction("Bree", 6, [3], [1])])
        month = read_month(self.folder, 1)
        head = 'Atlantis report, month 1, faction {number} "{name}".\nOrders:\nNone.\n'
        for owners in ((0, 2), (2, 0)):
            first = head.format(number=1, name="Avalon") + SHARED.format(owner=owners[0])
            first += '* Unit 1 "A": 12 men, 1 money, guard.\n'
            second = head.format(number=2, name="Bree") + SHARED.format(owner=owners[1])
            second += '- Unit 1 "A" of faction 1 "Avalon": 12 men, guard.\n* Unit 2 "B": 3 men, 1 money, in 1.\n'
            reports = {1: parse_report(first, month.world), 2: parse_report(second, month.world)}
            situation = from_reports(replace(month, reports=reports))
            self.assertEqual(list(situation.scenes), [6])
            port = situation.scenes[6]
            self.assertEqual([(it.number, it.faction, it.people, it.guard) for it in port.units],
                             [(1, 1, 12, True), (2, 2, 3, False)])
            self.assertEqual([(it.number, it.owner, it.ship) for it in port.structures], [(1, 2, True)])
            self.assertEqual((port.peasants, dict(port.stocks)), (390, {"wood": 40}))


class Drawing(ClubCase):
    def texts(self, situation: Situation) -> list[str]:
        root = ElementTree.fromstring(map_svg(situation))
        return ["".join(it.itertext()) for it in root.iter(f"{SVG}text")]

    def test_region_shows_people_guards_markets_and_structures(self) -> None:
        texts = self.texts(from_database(self.database()))
        self.assertIn("6 Port", texts)
        self.assertIn("\N{BLACK UP-POINTING TRIANGLE} 12 of 1 Avalon", texts)
        self.assertIn("7 of 2 Bree", texts)
        self.assertIn("4 markets, 1 ship, 1 building", texts)
        self.assertIn("300 peasants, 100 money", texts)

    def test_table_of_the_page(self) -> None:
        page = seen(map_page(from_database(self.database()))).text
        self.assertIn("12 of 1 Avalon, on guard; 7 of 2 Bree", page)
        self.assertIn("wood 40, iron 0, wine 20, wool 0", page)
        self.assertIn("1 Sea Lion, boat; 2 Lodge, lodge, 5 of 20", page)

    def test_regions_that_nobody_sees(self) -> None:
        make_months(self.folder, [Faction("Avalon", 6, [12], [1])])
        self.assertEqual(self.texts(from_reports(read_month(self.folder, 1))).count("not seen"), 19)

    def test_terrains_differ_without_colours(self) -> None:
        names = ("sea", "ocean", "hill", "mountain", "plain", "void", "void 2")
        terrains = [Terrain(name, name != "sea", 1, 1, 1, 1, {}) for name in names]
        drawn = drawn_terrains(terrains)
        self.assertEqual(len({it.letters for it in drawn.values()}), len(names))
        self.assertEqual(len({(it.look, it.turn) for it in drawn.values()}), len(names))
        self.assertIs(look_of(Terrain("Loch", False, 1, 1, 1, 1, {})), Look.WATER)
        self.assertIs(look_of(Terrain("Loam", True, 1, 1, 1, 1, {})), Look.OTHER)

    def test_hostile_names(self) -> None:
        path = self.database()
        with sqlite3.connect(path) as changed:
            for text in HOSTILE:
                changed.execute("UPDATE faction SET name = ?", (text.replace("\ud800", ""),))
                changed.execute("UPDATE structure SET name = ?", (text.replace("\ud800", ""),))
                changed.commit()
                situation = from_database(path)
                self.assertTrue(self.texts(situation))
                page = seen(map_page(situation))
                self.assertNotIn("script", page.elements)
                self.assertFalse([key for key, _ in page.attributes if key.startswith("on")])
        changed.close()

    def test_ways_that_cannot_be_drawn_show_where_they_lead(self) -> None:
        """On this island Shore, the region 1, leads back to itself by two of its sides."""
        world = ISLE.read_text().replace("number = 1\n", "number = 1\nnorth = 1\nsouth = 1\n")
        situation = Situation(1, "", parse_world(world, ""), {}, {})
        root = ElementTree.fromstring(map_svg(situation))
        stubs = [it for it in root.iter(f"{SVG}g") if it.get("class") == "stub"]
        self.assertEqual([[text.text for text in it.iter(f"{SVG}text")] for it in stubs], [["1"], ["1"]])
        self.assertEqual([it[0].text for it in stubs], ["south to region 1", "north to region 1"])


class Command(ClubCase):
    def test_takes_the_database_that_has_the_month(self) -> None:
        make_months(self.folder / "months", [Faction("Avalon", 6, [12, 13, 14], [1, 1, 1])])
        self.database("before-3.db", month=2)
        self.database("club.db", month=3)
        out = self.folder / "map.html"
        for month, source in ((1, "From the reports of month 1"), (2, "before-3.db"), (3, "club.db")):
            write_map_of(self.folder, month, out)
            self.assertIn(source, out.read_text())

    def test_command_line(self) -> None:
        out = self.folder / "map.svg"
        self.assertEqual(main(["map", "--db", str(self.database()), "--out", str(out)]), 0)
        self.assertEqual(ElementTree.fromstring(out.read_text()).tag, f"{SVG}svg")


if __name__ == "__main__":
    unittest.main()
