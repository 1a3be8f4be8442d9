#!/usr/bin/env python3
"""Upgrades files of the first format, which the last program of that format made (tests/old/make.sh says how). Before the
upgrade every other command refuses them, and changes no byte. After it the reports and books are those that the old
program printed, and months can be closed. It takes some seconds."""
import gzip
import re
import shutil
import sqlite3
import subprocess
import sys
import tempfile
import unittest
from contextlib import closing
from pathlib import Path

sys.path.insert(0, str(Path(__file__).resolve().parents[2]))

from tests.program.calls import EMPTY_LOG, PROGRAM, SMALL_FILE, TOP, gm  # noqa: E402

OLD = TOP / "tests/old"
ISLE_FILE = TOP / "worlds/isle.toml"
SMALL, ISLE = (path.read_text(encoding="utf-8") for path in (SMALL_FILE, ISLE_FILE))

TRIAL_REPORT = """\
Atlantis report, month 2, faction 1 "Avalon".
Orders:
Unit 1, line 3, TAX: done 10.
Unit 1, line 0, WORK: done 12.
Region 1 "Vale", plain: 1000 peasants, 2490 money.
Exits: none.
* Unit 1 "Wardens of Vale": 1 men, 1014 money, guard.
- Unit 2 "Unit 2" of faction 2 "Bree": 1 men."""
CLUB_REPORT = """\
Atlantis report, month 3, faction 1 "Avalon".
Orders:
Unit 1, line 4, SELL: fault 24 NoMarket.
Unit 1, line 3, BUY: fault 24 NoMarket.
Unit 1, line 0, WORK: done 10.
Unit 3, line 6, WORK: done 40.
Region 3 "Far", forest: 196 peasants, 678 money.
Exits: north 4, west 2.
* Unit 1 "Woodcutters of Far": 1 men, 750 money, guard, 1 wood, lumberjack 1 (30).
* Unit 3 "Unit 3": 4 men, 0 money, lumberjack 1 (120)."""
CLUB_BOOKS = """\
money founding 650
money joining 2000
money income 3888
money wages 110
money recruiting -200
money upkeep -180
money total 6268
people founding 1300
people joining 2
people total 1302
item "wood" made 1
item "wood" stocked 20
item "wood" total 21
item "cart" total 0"""
# What was changed by hand in an old file, and the fault that its upgrade answers.
CHANGES = (
    ("Damaged 1", "UPDATE campaign SET world = 'no world'"),
    ("Damaged 2", "UPDATE campaign SET month = 10000"),
    ("Damaged 11", "UPDATE unit SET money = money + 1 WHERE number = 1"),
    ("Damaged 11", "INSERT INTO books VALUES (14, 0, -1); UPDATE unit SET money = money - 1 WHERE number = 1"),
    ("Damaged 12", "DELETE FROM report WHERE faction = 2"),
    ("Store", "DROP TABLE unit"),
    ("Store", "CREATE TABLE note (words TEXT)"),
    ("Store", "CREATE INDEX of_faction ON unit (faction)"),
    ("Store", "ANALYZE"),
)
# The same where the file is no longer an old one, and every command answers this fault.
NO_LONGER_OLD = (
    ("Damaged 1", "UPDATE campaign SET format = 3"),
    ("Damaged 1", "DELETE FROM campaign"),
    ("NotACampaign", "DROP TABLE campaign"),
)


def market(item: str, price: int, pays: int, limit: int, restock: int) -> str:
    return f'[[region.market]]\nitem = "{item}"\nprice = {price}\npays = {pays}\nlimit = {limit}\nrestock = {restock}\n'


def with_market(world: str, added: str, place: int = 0) -> str:
    """The world with a market after the region of this place in the file, counted from 1, or after each for 0."""
    head, *regions = re.split(r"^(?=\[\[region\]\]$)", world, flags=re.MULTILINE)
    return head + "".join(region + added * (place in (0, at)) for at, region in enumerate(regions, 1))


def old_bytes(name: str) -> bytes:
    """A file of tests/old, unpacked."""
    packed = OLD / f"{name}.gz"
    return gzip.decompress(packed.read_bytes()) if packed.exists() else (OLD / name).read_bytes()


def rows(database: Path) -> list[str]:
    """All that the file alone holds."""
    copy = shutil.copy(database, database.with_suffix(".copy"))
    with closing(sqlite3.connect(copy)) as connection:
        return list(connection.iterdump())


def change(database: Path, statements: str) -> None:
    with closing(sqlite3.connect(database)) as connection:
        connection.executescript(statements)


def select(database: Path, query: str) -> list[tuple[object, ...]]:
    with closing(sqlite3.connect(database)) as connection:
        return connection.execute(query).fetchall()


class Upgrade(unittest.TestCase):
    def setUp(self) -> None:
        folder = tempfile.TemporaryDirectory()
        self.addCleanup(folder.cleanup)
        self.folder = Path(folder.name)
        self.mailing = self.file("mailing", "#ATLANTIS 1\n")
        self.isle = self.file("isle.toml", with_market(ISLE, market("wood", 7, 5, 30, 20), 1))

    def file(self, name: str, text: str) -> Path:
        (self.folder / name).write_text(text, encoding="utf-8")
        return self.folder / name

    def old(self, name: str) -> Path:
        """A copy of an old file."""
        (self.folder / name).write_bytes(old_bytes(name))
        return self.folder / name

    # ---- one call

    def assert_call(self, ending: tuple[int, str, str], database: Path, subcommand: str | Path, *words: str | Path) -> None:
        """The call ends with this status, output and errors, and leaves no log with content."""
        ended = subprocess.run([PROGRAM, subcommand, "--db", database, *words], capture_output=True, text=True)
        self.assertEqual((ended.returncode, ended.stdout, ended.stderr), ending)
        for log in (Path(f"{database}-wal"), Path(f"{database}-journal")):
            self.assertTrue(not log.exists() or log.stat().st_size <= EMPTY_LOG, log)

    def assert_done(self, answer: str, database: Path, *words: str | Path) -> None:
        self.assert_call((0, f"{answer}\n", ""), database, *words)

    def assert_refused(self, error: str, database: Path, *words: str | Path) -> None:
        """All rows stay."""
        before = rows(database)
        self.assert_call((1, "", f"{error}\n"), database, *words)
        self.assertEqual(rows(database), before)

    def assert_unchanged(self, error: str, database: Path, *words: str | Path) -> None:
        """The call is refused, and no byte of the file changes."""
        before = database.read_bytes()
        self.assert_refused(error, database, *words)
        self.assertEqual(database.read_bytes(), before)

    # ---- a file before its upgrade, and after it

    def assert_old(self, database: Path, password: str) -> None:
        """Each of the other commands refuses the file; the first faction has this pass text."""
        commands: tuple[tuple[str | Path, ...], ...] = (
            ("join", "--name", "Cork", "--pass", "pc", "--seed", "0"),
            ("mail", "--faction", "1", "--pass", password, "--file", self.mailing),
            ("close", "--month", "3", "--pass", "gm", "--seed", "0"),
            ("report", "--faction", "1", "--pass", password),
            ("books",),
            ("serve", "--port", "0", "--count", "0", "--seed", "0"),
        )
        for words in commands:
            with self.subTest(command=words[0]):
                self.assert_unchanged("fault: OldFormat", database, *words)

    def assert_upgraded(self, database: Path, world: Path, markets: int, passwords: tuple[str, ...]) -> None:
        """The file is upgraded once. Its reports and books are those that were printed of the old file."""
        self.assert_done(f"upgraded, {markets} markets", database, "upgrade", "--world", world)
        reports = (gm("report", "--db", database, "--faction", str(faction), "--pass", password)
                   for faction, password in enumerate(passwords, 1))
        self.assertEqual("".join(reports), old_bytes(f"{database.stem}.reports").decode())
        self.assertEqual(gm("books", "--db", database), old_bytes(f"{database.stem}.books").decode())
        self.assert_refused("fault: NotOld", database, "upgrade", "--world", world)
        self.assertEqual(select(database, "PRAGMA integrity_check"), [("ok",)])
        self.assertEqual(select(database, "SELECT format FROM campaign"), [(2,)])

    # ---- the files

    def test_a_world_without_an_item(self) -> None:
        database = self.old("trial.db")
        self.assert_old(database, "pw")
        for error, world in (("world: 1 NotToml", "a = = b\n"),
                             ("world: 2 Missing rules.growth", SMALL.replace("\ngrowth = 0\n", "\n")),
                             ("fault: Differs", SMALL.replace("\ngrowth = 0\n", "\ngrowth = 1\n")),
                             ("fault: Differs", ISLE)):
            self.assert_unchanged(error, database, "upgrade", "--world", self.file("other.toml", world))
        self.assert_unchanged("file: cannot read", database, "upgrade", "--world", self.folder / "no.toml")
        self.assert_upgraded(database, SMALL_FILE, 0, ("pw", "pb"))
        self.assert_done("month 2 closed", database, "close", "--month", "2", "--pass", "gm", "--seed", "0")
        self.assert_done(TRIAL_REPORT, database, "report", "--faction", "1", "--pass", "pw")

    def test_kept_mail_has_orders_that_came_with_the_upgrade(self) -> None:
        """The next closing carries them out."""
        database = self.old("club.db")
        self.assert_old(database, "apple")
        self.assert_unchanged("fault: Differs", database, "upgrade", "--world", SMALL_FILE)
        self.assert_upgraded(database, self.isle, 1, ("apple", "pony"))
        self.assert_done("month 3 closed", database, "close", "--month", "3", "--pass", "moderator", "--seed", "3")
        self.assert_done(CLUB_REPORT, database, "report", "--faction", "1", "--pass", "apple")
        self.assert_done(CLUB_BOOKS, database, "books")
        self.assertEqual(select(database, "SELECT * FROM market"), [(1, 0, 20)])
        self.assert_done("faction 3, unit 4", database, "join", "--name", "Cork", "--pass", "pc", "--seed", "3")

    def test_files_that_were_changed_by_hand(self) -> None:
        """Each is an old one to all commands but the upgrade."""
        for fault, statements in CHANGES:
            with self.subTest(statements=statements):
                database = self.old("club.db")
                change(database, statements)
                self.assert_refused(f"fault: {fault}", database, "upgrade", "--world", self.isle)
                self.assert_refused("fault: OldFormat", database, "report", "--faction", "1", "--pass", "apple")

    def test_files_that_are_no_longer_old(self) -> None:
        for fault, statements in NO_LONGER_OLD:
            with self.subTest(statements=statements):
                database = self.old("club.db")
                change(database, statements)
                self.assert_refused(f"fault: {fault}", database, "upgrade", "--world", self.isle)
                self.assert_refused(f"fault: {fault}", database, "report", "--faction", "1", "--pass", "apple")

    def test_a_file_that_sqlite3_packed(self) -> None:
        database = self.old("club.db")
        change(database, "VACUUM; REINDEX")
        self.assert_done("upgraded, 1 markets", database, "upgrade", "--world", self.isle)

    def test_many_units_sell(self) -> None:
        """Each that has wood sells a piece for 4, and to each of the 250 stocks come 3."""
        database = self.old("crowd.db")
        self.assert_old(database, "pw")
        ((world,),) = select(database, "SELECT world FROM campaign")
        markets = self.file("markets.toml", with_market(str(world), market("wood", 9, 4, 1000, 3)))
        self.assert_unchanged("fault: Differs", database, "upgrade", "--world", self.isle)
        self.assert_upgraded(database, markets, 250, ("pw", "pw"))
        units = select(database, "SELECT number FROM unit WHERE faction = 1")
        mailing = self.file("mailing", "#ATLANTIS 1\n" + "".join(f"UNIT {unit}\nSELL 1 wood\n" for (unit,) in units))
        sellers = len(select(database, "SELECT 1 FROM unit JOIN has ON unit = number WHERE faction = 1 AND sort = 0 AND thing = 0"))
        self.assertGreater(sellers, 50)
        self.assert_done(f"{len(units)} orders, 0 faults", database, "mail", "--faction", "1", "--pass", "pw", "--file", mailing)
        self.assert_done("month 2 closed", database, "close", "--month", "2", "--pass", "gm", "--seed", "1")
        self.assertEqual(select(database, "SELECT sum(stock) FROM market"), [(sellers + 750,)])
        books = gm("books", "--db", database).splitlines()
        self.assertLessEqual({f"money sold {4 * sellers}", 'item "wood" stocked 750'}, {*books})
        report = gm("report", "--db", database, "--faction", "1", "--pass", "pw")
        self.assertEqual(len(re.findall(r"^Unit \d+, line \d+, SELL: done 1\.$", report, re.MULTILINE)), sellers)


if __name__ == "__main__":
    unittest.main()
