"""Replays: the year of closing_year.py as it was kept, forged one file at a time. The replay has to name that file."""

from __future__ import annotations

import os
import re
import shutil
import unittest
from collections.abc import Callable
from pathlib import Path

from office.closing.replay import MOST_DIFFERENCES, replay, show_differences
from office.club.club import seed_checksum
from office.errors import OfficeError
from tests.office.closing_tools import SEED, TemporaryFolder, needs_program, say_nothing
from tests.office.closing_year import BREE, HAVENS, Year

UNLIKE = "is not what the replay gives. Lines with < were kept, lines with > are from the replay:"
UNLISTED = "should not be there, by factions.txt"


def edit(path: Path, pattern: str, replacement: str) -> None:
    """Replaces each match, of which there is at least one."""
    text, count = re.subn(pattern, replacement, path.read_text(), flags=re.MULTILINE)
    assert count, f"{path} has no {pattern}"
    path.write_text(text)


def edit_all(folder: Path, name: str, pattern: str, replacement: str, first: int) -> None:
    for month in range(first, 13):
        edit(folder / str(month) / name, pattern, replacement)


def silence(folder: Path, faction: int) -> None:
    """The mailing is lost, and the list says that there was none."""
    (folder / f"mail-{faction}.txt").unlink()
    edit(folder / "factions.txt", f"^{faction} mail", f"{faction} silent")


def forget(folder: Path, faction: int) -> None:
    """The faction, which was the last to join, is not in the month."""
    (folder / f"report-{faction}.txt").unlink()
    (folder / f"mail-{faction}.txt").unlink()
    edit(folder / "factions.txt", rf"^{faction} .*\n", "")


def append(path: Path, text: str) -> None:
    path.write_text(path.read_text() + text)


def put_folder(path: Path) -> None:
    path.unlink()
    path.mkdir()


def put_pipe(path: Path) -> None:
    path.unlink()
    os.mkfifo(path)


def remove_months(folder: Path) -> None:
    for month in folder.iterdir():
        shutil.rmtree(month)


# what was forged, the first line of the answer, and how it is forged in the folder of months
Forgery = tuple[str, str, Callable[[Path], object]]
FILES: list[Forgery] = [
    ("a forged report", f"forged/3/report-1.txt {UNLIKE}",
     lambda at: edit(at / "3/report-1.txt", r"^(Unit 3, line 4, SELL: done) 6\.$", r"\1 9.")),
    ("a longer report", f"forged/2/report-3.txt {UNLIKE}", lambda at: append(at / "2/report-3.txt", "\n")),
    ("a report without its last line end", f"forged/2/report-3.txt {UNLIKE}",
     lambda at: edit(at / "2/report-3.txt", r"\n\Z", "")),
    ("forged books", f"forged/12/books.txt {UNLIKE}",
     lambda at: edit(at / "12/books.txt", "^money total ", "money total  ")),
    ("a lost mailing", "forged/2/mail-1.txt is missing", lambda at: (at / "2/mail-1.txt").unlink()),
    ("a lost mailing of a silent faction", f"forged/3/report-1.txt {UNLIKE}", lambda at: silence(at / "3", 1)),
    ("a changed mailing", f"forged/1/report-1.txt {UNLIKE}",
     lambda at: edit(at / "1/mail-1.txt", "^RECRUIT 8$", "RECRUIT 7")),
    ("a mailing of another", "forged/3/mail-2.txt: the program answers: refused: 11 WrongFaction",
     lambda at: shutil.copy(at / "3/mail-3.txt", at / "3/mail-2.txt")),
    ("a mailing too many", f"forged/2/mail-3.txt {UNLISTED}",
     lambda at: shutil.copy(at / "3/mail-3.txt", at / "2/mail-3.txt")),
    ("a mailing of a faction that is gone", f"forged/6/mail-2.txt {UNLISTED}",
     lambda at: shutil.copy(at / "5/mail-2.txt", at / "6/mail-2.txt")),
    ("no report", "forged/2/report-2.txt is missing", lambda at: (at / "2/report-2.txt").unlink()),
    ("no books", "forged/2/books.txt is missing", lambda at: (at / "2/books.txt").unlink()),
    ("no seed", "forged/1/seed is missing", lambda at: (at / "1/seed").unlink()),
    ("no world", "forged/1/world.toml is missing", lambda at: (at / "1/world.toml").unlink()),
    ("no list", "forged/1/factions.txt is missing", lambda at: (at / "1/factions.txt").unlink()),
    ("a folder in the place of a report", "forged/4/report-1.txt is missing",
     lambda at: put_folder(at / "4/report-1.txt")),
    ("a pipe in the place of a mailing", "forged/4/mail-1.txt is missing",
     lambda at: put_pipe(at / "4/mail-1.txt")),
]
SEEDS_AND_WORLDS: list[Forgery] = [
    # In month 3 region 3, where unit 3 is, has births by a word that leaves 1 over with the seed 15, and 0 with 16.
    ("a wrong seed", f"forged/3/report-1.txt {UNLIKE}", lambda at: edit(at / "3/seed", "15", "16")),
    # With the seed 14 faction 1 begins in region 4.
    ("a wrong seed of joinings", f"forged/1/report-1.txt {UNLIKE}", lambda at: edit(at / "1/seed", "15", "14")),
    ("a seed that is no number",
     "forged/2/seed must have one number from 0 to 18,446,744,073,709,551,615, and nothing else",
     lambda at: edit(at / "2/seed", "15", "fifteen")),
    ("another world", "forged/2/world.toml is another world than forged/1/world.toml",
     lambda at: edit(at / "2/world.toml", "^growth = 4$", "growth = 3")),
    ("no world at all", "forged/1/world.toml: the program answers: world: 1 NotToml",
     lambda at: (at / "1/world.toml").write_text("a = = b\n")),
    ("a month too few", "forged/2 is missing", lambda at: shutil.rmtree(at / "2")),
    ("no first month", "forged/1 is missing: a replay begins with month 1, or with a copy before-M.db",
     lambda at: shutil.rmtree(at / "1")),
    ("no month at all", "there is no month in the folder 'forged'", remove_months),
]
LISTS: list[Forgery] = [
    ("a joining left out of the list", f"forged/4/mail-4.txt {UNLISTED}",
     lambda at: edit(at / "4/factions.txt", r"^4 .*\n", "")),
    # Nobody else is in region 1, so the other reports are the same without faction 4.
    ("a joining left out", f"forged/4/books.txt {UNLIKE}", lambda at: forget(at / "4", 4)),
    ("a faction left out", "forged/2/factions.txt: line 2 has faction 3",
     lambda at: edit(at / "2/factions.txt", r"^2 .*\n", "")),
    ("a faction left out at the end", "forged/3/factions.txt: faction 3 is missing",
     lambda at: edit(at / "3/factions.txt", r"^3 .*\n", "")),
    ("another name", f"forged/2/report-3.txt {UNLIKE}",
     lambda at: edit_all(at, "factions.txt", f" {BREE}$", " Brie", 2)),
    ("another name later", "forged/3/factions.txt: faction 3 is 'Brie', and was 'Bree'",
     lambda at: edit(at / "3/factions.txt", f" {BREE}$", " Brie")),
    ("a name twice", "forged/2/factions.txt, faction 3: the program answers: refused: 3 NameTaken",
     lambda at: edit(at / "2/factions.txt", f" {BREE}$", f" {HAVENS}")),
    ("a line of another form", "forged/2/factions.txt: line 1 isn't a number, `mail`, `silent` or `gone`, and a name",
     lambda at: edit(at / "2/factions.txt", "^1 mail ", "1 mailed ")),
    ("a sign that no name has", "forged/2/factions.txt: line 2 isn't a number, `mail`, `silent` or `gone`, and a name",
     lambda at: edit(at / "2/factions.txt", f" {HAVENS}$", " The\\0Havens")),
    ("silent in the place of gone", "forged/6/factions.txt: faction 2 is 'silent' there, and 'gone' in the replay",
     lambda at: edit(at / "6/factions.txt", "^2 gone", "2 silent")),
]


@needs_program
class Forgeries(unittest.TestCase):
    """The year is played once; each forgery is tried on a copy of its months."""

    year: TemporaryFolder

    @classmethod
    def setUpClass(cls) -> None:
        cls.year = TemporaryFolder()
        cls.year.setUp()
        Year(cls.year.work / "year", cls.year).play()
        cls.before = Path.cwd()
        os.chdir(cls.year.work)

    @classmethod
    def tearDownClass(cls) -> None:
        os.chdir(cls.before)
        cls.year.doCleanups()

    before: Path

    def forge(self, forgery: Callable[[Path], object], checksum: str | None = None) -> tuple[str, list[str]]:
        """What the replay says as an error, and what it says beside."""
        forged = Path("forged")
        said: list[str] = []
        shutil.rmtree(forged, ignore_errors=True)
        shutil.copytree("year/months", forged)
        forgery(forged)
        with self.assertRaises(OfficeError) as caught:
            replay(forged, None, checksum, said.append)
        return caught.exception.text, said

    def check_forgeries(self, forgeries: list[Forgery]) -> None:
        for name, line, forgery in forgeries:
            with self.subTest(name):
                self.assertEqual(self.forge(forgery)[0].split("\n")[0], line)

    def test_files(self) -> None:
        self.check_forgeries(FILES)

    def test_seeds_and_worlds(self) -> None:
        self.check_forgeries(SEEDS_AND_WORLDS)

    def test_lists(self) -> None:
        self.check_forgeries(LISTS)

    def test_shown_lines(self) -> None:
        text, _ = self.forge(FILES[0][2])
        self.assertIn("< Unit 3, line 4, SELL: done 9.", text.split("\n"))
        self.assertIn("> Unit 3, line 4, SELL: done 6.", text.split("\n"))

    def test_no_folder(self) -> None:
        with self.assertRaises(OfficeError) as caught:
            replay(Path("nowhere"), None, None, say_nothing)
        self.assertEqual(caught.exception.text, "there is no month in the folder 'nowhere'")

    def test_copies(self) -> None:
        with self.assertRaises(OfficeError) as caught:
            replay(Path("year/months"), Path("year/before-99.db"), None, say_nothing)
        self.assertEqual(caught.exception.text, "year/before-99.db is missing")
        with self.assertRaises(OfficeError) as caught:
            replay(Path("year/months"), Path("year/seed"), None, say_nothing)
        self.assertTrue(caught.exception.text.startswith("year/seed is no campaign that can be read"))
        with self.assertRaises(OfficeError) as caught:
            replay(Path("year/months"), Path("year/club.db"), None, say_nothing)
        self.assertEqual(caught.exception.text, "year/months/13 is missing")

    def test_published_seed(self) -> None:
        said: list[str] = []
        text = replay(Path("year/months"), None, seed_checksum(SEED), said.append)
        self.assertEqual(text, "months 1 to 12: every report and the books come out again, byte for byte")
        self.assertEqual(said[-1], "each month was closed with the seed whose checksum was published")
        self.assertFalse([line for line in said if "another seed" in line])
        with self.assertRaises(OfficeError) as caught:
            replay(Path("year/months"), Path("year/before-12.db"), seed_checksum("16"), said.append)
        self.assertTrue(caught.exception.text.endswith("Closed with another seed: month 12"))

    def test_other_seed(self) -> None:
        """A month whose seed makes no difference to a report is named all the same."""
        shutil.rmtree("other", ignore_errors=True)
        club = Year(Path("other").absolute(), self).club
        club.join(1, 1, BREE)
        club.close(1)
        (club.root / "seed").write_text("16\n")
        club.close(2)
        said: list[str] = []
        replay(Path("other/months"), None, None, said.append)
        self.assertIn("month 2 was closed with another seed than month 1", said)
        with self.assertRaises(OfficeError) as caught:
            replay(Path("other/months"), None, seed_checksum(SEED), said.append)
        self.assertTrue(caught.exception.text.endswith("Closed with another seed: month 2"))


class Differences(unittest.TestCase):
    """How two texts that differ are shown."""

    def test_lines(self) -> None:
        self.assertEqual(show_differences(b"a\nb\nc\n", b"a\nx\nc\n"), ["line 2:", "< b", "> x"])
        self.assertEqual(show_differences(b"a\n", b"a\n\n"), ["line 2:", "> "])
        self.assertEqual(show_differences(b"a", b"a\n"), ["line 1:", "< a (no line end)", "> a"])

    def test_hostile(self) -> None:
        """Nothing that a terminal obeys is shown, and no flood of lines."""
        self.assertEqual(show_differences(b"\x1b[2J\r\n", b"a\n"), ["line 1:", "< ?[2J?", "> a"])
        many = b"".join(b"%d\n" % number for number in range(100_000))
        self.assertEqual(len(show_differences(many, b"")), MOST_DIFFERENCES)
        self.assertLess(max(map(len, show_differences(b"x" * 1_000_000, b""))), 300)


if __name__ == "__main__":
    unittest.main()
