"""Reading the folder `months`. The books are those of docs/WORLDS.md, "Play a year by yourself"."""

import shutil
import tempfile
import unittest
from pathlib import Path

from office.errors import OfficeError
from office.closing.folder import Sent
from office.papers.months import month_numbers, read_month, read_months

ROOT = Path(__file__).resolve().parents[2]
BOOKS = """\
money founding 2325
money joining 2000
money income 10875
money wages 144
money upkeep -120
money total 15224
people founding 4550
people joining 1
people births 1117
people total 5668
item "wood" stocked 120
item "wood" total 120
item "iron" stocked 120
item "iron" total 120
item "cart" total 0
item "tool" total 0
item "wine" stocked 60
item "wine" total 60
item "wool" stocked 60
item "wool" total 60
"""


def report(month: int, faction: int, name: str) -> str:
    return (f'Atlantis report, month {month}, faction {faction} "{name}".\nOrders:\nNone.\n'
            f'Region 9 "Down", plain: 372 peasants, 1000 money.\nExits: north 5, south 16, east 10.\n'
            f'* Unit {faction} "Unit {faction}": 1 men, 2024 money.\n')


class Months(unittest.TestCase):
    def setUp(self) -> None:
        self.months = Path(tempfile.mkdtemp())
        self.addCleanup(shutil.rmtree, self.months)
        for number in (9, 10):
            folder = self.months / str(number)
            folder.mkdir()
            shutil.copy(ROOT / "worlds/coast.toml", folder / "world.toml")
            (folder / "seed").write_text("5417\n")
            (folder / "factions.txt").write_text("1 mail The Grey Havens\n2 silent Bree\n3 gone Rohan mail\n")
            (folder / "books.txt").write_text(BOOKS)
            (folder / "mail-1.txt").write_bytes(b"#ATLANTIS 1\r\n; caf\xe9\r\n#END\r\n")
            (folder / "report-1.txt").write_text(report(number, 1, "Havens"))
            (folder / "report-2.txt").write_text(report(number, 2, "Bree"))
            (folder / "report-3.txt").write_text(report(4, 3, "Rohan"))
        (self.months / "11.part").mkdir()

    def assert_fault(self, words: str) -> None:
        with self.assertRaises(OfficeError) as caught:
            list(read_months(self.months, 10))
        self.assertIn(words, caught.exception.text)
        self.assertNotIn("\n", caught.exception.text)

    def test_month(self) -> None:
        month = read_month(self.months, 10)
        self.assertEqual((month.number, month.seed), (10, "5417"))
        self.assertEqual([(it.number, it.sent, it.name) for it in month.factions],
                         [(1, Sent.MAIL, "The Grey Havens"), (2, Sent.SILENT, "Bree"), (3, Sent.GONE, "Rohan mail")])
        self.assertEqual(dict(month.mailings), {1: b"#ATLANTIS 1\r\n; caf\xe9\r\n#END\r\n"})
        self.assertEqual([it.name for it in month.reports.values()], ["Havens", "Bree", "Rohan"])
        self.assertEqual([it.faction for it in month.new_reports()], [1, 2])

    def test_books(self) -> None:
        books = read_month(self.months, 10).books
        self.assertEqual((books.money.total, books.money.entries["upkeep"]), (15224, -120))
        self.assertEqual(dict(books.people.entries), {"founding": 4550, "joining": 1, "births": 1117})
        self.assertEqual(list(books.items), ["wood", "iron", "cart", "tool", "wine", "wool"])
        self.assertEqual((books.items["wine"].total, dict(books.items["cart"].entries)), (60, {}))

    def test_numbers(self) -> None:
        self.assertEqual(month_numbers(self.months), [9, 10])
        self.assertEqual([month.number for month in read_months(self.months, 9)], [9])

    def test_no_seed(self) -> None:
        (self.months / "10/seed").unlink()
        self.assertIsNone(read_month(self.months, 10).seed)

    def test_missing_months(self) -> None:
        with self.assertRaises(OfficeError) as caught:
            read_months(self.months, 12)
        self.assertIn("has no month 12: it has the months 9 to 10", caught.exception.text)
        shutil.copytree(self.months / "10", self.months / "12")
        self.assert_fault("11 is missing")
        with self.assertRaises(OfficeError):
            month_numbers(self.months / "none")

    def test_missing_file(self) -> None:
        (self.months / "10/report-2.txt").unlink()
        self.assert_fault("10/report-2.txt is missing")

    def test_report_of_another_faction(self) -> None:
        shutil.copy(self.months / "10/report-1.txt", self.months / "10/report-2.txt")
        self.assert_fault("report-2.txt is the report of faction 1")

    def test_faulty_lists_and_books(self) -> None:
        (self.months / "10/factions.txt").write_text("1 mail Havens\n3 gone Rohan\n")
        self.assert_fault("factions.txt: line 2 has faction 3")
        (self.months / "9/books.txt").write_text(BOOKS.replace('item "wood" total 120\n', ""))
        self.assert_fault('the line of the total of item "wood" is missing')
        (self.months / "9/books.txt").write_text(BOOKS + "gold total one\n")
        self.assert_fault("books.txt: line 21 is no line of the books")
        (self.months / "9/books.txt").write_bytes(b"\xff")
        self.assert_fault("books.txt is no UTF-8")


if __name__ == "__main__":
    unittest.main()
