#!/usr/bin/env python3
"""Closes a month whose mailings have more than 65,536 orders together, all of them for one phase, and reads the reports.

Each faction's mailing is as long as it may be, and is full of LEAVE, which none of the units can do. Called without
arguments, it takes some seconds, and ends with 'OK'."""
import subprocess
import sys
import tempfile
import unittest
from pathlib import Path

sys.path.insert(0, str(Path(__file__).resolve().parents[2]))

from tests.program.calls import PROGRAM, SMALL_FILE  # noqa: E402

FACTIONS = 7
MOST_BYTES = 65_536
ORDER = "LEAVE\n"


def mailing_of(faction: int) -> str:
    head = f"#ATLANTIS {faction}\nUNIT {faction}\n"
    return head + ORDER * ((MOST_BYTES - len(head)) // len(ORDER))


def events_of(faction: int) -> list[str]:
    """The events of docs/RULES.md: each LEAVE has the fault NotInside, and the unit works for the wage of 12."""
    orders = mailing_of(faction).count(ORDER)
    leaving = [f"Unit {faction}, line {line}, LEAVE: fault 7 NotInside." for line in range(3, orders + 3)]
    return [*leaving, f"Unit {faction}, line 0, WORK: done 12."]


class LargeMonth(unittest.TestCase):
    def setUp(self) -> None:
        self.folder = Path(self.enterContext(tempfile.TemporaryDirectory()))
        self.tell("found", "--world", str(SMALL_FILE), "--pass", "gm")

    def tell(self, name: str, *words: str) -> str:
        """What a command prints."""
        ended = subprocess.run([PROGRAM, name, "--db", "club.db", *words], cwd=self.folder, capture_output=True, text=True)
        self.assertEqual((ended.returncode, ended.stderr), (0, ""))
        return ended.stdout

    def send(self, faction: int) -> int:
        """Has a faction join and send its mailing, and returns its number of orders."""
        self.tell("join", "--name", f"Faction {faction}", "--pass", "pw", "--seed", "0")
        text = mailing_of(faction)
        (self.folder / "mailing").write_text(text, encoding="ascii")
        told = self.tell("mail", "--faction", str(faction), "--pass", "pw", "--file", "mailing")
        orders = text.count(ORDER)
        self.assertEqual(told, f"{orders} orders, 0 faults\n")
        return orders

    def test_a_month_of_many_orders(self) -> None:
        factions = range(1, FACTIONS + 1)
        self.assertGreater(sum(self.send(faction) for faction in factions), 65_536)
        self.assertEqual(self.tell("close", "--month", "1", "--pass", "gm", "--seed", "0"), "month 1 closed\n")
        for faction in factions:
            lines = self.tell("report", "--faction", str(faction), "--pass", "pw").splitlines()
            orders = lines[lines.index("Orders:") + 1:lines.index('Region 1 "Vale", plain: 1000 peasants, 1500 money.')]
            self.assertEqual(orders, events_of(faction))


if __name__ == "__main__":
    sys.dont_write_bytecode = True
    unittest.main()
