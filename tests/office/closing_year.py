"""A year of four factions, in a world with births and two markets. What each month leaves is compared with the mailings
as they were sent, and with what the program itself prints."""

from __future__ import annotations

import unittest
from pathlib import Path

from tests.office.closing_tools import ISLE, TestedClub

MARKET = '[[region.market]]\nitem = "wood"\nprice = 12\npays = 11\nlimit = 300\nrestock = 5\n'
MEN, HAVENS, BREE, SPACES = "O'Neill's Men", "The Grey Havens", "Bree", "Two  Spaces"


def year_world() -> str:
    """The island with births, and a market in each of the regions 3 and 4."""
    lines, wanted = [], False
    for line in ISLE.read_text().splitlines():
        lines.append("growth = 4" if line == "growth = 0" else line)
        wanted = wanted or line in ("number = 3", "number = 4")
        if wanted and line in ("west = 2", "south = 3"):
            lines.append(MARKET.rstrip())
            wanted = False
    return "\n".join(lines) + "\n"


class Year:
    """Plays the year in a club of its own. `test` fails where something is another than expected."""

    def __init__(self, root: Path, test: unittest.TestCase) -> None:
        world = root.with_suffix(".toml")
        world.write_text(year_world())
        self.club = TestedClub(root, world)
        self.test = test
        self.mailed: dict[int, bytes] = {}

    def play(self) -> None:
        self._begin()
        self._trade()
        self._leave()
        self._go_on()

    def _mail(self, faction: int, *lines: str) -> None:
        self.mailed[faction] = self.club.mail(faction, *lines)

    def _begin(self) -> None:
        self.club.join(1, 1, MEN)
        self.club.join(2, 2, HAVENS)
        self._mail(1, "UNIT 1", 'NAME FACTION "O\'Neill\'s Heirs"', "GAURD 1", "RECRUIT 4", "FORM 1", "RECRUIT 8",
                   "STUDY lumberjack", "END", "PAY NEW 1 500", "#END")
        self._mail(2, "UNIT 2", "RECRUIT 5", "STUDY magic")
        self._close(1, f"1 mail {MEN}\n2 mail {HAVENS}\n")
        self._says(1, 1, "Atlantis report, month 1, faction 1 \"O'Neill's Heirs\".")
        self._says(1, 1, "Line 4: 2 UnknownOrder.")
        self._says(1, 1, "Unit 3, line 8, STUDY: done 240.")
        self._says(1, 2, "Line 4: 4 UnknownThing.")
        self.club.join(3, 4, BREE)
        self._mail(1, "UNIT 3", "PRODUCE wood")
        self._mail(2, "UNIT 2", "STUDY lumberjack")
        self._close(2, f"1 mail {MEN}\n2 mail {HAVENS}\n3 silent {BREE}\n", "3 Bree")
        self._says(2, 1, "Unit 3, line 3, PRODUCE: done 8.")

    def _trade(self) -> None:
        self._mail(1, "UNIT 3", "GIVE 1 2 wood", "SELL 6 wood", "PRODUCE wood")
        self._mail(2, "UNIT 2", "BUY 2 wood")
        self._mail(3, "UNIT 4", "MOVE south")
        self._close(3, f"1 mail {MEN}\n2 mail {HAVENS}\n3 mail {BREE}\n")
        self._says(3, 1, "Unit 3, line 3, GIVE: done 2.")
        self._says(3, 1, "Unit 3, line 4, SELL: done 6.")
        self._says(3, 2, "Unit 2, line 3, BUY: done 2.")
        self._says(3, 3, "Unit 4, line 3, MOVE: done 0.")
        self.club.join(4, 5, SPACES)
        self._mail(1, "UNIT 1", "PAY 3 100", "MOVE north", "UNIT 3", "SELL 8 wood", "PRODUCE wood")
        self._mail(2, "UNIT 2", "PRODUCE wood")
        self._mail(3, "UNIT 4", "RECRUIT 2")
        self._mail(4, "UNIT 5", "RECRUIT 3", "GIVE 5")
        self._close(4, f"1 mail {MEN}\n2 mail {HAVENS}\n3 mail {BREE}\n4 mail {SPACES}\n")
        self._says(4, 4, "Line 4: 5 MissingWord.")

    def _leave(self) -> None:
        self._mail(1, "UNIT 3", "SELL 8 wood", "PRODUCE wood")
        self._mail(2, "UNIT 2", "QUIT 2")
        self._mail(3, "UNIT 4", "WORK")
        self._close(5, f"1 mail {MEN}\n2 mail {HAVENS}\n3 mail {BREE}\n4 silent {SPACES}\n", f"4 {SPACES}")
        self._says(5, 2, "Unit 2, line 3, QUIT: done 0.")
        for month in range(6, 11):
            self._mail(1, "UNIT 3", "SELL 8 wood", "PRODUCE wood")
            self._mail(3, "UNIT 4", "BUY 1 wood")
            self._mail(4, "UNIT 5", "STUDY stealth")
            self._close(month, f"1 mail {MEN}\n2 gone {HAVENS}\n3 mail {BREE}\n4 mail {SPACES}\n")
        self._says(10, 2, f'Atlantis report, month 5, faction 2 "{HAVENS}".')

    def _go_on(self) -> None:
        self._mail(3, "UNIT 4", "MOVE north")
        self._close(11, f"1 silent {MEN}\n2 gone {HAVENS}\n3 mail {BREE}\n4 silent {SPACES}\n", "1 O'Neill's Heirs",
                    f"4 {SPACES}")
        self._mail(4, "UNIT 5", "TAX")
        self._close(12, f"1 silent {MEN}\n2 gone {HAVENS}\n3 silent {BREE}\n4 mail {SPACES}\n", "1 O'Neill's Heirs",
                    "3 Bree")
        self._says(11, 3, "Unit 4, line 3, MOVE: fault 18 TooHeavy.")
        self._says(12, 4, "Unit 5, line 3, TAX: fault 12 NotGuarding.")

    def _close(self, month: int, listed: str, *silent: str) -> None:
        """Closes the month, which lists these factions. No mail is from `silent`."""
        test, root = self.test, self.club.root
        test.assertEqual(self.club.close(), month)
        test.assertEqual(self.club.said, [
            *(f"no mail from {faction}" for faction in silent), f"month {month} closed",
            f"months/{month} has the reports to send, and before-{month}.db is the copy to go back to"])
        folder = root / "months" / str(month)
        factions = len(listed.splitlines())
        expected = {"factions.txt": listed.encode(), "seed": (root / "seed").read_bytes(),
                    "world.toml": self.club.world, "books.txt": self.club.club.program.books().encode(),
                    **{f"mail-{faction}.txt": text for faction, text in self.mailed.items()},
                    **{f"report-{faction}.txt": self.club.club.program.report(faction, f"pass-{faction}").encode()
                       for faction in range(1, factions + 1)}}
        test.assertEqual({path.name: path.read_bytes() for path in folder.iterdir()}, expected, f"month {month}")
        test.assertEqual(self.club.ask(f"before-{month}.db", "SELECT month FROM campaign"), [(month - 1,)])
        self.mailed.clear()

    def _says(self, month: int, faction: int, line: str) -> None:
        """The report of the faction has this line."""
        report = (self.club.root / "months" / str(month) / f"report-{faction}.txt").read_text()
        self.test.assertIn(line, report.splitlines(), f"month {month}, faction {faction}")
