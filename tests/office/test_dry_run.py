"""Commands with --dry-run: they say what they would do, ask nothing, and change nothing."""

from __future__ import annotations

import io
from contextlib import redirect_stderr, redirect_stdout

from office.command import main
from tests.office.closing_tools import TemporaryFolder, TestedClub, contents, needs_program

FIRST = "dry run: on a copy of the folder, so nothing of what follows is done"


@needs_program
class DryRun(TemporaryFolder):
    """A club of one faction, which has mailed for month 1."""

    def setUp(self) -> None:
        super().setUp()
        self.club = TestedClub(self.work / "club")
        self.club.join(1, 1, "Avalon")
        self.club.mail(1, "UNIT 1", "STUDY lumberjack")

    def try_out(self, *words: str) -> list[str]:
        """The lines of a command that ends well and changes no file."""
        before = contents(self.club.root)
        said, complained = io.StringIO(), io.StringIO()
        with redirect_stdout(said), redirect_stderr(complained):
            status = main(["--club", str(self.club.root), *words, "--dry-run"])
        self.assertEqual((status, complained.getvalue()), (0, ""))
        self.assertEqual(contents(self.club.root), before)
        return said.getvalue().splitlines()

    def test_close(self) -> None:
        lines = self.try_out("close")
        self.assertEqual(lines[0], FIRST)
        self.assertIn("dry run: makes before-1.db", lines)
        self.assertIn("dry run: changes club.db", lines)

    def test_questions_are_only_said(self) -> None:
        self.club.close(1)
        self.club.mail(1, "UNIT 1", "STUDY lumberjack")
        lines = self.try_out("close")
        self.assertEqual(lines[0], FIRST)
        self.assertTrue(any("less than a day ago" in line for line in lines), lines)
        self.assertIn("dry run: makes before-2.db", lines)

    def test_another_command(self) -> None:
        self.assertEqual(self.try_out("remind")[0], FIRST)
