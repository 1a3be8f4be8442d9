"""Writing the papers: a file is written as a whole or not at all, and what is secret is for its owner alone."""

import os
import shutil
import tempfile
import unittest
from contextlib import redirect_stderr
from io import StringIO
from pathlib import Path
from unittest import mock

from office.errors import OfficeError
from office.papers.command import chronicle, main, write
from tests.office.papers_club import COAST, Faction, make_months


class Writing(unittest.TestCase):
    def setUp(self) -> None:
        self.folder = Path(tempfile.mkdtemp())
        self.addCleanup(shutil.rmtree, self.folder)
        self.addCleanup(os.umask, os.umask(0o022))
        self.out = self.folder / "out.html"

    def names(self) -> list[str]:
        return [path.name for path in self.folder.iterdir()]

    def test_rights(self) -> None:
        make_months(self.folder / "months", [Faction("Avalon", 6, [1], [2])])
        for public, rights in ((True, 0o644), (False, 0o600), (True, 0o644)):
            chronicle(self.folder, 1, public, self.out)
            self.assertEqual(self.out.stat().st_mode & 0o777, rights)

    def test_full_disk_leaves_the_file_as_it_was(self) -> None:
        self.out.write_text("old")
        with mock.patch.object(Path, "write_text", side_effect=OSError(28, "No space left on device")):
            with self.assertRaises(OfficeError) as caught:
                write(self.out, "new")
        self.assertIn("No space left on device", caught.exception.text)
        self.assertEqual(self.out.read_text(), "old")
        self.assertEqual(self.names(), ["out.html"])

    def test_what_a_killed_command_left_is_no_hindrance(self) -> None:
        (self.folder / ".out.html.part").write_text("half")
        write(self.out, "whole")
        self.assertEqual((self.out.read_text(), self.names()), ("whole", ["out.html"]))

    def test_no_place_to_write(self) -> None:
        for out in (self.folder / "none" / "out.html", self.folder, Path("")):
            with self.assertRaises(OfficeError) as caught:
                write(out, "x")
            self.assertNotIn("\n", caught.exception.text)

    def test_faults_are_one_line_with_status_1(self) -> None:
        calls = (["page-world", str(self.folder / "none.toml"), str(self.out)],
                 ["page-world", str(COAST), str(self.folder / "none/x.json")],
                 ["chronicle", "--months", str(self.folder), "--out", str(self.out)],
                 ["map", "--db", str(self.folder / "none.db"), "--out", str(self.out)])
        for call in calls:
            with redirect_stderr(StringIO()) as errors:
                self.assertEqual(main(call), 1)
            self.assertRegex(errors.getvalue(), r"\Apapers: [^\n]+\n\Z")


if __name__ == "__main__":
    unittest.main()
