"""Each function of office/closing that changes files is killed at each of its steps, finds the disk full at each, and
is called again: what it leaves is what an undisturbed call leaves. The program is a stand-in, which answers at once."""

from __future__ import annotations

import os
import shutil
import unittest
from datetime import datetime
from pathlib import Path
from unittest.mock import patch

from office.closing.back import back, take_again
from office.closing.backup import backup
from office.closing.month import close_month
from office.closing.publish import publish
from office.club.club import Club
from office.club.program import Program
from tests.office.closing_stand_in import in_place_of_the_program
from tests.office.closing_tools import (FULL, KILL, StopEverywhere, TemporaryFolder, TestedClub, contents,
                                        say_nothing)

NOW = datetime(2026, 3, 1, 12, 0).astimezone()


class StoppedClub(TemporaryFolder):
    """A club of three that has closed two months. The third faction joined in month 2, and sent mail for month 3."""

    def setUp(self) -> None:
        super().setUp()
        self.enterContext(in_place_of_the_program())
        self.enterContext(patch.object(Club, "now", lambda _: NOW))
        self.club = TestedClub(self.work / "club")
        self.club.join(1, 1, "Avalon")
        self.club.join(2, 2, "Bree")
        self.club.mail(1, "UNIT 1", "WORK ; pass-1", "#END", "Yours, Ann")
        self.club.close()
        self.club.join(3, 3, "Cork")
        self.club.mail(2, "UNIT 2", "WORK")
        self.club.mail(3, "UNIT 3", "WORK")
        self.club.close()
        self.club.mail(3, "UNIT 3", "TAX")
        (self.club.root / "out" / "report-2-1.eml").write_text("a letter that waits")
        (self.club.root / "out" / "sent" / "report-1-1.eml").write_text("a letter that was sent")

    def make(self, folder: Path) -> None:
        shutil.copytree(self.club.root, folder)

    def stop(self, make: object, call: object, see: object = contents) -> None:
        for sort in (KILL, FULL):
            with self.subTest(sort):
                shutil.rmtree(self.work / "whole", ignore_errors=True)
                StopEverywhere(self, make, call, see).stop_at_each(sort)  # type: ignore[arg-type]


class Closing(StoppedClub):
    """The closing of month 3."""

    @staticmethod
    def call(folder: Path) -> None:
        club = Club(folder)
        with club.locked():
            close_month(club, 3, print)

    def test_closing(self) -> None:
        self.stop(self.make, self.call)

    def test_order(self) -> None:
        """After a power cut, too: all files and folders of the month are on the disk before the mail is taken out."""
        done: list[str] = []

        def sync(handle: int) -> None:
            done.append(os.readlink(f"/proc/self/fd/{handle}").removeprefix(f"{self.club.root}/"))

        def close(program: Program, *_words: object) -> str:
            done.append(program.file)
            return close_it(program, 3, "moderator", self.club.club.seed())

        close_it = Program.close
        with patch("os.fsync", sync), patch.object(Program, "close", close):
            self.club.close(3)
        closed = done.index("club.db")
        files = contents(self.club.root / "months" / "3", ())
        self.assertLessEqual({f"months/3.part/{name}" for name in files}, set(done[:closed]))
        self.assertLessEqual({"months/3.part", "months", str(self.club.root)}, set(done[:closed]))
        self.assertTrue(any(name.startswith(".before-3.db") for name in done[:closed]))

    def test_closing_where_another_copy_is_there(self) -> None:
        (self.club.root / "before-3.db.~1~").write_bytes(b"older")
        shutil.copyfile(self.club.root / "club.db", self.club.root / "before-3.db")
        self.club.mail(3, "UNIT 3", "WORK")
        self.stop(self.make, self.call)


class Back(StoppedClub):
    """Going back to before month 1, and to before month 2."""

    def test_to_the_first_month(self) -> None:
        self.stop(self.make, lambda folder: self.go_back(folder, 1))

    def test_to_the_last_month(self) -> None:
        (self.club.root / "mail" / "again").mkdir(parents=True, exist_ok=True)
        (self.club.root / "mail" / "again" / "again-3-3.txt").write_text("#ATLANTIS 3\nfrom an earlier going back\n")
        self.stop(self.make, lambda folder: self.go_back(folder, 2))

    @staticmethod
    def go_back(folder: Path, month: int) -> None:
        club = Club(folder)
        with club.locked(goes_back=True):
            back(club, month, print)

    def test_again(self) -> None:
        """What was laid by is joined and handed in once, and the months are those from before."""
        with self.club.club.locked(goes_back=True):
            back(self.club.club, 1, say_nothing)
        self.club.close(1)
        self.stop(self.make, self.take_again,
                  lambda folder: (contents(folder), (folder / "office" / "again.json").read_bytes()))

    @staticmethod
    def take_again(folder: Path) -> None:
        club = Club(folder)
        with club.locked():
            take_again(club, print)


class Backup(StoppedClub):
    """A copy of the folder, where there are older ones."""

    def make(self, folder: Path) -> None:
        folder.mkdir()
        shutil.copytree(self.club.root, folder / "club")
        for month in (1, 2):
            shutil.copytree(self.club.root, folder / "copies" / f"club-2026-0{month}-01-120000")

    @staticmethod
    def call(folder: Path) -> None:
        club = Club(folder / "club")
        with club.locked():
            backup(club, folder / "copies", print, 2)

    @staticmethod
    def see(folder: Path) -> object:
        """The newest copy, and the names of all. A call that was killed after its copy was whole makes another one."""
        copies = sorted(path for path in (folder / "copies").iterdir() if path.name != ".")
        return len(copies), [contents(path, ()) for path in copies[-1:]], contents(folder / "club")

    def test_backup(self) -> None:
        self.stop(self.make, self.call, self.see)


class Publish(StoppedClub):
    """The months for outsiders."""

    def make(self, folder: Path) -> None:
        folder.mkdir()
        shutil.copytree(self.club.root, folder / "club")

    @staticmethod
    def call(folder: Path) -> None:
        club = Club(folder / "club")
        with club.locked():
            publish(club, folder / "public", None, print, True)

    def test_publish(self) -> None:
        self.stop(self.make, self.call, lambda folder: (contents(folder / "public", ()), sorted(
            path.name for path in folder.iterdir())))


if __name__ == "__main__":
    unittest.main()
