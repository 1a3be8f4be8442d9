"""`init` in a folder that has a campaign: it takes the campaign over as it is, or refuses and leaves the folder as it was."""

from __future__ import annotations

import unittest
from datetime import datetime
from pathlib import Path

from office.club.campaign import read_campaign
from office.club.club import Club
from office.club.deadline import Closings
from office.club.dice import first_regions
from office.club.founding import found_club
from office.club.program import Program
from office.errors import OfficeError
from tests.office.closing_tools import ISLE, TemporaryFolder, needs_program

# printf 5417 | sha256sum
CHECKSUM = "2fead305174250d45c8f773f6a64b91c8aeab006ac73b599f92b5e592b988a9d"
MODERATOR = "gm@example.org"
NOW = datetime(2026, 1, 5, 19).astimezone()


@needs_program
class TakingOver(TemporaryFolder):
    def setUp(self) -> None:
        super().setUp()
        self.root = self.work / "club"
        self.root.mkdir()
        (self.root / "pass").write_text("moderator\n")
        (self.root / "seed").write_text("5417\n")
        program = Program(self.root)
        program.found(ISLE, "moderator")
        program.join("Bree", "pony", "5417")
        program.close(1, "moderator", "5417")
        program.books()
        (self.root / "months" / "1").mkdir(parents=True)
        (self.root / "months" / "1" / "seed").write_text("5417\n")

    def init(self, world: Path | None = None, seed: str | None = None) -> str:
        return found_club(self.root, world, "Testers", MODERATOR, 0, seed, NOW)

    def files(self) -> dict[str, bytes]:
        return {str(path.relative_to(self.root)): path.read_bytes() for path in self.root.rglob("*")
                if path.is_file() and not path.name.startswith("club.db-")}

    def assert_refused(self, words: str, seed: str | None = None, world: Path | None = None) -> None:
        before = self.files()
        with self.assertRaises(OfficeError) as caught:
            self.init(world, seed)
        self.assertIn(words, caught.exception.text)
        self.assertEqual(self.files(), before)

    def test_the_campaign_stays(self) -> None:
        before = self.files()
        self.assertEqual(self.init(), CHECKSUM)
        after = self.files()
        self.assertEqual({name: after[name] for name in before}, before)
        self.assertEqual(after["world.toml"], ISLE.read_bytes())
        self.assertEqual(after["seed.sha256"], f"{CHECKSUM}\n".encode())
        club = Club(self.root)
        self.assertEqual(club.settings.moderator, MODERATOR)
        # its letters with reports went out before
        self.assertEqual(Closings(club).when(1), NOW)
        self.assertEqual(read_campaign(club.places.campaign).factions[0].pass_text, "pony")
        self.assert_refused("is a club already")

    def test_a_world_with_a_fault_has_no_seed_yet(self) -> None:
        root = self.work / "new"
        bad = self.work / "bad.toml"
        bad.write_text("growth = = 4\n")
        with self.assertRaises(OfficeError) as caught:
            found_club(root, bad, "Testers", MODERATOR, 3, None, NOW)
        self.assertIn("world: 1 NotToml", caught.exception.text)
        found_club(root, ISLE, "Testers", MODERATOR, 3, None, NOW)
        self.assertEqual(len(set(first_regions(int((root / "seed").read_text()), 3, 3))), 3)

    def test_the_folder_of_the_program(self) -> None:
        (self.root / "office").mkdir()
        (self.root / "office" / "command.py").touch()
        self.assert_refused("is the folder of the program")

    def test_its_own_world_may_be_named(self) -> None:
        self.assertEqual(self.init(ISLE), CHECKSUM)

    def test_another_pass_text(self) -> None:
        (self.root / "pass").write_text("another\n")
        self.assert_refused("the file pass has another pass text than the campaign")

    def test_another_seed(self) -> None:
        (self.root / "seed").write_text("5418\n")
        self.assert_refused("the file seed has another number than the one with which month 1 was closed")
        (self.root / "seed").write_text("5417\n")
        self.assert_refused("the folder has a seed already", "5418")

    def test_another_world(self) -> None:
        self.assert_refused("another world than", None, ISLE.with_name("coast.toml"))

    def test_a_file_is_missing(self) -> None:
        for name, what in (("pass", "your pass text"), ("seed", "the seed")):
            (self.root / name).rename(self.root / "away")
            self.assert_refused(f"no file {name}: write {what} of this campaign into it")
            (self.root / "away").rename(self.root / name)


if __name__ == "__main__":
    unittest.main()
