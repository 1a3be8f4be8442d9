"""Going back, copies of a club's folder, and months for outsiders: what they do, and what they refuse, with a stand-in
and with the program. tests/office/test_closing_stopped.py stops the same functions at each of their steps."""

from __future__ import annotations

import os
import shutil
import sqlite3
import unittest
from datetime import datetime, timedelta
from pathlib import Path
from unittest.mock import patch

from office.closing.back import back, take_again, unfinished_back
from office.closing.backup import backup
from office.closing.publish import any_of, publish, without_letters
from office.closing.replay import replay
from office.club.campaign import read_campaign, set_pass_text
from office.club.club import Club, seed_checksum
from office.club.files import copy_file, write_json
from office.errors import OfficeError
from tests.office.closing_stand_in import in_place_of_the_program
from tests.office.closing_tools import SEED, TemporaryFolder, TestedClub, contents, needs_program, rows, say_nothing

NOW = datetime(2026, 3, 1, 12, 0).astimezone()


class ClubOfThree(TemporaryFolder):
    """Two months are closed. Cork joined in the second, and Dell joined and mailed in the third, which is open."""

    def setUp(self) -> None:
        super().setUp()
        self.choose_program()
        self.enterContext(patch.object(Club, "now", lambda _: NOW))
        self.club = TestedClub(self.work / "club")
        self.root = self.club.root
        self.club.join(1, 1, "Avalon")
        self.club.join(2, 2, "Bree")
        self.club.mail(1, "UNIT 1", "WORK")
        self.club.close()
        self.club.join(3, 3, "Cork")
        self.texts = {(2, 1): self.club.mail(1, "UNIT 1", "TAX"), (2, 3): self.club.mail(3, "UNIT 3", "WORK")}
        self.club.close()
        self.club.join(4, 4, "Dell")
        self.texts[3, 4] = self.club.mail(4, "UNIT 4", "WORK")
        self.said: list[str] = []

    def choose_program(self) -> None:
        self.enterContext(in_place_of_the_program())

    def back(self, month: int) -> None:
        self.said = []
        with self.club.club.locked(goes_back=True):
            back(self.club.club, month, self.said.append)

    def take_again(self) -> int:
        self.said = []
        with self.club.club.locked():
            return take_again(self.club.club, self.said.append)

    def refuse(self, month: int, text: str) -> None:
        before = contents(self.root)
        with self.assertRaises(OfficeError) as caught:
            self.back(month)
        self.assertEqual(caught.exception.text, text)
        self.assertEqual(contents(self.root), before)

    def mailed(self) -> dict[int, bytes]:
        return {faction.number: faction.mailing for faction in read_campaign(self.root / "club.db").factions
                if faction.mailing is not None}


class Back(ClubOfThree):
    """Going back, and playing the months again."""

    def test_refused(self) -> None:
        self.refuse(9, "there is no before-9.db here, the copy from before month 9")
        shutil.copyfile(self.root / "before-2.db", self.root / "before-3.db")
        self.refuse(3, "before-3.db is the campaign after month 1, and no copy from before month 3")
        shutil.copyfile(self.root / "club.db", self.root / "before-3.db")
        self.refuse(3, "month 3 isn't closed: the month closed last is 2")

    def test_what_is_kept(self) -> None:
        newest, months = rows(self.root / "club.db"), contents(self.root / "months", ())
        (self.root / "before-2.db.~1~").write_bytes(b"an older copy of before month 2")
        (self.root / "months" / "3.part").mkdir()
        (self.root / "mail" / "taken" / "2").mkdir(parents=True)
        (self.root / "mail" / "taken" / "2" / "a.txt").write_text("a mail of month 2")
        (self.root / "out" / "report-2-1.eml").write_text("a letter")
        write_json(self.root / "office" / "closings.json", {"0": "a", "1": "b", "2": "c"})
        self.back(1)
        kept = self.root / "undone" / "2026-03-01-before-1"
        self.assertEqual(rows(kept / "club.db"), newest)
        self.assertEqual({name: value for name, value in contents(kept / "months", ()).items()
                          if not name.startswith("3.part")}, months)
        self.assertTrue((kept / "months" / "3.part").is_dir())
        for name in ("before-2.db", "before-2.db.~1~", "mail/taken/2/a.txt", "out/report-2-1.eml",
                     "office/closings.json"):
            self.assertTrue((kept / name).is_file(), name)
            self.assertFalse((self.root / name).exists() and name != "office/closings.json", name)
        self.assertEqual((self.root / "office" / "closings.json").read_text().split(), ["{", '"0":', '"a"', "}"])
        self.assertEqual(rows(self.root / "club.db"), rows(self.root / "before-1.db"))
        self.assertEqual(list((self.root / "months").iterdir()), [])

    def test_said(self) -> None:
        self.back(1)
        self.assertEqual(self.said[:2], ["faction 3 Cork (pass text pass-3) joins again when month 2 is open",
                                         "faction 4 Dell (pass text pass-4) joins again when month 3 is open"])
        self.assertEqual(self.said[2], "3 mailings lie in mail/again, each to be taken when its month is open: "
                                       "again-2-1.txt, again-2-3.txt, again-3-4.txt")

    def test_newer_pass_texts_stay(self) -> None:
        set_pass_text(self.root / "club.db", 1, "newer-1")
        set_pass_text(self.root / "club.db", 0, "newer-0")
        self.back(1)
        campaign = read_campaign(self.root / "club.db")
        self.assertEqual((campaign.pass_text, [faction.pass_text for faction in campaign.factions]),
                         ("newer-0", ["newer-1", "pass-2"]))

    def test_play_again(self) -> None:
        """The same months come out, and the open month has the same factions and mail."""
        newest, months = rows(self.root / "club.db"), contents(self.root / "months", ())
        self.back(1)
        self.assertEqual(self.take_again(), 0)
        self.club.close(1)
        self.assertEqual(self.take_again(), 2)
        self.assertEqual(self.mailed(), {1: self.texts[2, 1], 3: self.texts[2, 3]})
        self.assertEqual(self.take_again(), 0)
        self.club.close(2)
        self.assertEqual(self.take_again(), 1)
        self.assertEqual(contents(self.root / "months", ()), months)
        self.assertEqual(rows(self.root / "club.db"), newest)
        self.assertEqual(list((self.root / "mail" / "again").iterdir()), [])

    def test_newer_orders(self) -> None:
        """Orders that a player sent since then stay."""
        self.back(2)
        self.club.close(2)
        self.assertEqual(self.take_again(), 1)
        newer = self.club.mail(4, "UNIT 4", "STUDY sailing")
        (self.root / "mail" / "again" / "again-3-4.txt").write_bytes(self.texts[3, 4])
        self.assertEqual(self.take_again(), 0)
        self.assertEqual(self.mailed(), {4: newer})
        self.assertEqual((self.root / "mail" / "aside" / "again-3-4.txt").read_bytes(), self.texts[3, 4])

    def test_mail_of_the_month(self) -> None:
        """The copy has the mail with which the month was closed, so none of it lies in mail/again."""
        self.back(2)
        self.assertEqual(self.mailed(), {1: self.texts[2, 1], 3: self.texts[2, 3]})
        self.assertEqual([path.name for path in (self.root / "mail" / "again").iterdir()], ["again-3-4.txt"])

    def test_other_seed(self) -> None:
        """With another seed a faction would begin elsewhere, so it isn't joined by itself."""
        (self.root / "seed").write_text("16\n")
        self.back(1)
        self.assertEqual(self.said[0],
                         "faction 3 Cork (pass text pass-3) isn't joined again, since the seed is another: call join")
        self.club.close(1)
        self.assertEqual(self.take_again(), 1)
        self.assertIn("faction 3 Cork has to join again by hand: call join", self.said)
        self.assertIn("again-2-3.txt waits: faction 3 hasn't joined again", self.said)
        self.club.join(3, 3, "Cork")
        self.assertEqual(self.take_again(), 1)
        self.assertEqual(self.mailed()[3], self.texts[2, 3])

    def test_another_faction(self) -> None:
        """A stranger who joined under the number gets no orders of another."""
        self.back(1)
        self.club.close(1)
        self.club.join(3, 3, "Stranger")
        self.assertEqual(self.take_again(), 1)
        self.assertIn("again-2-3.txt isn't taken: faction 3 is another one now. The file is in mail/aside", self.said)
        self.assertNotIn(3, self.mailed())

    def test_twice(self) -> None:
        """Nothing that the first going back kept is overwritten."""
        self.back(2)
        first = contents(self.root / "undone", ())
        self.club.close(2)
        self.take_again()
        self.club.mail(4, "UNIT 4", "STUDY sailing")
        (self.root / "mail" / "again" / "again-3-4.txt").write_text("not taken yet")
        self.back(2)
        second = contents(self.root / "undone", ())
        self.assertEqual({name: second[name] for name in first}, first)
        kept = self.root / "undone" / "2026-03-01-before-2-2"
        self.assertEqual((kept / "mail" / "again" / "again-3-4.txt").read_text(), "not taken yet")

    def test_damaged(self) -> None:
        """From a file that is lost or no database."""
        for harm in (b"", b"no database, but some text", None):
            with self.subTest(harm):
                file, log = self.root / "club.db", self.root / "club.db-wal"
                log.write_bytes(b"a log of the newer campaign")
                if harm is None:
                    file.unlink()
                else:
                    file.write_bytes(harm)

                def copy(source: Path, target: Path) -> None:
                    self.assertFalse(target == file and log.exists(), "the log would be read into the older campaign")
                    copy_file(source, target)

                with patch("office.closing.back.copy_file", copy):
                    self.back(2)
                self.assertIn(b"a log of the newer campaign",
                              [path.read_bytes() for path in (self.root / "undone").rglob("club.db-wal")])
                self.assertEqual(read_campaign(file).month, 1)
                self.assertIn("the newest campaign can't be read, so the mail of the open month isn't in mail/again",
                              self.said)
                self.club.close(2)

    def test_only_a_copy_is_judged(self) -> None:
        """A log next to the file may be that of another file, and whoever opens the file brings it in."""
        file, log = self.root / "club.db", self.root / "club.db-wal"
        file.write_bytes(b"no database, but some text")
        log.write_bytes(b"a log of another file")
        opened = []
        real = sqlite3.connect

        def connect(path: Path, timeout: float = 5.0) -> sqlite3.Connection:
            opened.append(Path(path))
            return real(path, timeout)

        with patch("sqlite3.connect", connect), patch("office.closing.back.copy_file", side_effect=OSError(28, "full")):
            with self.assertRaises(OSError):
                self.back(2)
        self.assertNotIn(file, opened)
        self.assertEqual((file.read_bytes(), log.read_bytes()), (b"no database, but some text", b"a log of another file"))

    def test_stopped(self) -> None:
        """Going back to another month has to wait."""
        with patch("office.closing.back.copy_file", side_effect=OSError(28, "No space left on device")):
            with self.assertRaises(OSError):
                self.back(1)
        self.assertEqual(unfinished_back(self.club.club), 1)
        with self.assertRaises(OfficeError) as caught:
            self.club.close(3)
        self.assertEqual(caught.exception.text, "going back to before month 1 was stopped on its way: call "
                                                "`kiwirudder back 1` again first")
        with self.assertRaises(OfficeError) as caught:
            self.back(2)
        self.assertEqual(caught.exception.text,
                         "going back to before month 1 was stopped on its way: call back 1 first")
        self.back(1)
        self.assertIsNone(unfinished_back(self.club.club))


class Backup(ClubOfThree):
    """Copies of the folder."""

    def backup(self, keep: int | None = None, days: int = 0) -> Path:
        self.said = []
        with patch.object(Club, "now", lambda _: NOW + timedelta(days=days)), self.club.club.locked():
            return backup(self.club.club, self.work / "copies", self.said.append, keep)

    def test_whole(self) -> None:
        (self.root / "worlds").symlink_to("/usr/share/worlds")
        os.mkfifo(self.root / "pipe")
        (self.root / "mail" / "in" / ".letter.1.part").write_text("half a mail")
        copy = self.backup()
        self.assertEqual(copy.name, "club-2026-03-01-120000")
        (self.root / "pipe").unlink()
        (self.root / "mail" / "in" / ".letter.1.part").unlink()
        expected = {name: value for name, value in contents(self.root, ()).items() if not name.endswith(".lock")}
        self.assertEqual(contents(copy, ()), expected)
        self.assertEqual(os.readlink(copy / "worlds"), "/usr/share/worlds")
        books = Path("months", "1", "books.txt")
        self.assertEqual((copy / books).stat().st_mtime_ns, (self.root / books).stat().st_mtime_ns)
        files = [path for path in copy.rglob("*") if not path.is_symlink()]
        self.assertEqual([path for path in files if path.stat().st_mode & 0o077], [])

    def test_usable(self) -> None:
        """A copy is a club."""
        club = Club(self.backup())
        with club.locked(), club.with_campaign() as campaign:
            self.assertEqual(campaign, read_campaign(self.root / "club.db"))
        self.assertEqual(replay(club.places.months, None, None, say_nothing)[:14], "months 1 to 2:")

    def test_keep(self) -> None:
        (self.work / "copies" / "club-2026-01-01-notes").mkdir(parents=True)
        (self.work / "copies" / "other-2026-01-01-120000").mkdir()
        names = [self.backup(keep=2, days=day).name for day in range(4)]
        left = sorted(path.name for path in (self.work / "copies").iterdir())
        self.assertEqual(left, ["club-2026-01-01-notes", *names[2:], "other-2026-01-01-120000"])
        self.assertEqual(self.said[-1], f"{names[1]} is removed")
        with self.assertRaises(OfficeError):
            self.backup(keep=0)

    def test_removed_in_part(self) -> None:
        """A copy that is removed doesn't look whole on the way."""
        first = self.backup()
        with patch("office.closing.backup.remove_folder", side_effect=OSError(5, "Input/output error")):
            with self.assertRaises(OSError):
                self.backup(keep=1, days=1)
        self.assertFalse(first.exists())

    def test_refused(self) -> None:
        for inside in (self.root, self.root / "copies", self.root / "mail" / ".." / "copies"):
            with self.assertRaises(OfficeError) as caught, self.club.club.locked():
                backup(self.club.club, inside, say_nothing)
            self.assertIn("a copy inside the club's folder is lost together with it", caught.exception.text)
        link = self.work / "link"
        link.symlink_to(self.root)
        with self.assertRaises(OfficeError), self.club.club.locked():
            backup(self.club.club, link / "copies", say_nothing)

    def test_full_disk(self) -> None:
        with patch("office.closing.backup.SPARE_BYTES", 2**62), self.assertRaises(OfficeError) as caught:
            self.backup()
        self.assertRegex(caught.exception.text,
                         r"^the disk of .* has [0-9,]+ bytes free, and club needs [0-9,]+: make room")
        self.assertEqual(list((self.work / "copies").iterdir()), [])

    def test_bad_disk(self) -> None:
        """A copy that reads otherwise than it was written is none."""
        def copy_wrongly(source: Path, target: Path) -> None:
            text = source.read_bytes()
            target.write_bytes(text[:-1] if source.name == "report-1.txt" else text)
        with patch("office.closing.backup.shutil.copyfile", copy_wrongly), self.assertRaises(OfficeError):
            self.backup()
        self.assertEqual(list((self.work / "copies").iterdir()), [])


class Publish(ClubOfThree):
    """Months for outsiders."""

    def publish(self, through: int | None = None, with_seed: bool = True) -> Path:
        self.said = []
        with self.club.club.locked():
            return publish(self.club.club, self.work / "public", through, self.said.append, with_seed)

    def test_private(self) -> None:
        self.club.mail(1, "UNIT 1", "WORK ; my pass text was pear", "WORK ; call me", "#END", "Ann, 020 7946 0958")
        set_pass_text(self.root / "club.db", 1, "pear")
        self.club.club.program.hand_in(1, "pear", b"Dear Bob,\nAnn here, 020 7946 0958\n\n#ATLANTIS 1 pear\nUNIT 1\n"
                                                  b"WORK ; Pear it is\nTAX ; call me\n; pass-1\n; plum\n"
                                                  b"#END pear\n-- \nAnn\n")
        self.club.close()
        set_pass_text(self.root / "club.db", 1, "plum")
        months = self.publish() / "months"
        self.assertEqual((months / "3" / "mail-1.txt").read_bytes(),
                         b"\n\n\n#ATLANTIS 1\nUNIT 1\nWORK ;...\nTAX ; call me\n;...\n;...\n#END\n")
        everything = b"".join(path.read_bytes() for path in months.rglob("*") if path.is_file())
        for private in (b"0958", b"Ann", b"pear", b"Pear", b"pass-", b"moderator"):
            self.assertNotIn(private, everything)
        self.assertEqual(replay(months, None, seed_checksum(SEED), say_nothing),
                         "months 1 to 3: every report and the books come out again, byte for byte")

    def test_seed(self) -> None:
        (self.root / "seed.sha256").write_text(f"{seed_checksum(SEED)}\n")
        public = self.publish(with_seed=False)
        self.assertEqual(list(public.rglob("seed")), [])
        self.assertEqual((public / "seed.sha256").read_text(), f"{seed_checksum(SEED)}\n")
        self.assertIn("the seed is left out, so outsiders can't play the months again yet", self.said[-1])

    def test_through(self) -> None:
        self.assertEqual([path.name for path in (self.publish(1) / "months").iterdir()], ["1"])
        shutil.rmtree(self.work / "public")
        for month in (0, 3):
            with self.assertRaises(OfficeError) as caught:
                self.publish(month)
            self.assertEqual(caught.exception.text, "there are months from 1 to 2")

    def test_refused(self) -> None:
        (self.work / "public").mkdir()
        (self.work / "public" / "mine").write_text("mine")
        with self.assertRaises(OfficeError):
            self.publish()
        self.assertEqual([path.name for path in (self.work / "public").iterdir()], ["mine"])
        with self.assertRaises(OfficeError), self.club.club.locked():
            publish(self.club.club, self.root / "public", None, say_nothing)

    def test_forged(self) -> None:
        """Months that don't come out again aren't published."""
        report = self.root / "months" / "1" / "report-1.txt"
        report.write_text(report.read_text() + "more\n")
        with self.assertRaises(OfficeError) as caught:
            self.publish()
        self.assertIn("is not what the replay gives", caught.exception.text)
        self.assertEqual(sorted(path.name for path in self.work.iterdir()), ["club"])


@needs_program
class BackWithTheProgram(Back):
    """The same with the program itself."""

    def choose_program(self) -> None:
        pass


@needs_program
class BackupWithTheProgram(Backup):
    """The same with the program itself."""

    def choose_program(self) -> None:
        pass


@needs_program
class PublishWithTheProgram(Publish):
    """The same with the program itself."""

    def choose_program(self) -> None:
        pass


class Letters(unittest.TestCase):
    """What stays of a mailing, by docs/RULES.md, "Reading a mailing"."""

    def check(self, text: bytes, expected: bytes, *secrets: str) -> None:
        self.assertEqual(without_letters(text, any_of({*secrets, "secret"})), expected)

    def test_lines(self) -> None:
        self.check(b"Hi\r\n#atlantis 007 secret ; note\r\nUNIT 1\r\n", b"\n#atlantis 007\nUNIT 1\n")
        self.check(b"Hi\n#ATLANTIS 1\nWORK", b"\n#ATLANTIS 1\nWORK")
        self.check(b'#ATLANTIS 1\n"#END"\nPS\n', b"#ATLANTIS 1\n#END\n")
        self.check(b'#END\n#ATLANTIS 1\nNAME UNIT "a;b" ; c\n#END ; bye', b'\n#ATLANTIS 1\nNAME UNIT "a;b" ; c\n#END\n')

    def test_pass_texts(self) -> None:
        self.check(b"#ATLANTIS 1\nWORK;pear\nTAX ; pears\n", b"#ATLANTIS 1\nWORK;...\nTAX ; pears\n", "pear")
        self.check(b'#ATLANTIS 1\nNAME UNIT "; pear"\n', b'#ATLANTIS 1\nNAME UNIT "; pear"\n', "pear")
        self.check(b"#ATLANTIS 1\nWORK ; PEAR\n", b"#ATLANTIS 1\nWORK ;...\n", "pear")
        self.check(b"#ATLANTIS 1\nWORK ; it is p.*r!\n", b"#ATLANTIS 1\nWORK ;...\n", "p.*r!")

    def test_fault_stays(self) -> None:
        """A comment with a sign that isn't allowed is a fault, which the report names."""
        self.check("#ATLANTIS 1\nWORK ; pear é\n".encode(), b"#ATLANTIS 1\nWORK ;...\xff\n", "pear")


if __name__ == "__main__":
    unittest.main()
