"""The club's folder: settings, players, dice, deadlines, files."""

from __future__ import annotations

import os
import tempfile
import unittest
from datetime import datetime
from pathlib import Path

from office.club.club import parse_seed, seed_checksum
from office.club.deadline import deadline_after
from office.club.dice import first_regions, seed_with_factions_apart
from office.club.files import append_line, clear_parts, write_file
from office.club.players import Player, check_address, read_players, write_players
from office.club.settings import TEMPLATE, Settings, parse_settings
from office.errors import OfficeError

LAND_OF_COAST = [1, 2, 4, 5, 6, 8, 9, 10, 12, 13, 14, 15, 16, 17, 19, 20]


def settings(more: str = "") -> Settings:
    return parse_settings('moderator = "m@example.org"\n' + more)


class SettingsTest(unittest.TestCase):
    def test_template_is_read(self) -> None:
        read = parse_settings(TEMPLATE.format(name='"Club"', moderator='"m@example.org"'))
        self.assertEqual((read.name, read.moderator, read.deadline, read.imap, read.port),
                         ("Club", "m@example.org", None, None, 8080))

    def test_template_with_all_comments_removed_is_read(self) -> None:
        text = TEMPLATE.format(name='"Club"', moderator='"m@example.org"')
        lines = [line[2:] if line.startswith(("# deadline", "# next_deadline", "# server", "# [", "# host", "# port",
                                              "# user", "# password", "# folder", "# security")) else line
                 for line in text.splitlines()]
        read = parse_settings("\n".join(lines))
        self.assertEqual(read.deadline, (4, 20, 0))
        self.assertEqual(read.mail_server, "mx.example.org")
        assert read.imap and read.smtp
        self.assertEqual((read.imap.port, read.smtp.port, read.smtp.security), (993, 465, "tls"))

    def test_what_is_wrong_is_named(self) -> None:
        wrong = {
            'nmae = "x"\nmoderator = "m@x.org"': "no setting nmae",
            'moderator = "m@x.org"\n[month]\ndeadlin = "friday 20:00"': "no setting month.deadlin",
            'moderator = "m@x.org"\n[month]\ndeadline = "freitag 20:00"': "weekday",
            'moderator = "m@x.org"\n[serve]\nport = 70000': "serve.port must be from 1 to 65535",
            'moderator = "m@x.org"\n[serve]\nport = "8080"': "serve.port must be a whole number",
            'moderator = "m@x.org"\n[smtp]\nsecurity = "tls"': "smtp.host is missing",
            'moderator = "m@x.org"\n[smtp]\nhost = "x.org"\nsecurity = "none"': "only for a server on this machine",
            'moderator = "a b"': "moderator must be",
            "moderator = ": "can't be read",
        }
        for text, part in wrong.items():
            with self.subTest(text), self.assertRaises(OfficeError) as raised:
                parse_settings(text)
            self.assertIn(part, raised.exception.text)


class PlayersTest(unittest.TestCase):
    def test_what_is_written_is_read(self) -> None:
        players = {1: Player(1, ("ann@example.org", "a.b+c@x.org")), 12: Player(12, (), "sub@example.org", 5)}
        with tempfile.TemporaryDirectory() as folder:
            path = Path(folder, "players.toml")
            write_players(path, players)
            self.assertEqual(read_players(path), players)
            self.assertEqual(path.stat().st_mode & 0o777, 0o600)

    def test_no_address_breaks_out_of_its_line(self) -> None:
        for address in ("a@b\nBcc: x@y.org", "a b@c.org", '"a"@c.org', "a@", "@b", "a@b@c", "a" * 250 + "@b.org", ""):
            with self.subTest(address), self.assertRaises(OfficeError):
                check_address(address)

    def test_who_may_write(self) -> None:
        player = Player(1, ("Ann@example.org",), "sub@example.org", 5)
        self.assertTrue(player.may_write_from("ann@example.org", 9))
        self.assertTrue(player.may_write_from("sub@example.org", 5))
        self.assertFalse(player.may_write_from("sub@example.org", 6))
        self.assertFalse(player.may_write_from("", 1))
        self.assertEqual(player.letters_to(6), ("Ann@example.org",))


class DiceTest(unittest.TestCase):
    def test_the_factions_of_the_handbook(self) -> None:
        """docs/MODERATOR.md, "Join", shows where three factions begin on coast.toml with the seed 5417."""
        self.assertEqual([LAND_OF_COAST[i] for i in first_regions(5417, 3, len(LAND_OF_COAST))], [13, 10, 1])

    def test_factions_begin_apart(self) -> None:
        seed = seed_with_factions_apart(4, 16)
        assert seed is not None
        self.assertEqual(len(set(first_regions(seed, 4, 16))), 4)


class SeedTest(unittest.TestCase):
    def test_line_ends_and_blanks_do_not_count(self) -> None:
        self.assertEqual(parse_seed(" 5417\r\n", "seed"), "5417")
        # printf 5417 | sha256sum
        self.assertEqual(seed_checksum("5417"), "2fead305174250d45c8f773f6a64b91c8aeab006ac73b599f92b5e592b988a9d")

    def test_no_number(self) -> None:
        for text in ("", "one", "-1", "1 2", str(2**64)):
            with self.subTest(text), self.assertRaises(OfficeError):
                parse_seed(text, "seed")


class DeadlineTest(unittest.TestCase):
    def test_next_weekday_after_the_least_days(self) -> None:
        read = settings('[month]\ndeadline = "friday 20:00"\nleast_days = 3')
        # 2026-11-30 is a Monday
        for closed, wanted in (("2026-11-30T10:00", "2026-12-04T20:00"), ("2026-12-01T20:00", "2026-12-11T20:00"),
                               ("2026-12-01T19:59", "2026-12-04T20:00"), ("2026-12-04T21:00", "2026-12-11T20:00")):
            with self.subTest(closed):
                found = deadline_after(read, datetime.fromisoformat(closed).astimezone())
                self.assertEqual(found, datetime.fromisoformat(wanted).astimezone())

    def test_a_date_in_place_of_the_next(self) -> None:
        read = settings('[month]\ndeadline = "friday 20:00"\nnext_deadline = 2027-01-08T20:00:00')
        self.assertEqual(deadline_after(read, datetime(2026, 12, 20).astimezone()), datetime(2027, 1, 8, 20).astimezone())
        self.assertEqual(deadline_after(read, datetime(2027, 1, 8, 21).astimezone()),
                         datetime(2027, 1, 15, 20).astimezone())

    def test_no_deadline(self) -> None:
        self.assertIsNone(deadline_after(settings(), datetime(2026, 12, 1).astimezone()))


class FilesTest(unittest.TestCase):
    def test_a_line_stays_one_line(self) -> None:
        with tempfile.TemporaryDirectory() as folder:
            path = Path(folder, "log")
            append_line(path, "a\nb\r\x1b[2Jc\u2028d\u202ee")
            self.assertEqual(path.read_bytes().count(b"\n"), 1)
            self.assertTrue(path.read_text().startswith("a?b??[2Jc?d?e"))

    def test_parts_of_ended_processes_go(self) -> None:
        with tempfile.TemporaryDirectory() as folder:
            gone, mine = Path(folder, ".a.99999999.part"), Path(folder, f".a.{os.getpid()}.part")
            gone.touch()
            mine.touch()
            write_file(Path(folder, "a"), b"x")
            clear_parts(Path(folder))
            self.assertFalse(gone.exists())


if __name__ == "__main__":
    unittest.main()
