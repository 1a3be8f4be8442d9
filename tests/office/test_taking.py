"""The rules by which a message is taken, over a desk that stands in for the program: who sent it, when it came, what it
asks, and where its reply goes."""

from __future__ import annotations

import email
import email.policy
import json
import os
import tempfile
import unittest
from collections.abc import Mapping
from datetime import datetime, timedelta
from email.message import EmailMessage
from pathlib import Path
from typing import cast

from office.club.campaign import Campaign, Faction
from office.club.club import Club
from office.club.deadline import Closings
from office.club.files import make_folder, write_file
from office.club.players import Player, write_players
from office.club.program import Fault, MailAnswer, Refusal
from office.errors import OfficeError
from office.mail import deciding
from office.mail.taking import Fate, KeptMailings, Taker

CLOSED = datetime.fromisoformat("2026-12-07T18:00:00+00:00")
NOW = datetime.fromisoformat("2026-12-09T18:00:00+00:00")
ORDERS = "#ATLANTIS {}\nUNIT {}\nWORK\n#END\n"


class FakeDesk:
    """Keeps what is handed in; judges pass texts as the program does. `fault` makes it fail."""

    def __init__(self, factions: tuple[Faction, ...]) -> None:
        self.pass_texts = {faction.number: faction.pass_text for faction in factions}
        self.handed_in: list[tuple[int, str]] = []
        self.fault = ""

    def hand_in(self, faction: int, pass_text: str, mailing: bytes) -> MailAnswer:
        if self.fault:
            raise Fault(self.fault)
        if faction not in self.pass_texts:
            raise Refusal(5, "NoFaction")
        if self.pass_texts[faction] != pass_text:
            raise Refusal(6, "WrongPass")
        self.handed_in.append((faction, mailing.decode()))
        return MailAnswer(mailing.count(b"\n") - 3, ())


class TakingTest(unittest.TestCase):
    def setUp(self) -> None:
        self.folder = tempfile.TemporaryDirectory()
        self.addCleanup(self.folder.cleanup)
        root = Path(self.folder.name)
        self.settings()
        self.club = Club(root)
        for folder in self.club.places.folders():
            make_folder(folder)
        write_file(self.club.places.seed_checksum, b"0123456789abcdef\n")
        players = {1: Player(1, ("ann@x.org",)), 2: Player(2, ("bob@x.org",), "sue@x.org", 3), 3: Player(3, ("cy@x.org",))}
        write_players(self.club.places.players, players)
        Closings(self.club).note(1, CLOSED)
        self.factions = tuple(Faction(number, f"F{number}", f"F{number}", f"pass-{number}", False, None,
                                      f'Atlantis report, month 1, faction {number} "F{number}".\n* Unit {number} "U": 1 men, 5 money.\n')
                              for number in (1, 2, 3, 4))
        self.desk = FakeDesk(self.factions)
        self.said: list[str] = []
        self.count = 0

    def settings(self, more: str = "") -> None:
        write_file(Path(self.folder.name, "club.toml"),
                   ('moderator = "mod@club.org"\n[month]\ndeadline = "friday 20:00"\n' + more).encode())

    def message(self, sender: str, text: str, came: datetime = NOW - timedelta(hours=1), fields: Mapping[str, str] | None = None,
                id_: str | None = None) -> None:
        """Puts a message into mail/in."""
        self.count += 1
        lines = [f"Received: from there by here; {came:%a, %d %b %Y %H:%M:%S} +0000", f"From: {sender}",
                 f"Message-ID: <{id_ or f'm{self.count}@x.org'}>", "Subject: orders",
                 *(f"{name}: {value}" for name, value in (fields or {}).items()), "", text]
        write_file(self.club.places.incoming / f"{self.count:03}.eml", "\n".join(lines).encode())

    def take(self, now: datetime = NOW) -> dict[Fate, int]:
        taker = Taker(self.club, 1, self.factions, self.desk, now, self.said.append)
        return dict(taker.take_all())

    def letters(self) -> list[tuple[str, str, str]]:
        """To whom, with what subject and text."""
        found = []
        for path in sorted(self.club.places.out.glob("*.eml")):
            letter = cast(EmailMessage, email.message_from_bytes(path.read_bytes(), policy=email.policy.default))
            found.append((str(letter["To"]), str(letter["Subject"]), letter.get_content()))
        return found

    def files(self, folder: Path) -> list[Path]:
        return sorted(path for path in folder.rglob("*") if path.suffix in (".eml", ".txt"))

    # Who sent it

    def test_the_registered_address_needs_no_pass_text(self) -> None:
        self.message("Ann <ANN@x.org>", ORDERS.format(1, 1))
        self.assertEqual(self.take(), {Fate.TAKEN: 1})
        self.assertEqual(self.desk.handed_in, [(1, "#ATLANTIS 1\nUNIT 1\nWORK\n#END\n")])
        (to, subject, text), = self.letters()
        self.assertEqual((to, subject), ("ann@x.org", "orders of faction 1 for month 2 taken (Re: orders)"))
        self.assertIn("WORK", text)

    def test_a_pass_text_on_the_header_is_judged_and_not_handed_in(self) -> None:
        self.message("ann@phone.org", "Hi\n\n#ATLANTIS 1 pass-1\nUNIT 1\nWORK\n#END\n")
        self.assertEqual(self.take(), {Fate.TAKEN: 1})
        self.assertEqual(self.desk.handed_in, [(1, "\n\n#ATLANTIS 1\nUNIT 1\nWORK\n#END\n")])
        self.assertEqual(self.letters()[0][0], "ann@x.org", "the reply goes to the registered address")
        self.assertNotIn("pass-1", self.letters()[0][2])

    def test_a_stranger_is_refused_and_the_player_is_told(self) -> None:
        self.message("eve@evil.org", ORDERS.format(1, 1))
        self.assertEqual(self.take(), {Fate.REFUSED: 1})
        self.assertEqual(self.desk.handed_in, [])
        (to, subject, text), = self.letters()
        self.assertEqual(to, "ann@x.org")
        self.assertIn("NOT taken", subject)
        self.assertIn("eve@evil.org", text)

    def test_a_wrong_pass_text_is_refused_even_from_the_right_address(self) -> None:
        self.message("ann@x.org", ORDERS.format("1 wrong", 1))
        self.assertEqual(self.take(), {Fate.REFUSED: 1})
        self.assertIn("pass text", self.letters()[0][2])

    def test_another_factions_number_is_refused(self) -> None:
        self.message("ann@x.org", ORDERS.format(3, 3))
        self.assertEqual(self.take(), {Fate.REFUSED: 1})
        self.assertEqual([to for to, _, _ in self.letters()], ["cy@x.org"])

    def test_quit_needs_the_pass_text(self) -> None:
        self.message("ann@x.org", '#ATLANTIS 1\nUNIT 1\n "quit" 1\n#END\n')
        self.assertEqual(self.take(), {Fate.REFUSED: 1})
        self.assertIn("QUIT", self.letters()[0][2])
        self.message("ann@x.org", "#ATLANTIS 1 pass-1\nUNIT 1\nQUIT 1\n#END\n")
        self.assertEqual(self.take(), {Fate.TAKEN: 1})

    def test_a_substitute_plays_until_the_month_that_was_said(self) -> None:
        self.message("sue@x.org", ORDERS.format(2, 2))
        self.assertEqual(self.take(), {Fate.TAKEN: 1})
        self.assertEqual(self.letters()[0][0], "bob@x.org, sue@x.org")

    def test_the_mail_server_has_to_vouch_where_the_club_says_so(self) -> None:
        self.settings('[mail]\nserver = "mx.club.org"\n')
        self.message("ann@x.org", ORDERS.format(1, 1))
        self.message("ann@x.org", ORDERS.format(1, 1), fields={"Authentication-Results": "mx.evil.org; dmarc=pass"})
        self.message("ann@x.org", ORDERS.format(1, 1),
                     fields={"Authentication-Results": "mx.club.org; dmarc=pass header.from=x.org"})
        self.assertEqual(self.take(), {Fate.HELD: 2, Fate.TAKEN: 1})

    def test_a_faction_without_a_player_is_judged_by_its_pass_text(self) -> None:
        self.message("dee@x.org", ORDERS.format("4 pass-4", 4))
        self.assertEqual(self.take(), {Fate.TAKEN: 1})
        self.assertEqual(self.letters(), [])

    def test_no_such_faction(self) -> None:
        self.message("ann@x.org", ORDERS.format(77, 1))
        self.message("ann@x.org", ORDERS.format("77 x", 1))
        self.message("ann@x.org", ORDERS.format("none", 1))
        self.assertEqual(self.take(), {Fate.REFUSED: 3})
        self.assertEqual(self.letters(), [])

    # Once

    def test_the_same_message_is_taken_once(self) -> None:
        self.message("ann@x.org", ORDERS.format(1, 1), id_="same@x.org")
        self.message("ann@x.org", ORDERS.format(1, 1), id_="same@x.org")
        self.assertEqual(self.take(), {Fate.TAKEN: 1, Fate.DROPPED: 1})
        self.message("ann@x.org", ORDERS.format(1, 1), id_="same@x.org")
        self.assertEqual(self.take(), {Fate.DROPPED: 1})
        self.assertEqual(len(self.letters()), 1)

    def test_another_text_under_the_same_id_is_another_message(self) -> None:
        self.message("eve@evil.org", ORDERS.format(1, 1), id_="same@x.org")
        self.message("ann@x.org", ORDERS.format(1, 1), id_="same@x.org")
        self.assertEqual(self.take(), {Fate.REFUSED: 1, Fate.TAKEN: 1})

    def test_a_file_of_the_moderator_counts_each_time(self) -> None:
        for text in ("WORK", "TAX", "WORK"):
            path = self.club.places.incoming / "1.txt"
            write_file(path, f"#ATLANTIS 1\nUNIT 1\n{text}\n#END\n".encode())
            os.utime(path, (NOW.timestamp(), NOW.timestamp()))
            self.take()
        self.assertEqual([mailing.splitlines()[2] for _, mailing in self.desk.handed_in], ["WORK", "TAX", "WORK"])

    def test_a_file_named_for_another_faction_vouches_for_nobody(self) -> None:
        write_file(self.club.places.incoming / "2.txt", ORDERS.format(1, 1).encode())
        write_file(self.club.places.incoming / "orders.txt", ORDERS.format(1, 1).encode())
        self.assertEqual(self.take(), {Fate.REFUSED: 2})

    # Automatic mail

    def test_automatic_mail_is_dropped_and_never_answered(self) -> None:
        for fields in ({"Auto-Submitted": "auto-replied"}, {"Precedence": "bulk"}, {"List-Id": "<l.x.org>"},
                       {"Return-Path": "<>"}, {"X-Kiwirudder": "0123456789ab"}):
            self.message("ann@x.org", ORDERS.format(1, 1), fields=fields)
        self.assertEqual(self.take(), {Fate.DROPPED: 5})
        self.assertEqual(self.letters(), [])

    def test_at_most_ten_replies_a_day(self) -> None:
        for _ in range(12):
            self.message("eve@evil.org", ORDERS.format(1, 1) + str(self.count))
        self.take()
        self.assertEqual(len(self.letters()), 10)
        self.message("eve@evil.org", ORDERS.format(1, 1))
        self.take(NOW + timedelta(days=1, minutes=1))
        self.assertEqual(len(self.letters()), 11)

    # When

    def test_late_mail_is_held(self) -> None:
        friday = datetime.fromisoformat("2026-12-11T20:00:00").astimezone()
        self.message("ann@x.org", ORDERS.format(1, 1), friday + timedelta(minutes=1))
        self.message("cy@x.org", ORDERS.format(3, 3), friday - timedelta(minutes=1))
        self.assertEqual(self.take(friday + timedelta(hours=1)), {Fate.HELD: 1, Fate.TAKEN: 1})
        self.assertIn("deadline", self.letters()[0][2] + self.letters()[1][2])

    def test_mail_from_before_the_closing_is_held(self) -> None:
        self.message("ann@x.org", ORDERS.format(1, 1), CLOSED - timedelta(minutes=1))
        self.assertEqual(self.take(), {Fate.HELD: 1})

    def test_mail_from_before_the_report_went_out_is_held(self) -> None:
        sent = self.club.places.sent / "report-1-1.eml"
        write_file(sent, b"")
        moment = (CLOSED + timedelta(hours=2)).timestamp()
        os.utime(sent, (moment, moment))
        self.message("ann@x.org", ORDERS.format(1, 1), CLOSED + timedelta(hours=1))
        self.message("cy@x.org", ORDERS.format(3, 3), CLOSED + timedelta(hours=1))
        self.assertEqual(self.take(), {Fate.HELD: 1, Fate.TAKEN: 1})

    def test_an_older_mailing_is_held(self) -> None:
        self.message("ann@x.org", ORDERS.format(1, 1), NOW - timedelta(hours=1))
        self.message("ann@x.org", ORDERS.format(1, 1) + "old", NOW - timedelta(hours=3))
        self.message("ann@x.org", ORDERS.format(1, 1) + "new", NOW - timedelta(minutes=3))
        self.assertEqual(self.take(), {Fate.TAKEN: 2, Fate.HELD: 1})
        self.assertIn("replaces your mailing", "".join(text for _, _, text in self.letters()))

    def test_the_date_that_a_sender_writes_counts_for_nothing(self) -> None:
        self.message("ann@x.org", ORDERS.format(1, 1), CLOSED - timedelta(hours=1),
                     fields={"Date": f"{NOW:%a, %d %b %Y %H:%M:%S} +0000"})
        self.assertEqual(self.take(), {Fate.HELD: 1})

    # Blocks

    def test_two_factions_in_one_message_are_judged_each_by_itself(self) -> None:
        self.message("ann@x.org", ORDERS.format(1, 1) + ORDERS.format(3, 3) + ORDERS.format("2 pass-2", 2))
        self.assertEqual(self.take(), {Fate.TAKEN: 1})
        self.assertEqual([faction for faction, _ in self.desk.handed_in], [1, 2])
        self.assertEqual(self.desk.handed_in[1][1].count("\n"), 12, "line numbers are those of the message")

    def test_two_blocks_for_one_faction_are_held(self) -> None:
        self.message("ann@x.org", ORDERS.format(1, 1) + ORDERS.format(1, 1))
        self.assertEqual(self.take(), {Fate.HELD: 1})
        self.assertEqual((self.desk.handed_in, len(self.letters())), ([], 1))

    def test_a_letter_is_held_for_the_moderator(self) -> None:
        self.message("ann@x.org", "How do I tax?")
        self.message("eve@evil.org", "Buy this")
        self.assertEqual(self.take(), {Fate.HELD: 2})
        self.assertEqual([to for to, _, _ in self.letters()], ["ann@x.org"])

    # Faults and sizes

    def test_a_fault_of_the_program_leaves_the_message(self) -> None:
        self.message("ann@x.org", ORDERS.format(1, 1))
        self.desk.fault = "fault: Store"
        with self.assertRaises(OfficeError):
            self.take()
        self.assertEqual(len(self.files(self.club.places.incoming)), 1)
        self.desk.fault = ""
        self.assertEqual(self.take(), {Fate.TAKEN: 1})

    def test_a_message_over_a_megabyte_is_put_aside(self) -> None:
        self.message("ann@x.org", ORDERS.format(1, 1) + "x" * 1_100_000)
        self.assertEqual(self.take(), {Fate.ASIDE: 1})
        kept, = self.files(self.club.places.aside)
        self.assertLessEqual(kept.stat().st_size, 65_536)

    def test_a_message_that_was_cut_is_held(self) -> None:
        self.message("ann@x.org", "\n" * 20_000 + ORDERS.format(1, 1))
        self.message("ann@x.org", ORDERS.format(1, 1) + "\n" * 20_000)
        self.assertEqual(self.take(), {Fate.HELD: 2})

    def test_a_mailbox_file_is_split_and_a_message_never_is(self) -> None:
        inner = "From ann@x.org Mon Dec  7 20:00:00 2026\nFrom: ann@x.org\nMessage-ID: <i@x.org>\n\n" + ORDERS.format(1, 1)
        write_file(self.club.places.incoming / "a.eml", ("From eve@evil.org Mon Dec  7 20:00:00 2026\nFrom: eve@evil.org\n"
                                                         "Message-ID: <o@x.org>\n\nHello\n\n" + inner).encode())
        self.take()
        self.assertEqual(self.desk.handed_in, [])
        path = self.club.places.incoming / "b.mbox"
        write_file(path, (inner + "\n\n" + inner.replace("<i@", "<j@")).encode())
        os.utime(path, (NOW.timestamp(), NOW.timestamp()))
        self.take()
        self.assertEqual(len(self.desk.handed_in), 2)

    def test_nothing_of_a_message_names_a_path_or_adds_a_line(self) -> None:
        self.message('"../../x\\r\\nBcc: a@b.org" <ann@x.org>', ORDERS.format(1, 1), id_="../../../etc/passwd@x",
                     fields={"Subject": "=?utf-8?q?a=0D=0ABcc:_eve@evil.org=0D=0A=0D=0Ax?="})
        self.take()
        self.assertEqual(len(self.letters()), 1)
        raw = next(self.club.places.out.glob("*.eml")).read_bytes()
        self.assertNotIn(b"\nBcc:", raw)
        taken, = self.files(self.club.places.taken(2))
        self.assertRegex(taken.name, r"^[0-9a-f]{12}\.eml$")
        self.assertEqual(self.club.places.log.read_text().count("\n"), 1)

    def test_files_that_are_no_messages_are_passed_over(self) -> None:
        (self.club.places.incoming / "x.eml").symlink_to("/etc/hostname")
        (self.club.places.incoming / "folder.eml").mkdir()
        (self.club.places.incoming / "notes.doc").write_text("x")
        self.assertEqual(self.take(), {})

    # The moderator decides

    def campaign(self) -> Campaign:
        return Campaign(1, "m", "", self.factions)

    def test_a_held_message_is_accepted(self) -> None:
        self.message("ann@x.org", ORDERS.format(1, 1), CLOSED - timedelta(minutes=1))
        self.take()
        held, = self.files(self.club.places.held)
        deciding.accept(self.club, self.campaign(), self.desk, held.stem[:5], None, NOW, self.said.append)
        self.assertEqual(len(self.desk.handed_in), 1)
        self.assertEqual(list(self.club.places.held.iterdir()), [])
        self.assertEqual(len(self.letters()), 2)

    def test_of_two_blocks_the_moderator_says_which(self) -> None:
        self.message("ann@x.org", ORDERS.format(1, 1) + ORDERS.format(1, 9))
        self.take()
        held, = self.files(self.club.places.held)
        with self.assertRaises(OfficeError) as raised:
            deciding.accept(self.club, self.campaign(), self.desk, held.stem, None, NOW, self.said.append)
        self.assertIn("2: faction 1, from line 5", raised.exception.text)
        deciding.accept(self.club, self.campaign(), self.desk, held.stem, 2, NOW, self.said.append)
        self.assertIn("UNIT 9", self.desk.handed_in[0][1])

    def test_a_held_message_is_refused_with_a_reason(self) -> None:
        self.message("ann@x.org", ORDERS.format(1, 1), CLOSED - timedelta(minutes=1))
        self.take()
        held, = self.files(self.club.places.held)
        deciding.refuse(self.club, self.campaign(), held.stem, "Too late.\nBcc: x", NOW, self.said.append)
        self.assertEqual(list(self.club.places.held.iterdir()), [])
        self.assertIn("Too late. Bcc: x", "".join(text for _, _, text in self.letters()))

    def test_a_name_of_a_message_is_no_path(self) -> None:
        for id_ in ("../x", "*", "", "nothing"):
            with self.subTest(id_), self.assertRaises(OfficeError):
                deciding.refuse(self.club, self.campaign(), id_, "", NOW, self.said.append)

    def test_what_is_kept_survives_a_stopped_call(self) -> None:
        """A call that was stopped after the hand-in is called again: the reply still names what was replaced."""
        self.message("ann@x.org", ORDERS.format(1, 1), NOW - timedelta(hours=2))
        self.take()
        self.message("ann@x.org", "#ATLANTIS 1\nUNIT 1\nTAX\nWORK\n#END\n", NOW - timedelta(hours=1))
        path = self.files(self.club.places.incoming)[0]
        raw = path.read_bytes()
        self.take()
        second = [text for _, _, text in self.letters() if "TAX" in text]
        for taken in self.club.places.taken(2).iterdir():
            if taken.suffix == ".eml" and taken.read_bytes() == raw:
                os.replace(taken, path)
        for letter in self.club.places.out.glob("*.eml"):
            if b"TAX" in letter.read_bytes():
                letter.unlink()
        self.take()
        self.assertEqual([text for _, _, text in self.letters() if "TAX" in text], second)
        kept = KeptMailings(self.club, 2).entries[1]
        assert kept.previous is not None
        self.assertEqual(json.loads(json.dumps(kept.previous))["orders"], 1)


if __name__ == "__main__":
    unittest.main()
