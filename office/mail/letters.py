"""Letters to players: files NAME.eml in out/, which `send` mails, or the moderator by hand. A letter is written once."""

from __future__ import annotations

import hashlib
import os
from dataclasses import dataclass
from datetime import datetime
from email.message import EmailMessage
from email.policy import SMTP
from email.utils import format_datetime

from office.club.club import Club
from office.club.files import write_file
from office.mail.senders import OWN_MARK

LONGEST_PLAIN_LINE = 900


@dataclass(frozen=True)
class Letter:
    """`name` is that of its file. It makes the Message-ID with `edition`: the same letter has the same one. `answers` is the
    Message-ID of the mail that it answers. `attached` has names and texts of files."""

    name: str
    to: tuple[str, ...]
    subject: str
    text: str
    answers: str = ""
    attached: tuple[tuple[str, str], ...] = ()
    edition: str = ""


def one_line(text: str) -> str:
    """The text without line ends and control signs, so that it stays in its field."""
    return "".join(letter if letter.isprintable() else " " for letter in text)


def _set_text(message: EmailMessage, text: str) -> None:
    plain = text.isascii() and all(len(line) <= LONGEST_PLAIN_LINE for line in text.split("\n"))
    message.set_content(text, charset="us-ascii" if text.isascii() else "utf-8",
                        cte="7bit" if plain else "quoted-printable")


def message_bytes(club: Club, letter: Letter, now: datetime) -> bytes:
    """The whole message. Its fields can't be changed by what players wrote."""
    message = EmailMessage(policy=SMTP)
    message["From"] = one_line(club.settings.moderator)
    message["To"] = ", ".join(one_line(address) for address in letter.to)
    message["Subject"] = one_line(letter.subject)
    message["Date"] = format_datetime(now)
    message["Message-ID"] = f"<{letter.name}{letter.edition}.{club_mark(club)}@{domain(club)}>"
    if letter.answers:
        message["In-Reply-To"] = f"<{one_line(letter.answers)}>"
    message["Auto-Submitted"] = "auto-replied" if letter.answers else "auto-generated"
    message[OWN_MARK] = club_mark(club)
    _set_text(message, letter.text)
    for name, text in letter.attached:
        message.add_attachment(text.encode(), maintype="text", subtype="plain", filename=one_line(name))
    return message.as_bytes().replace(b"\r\n", b"\n")


def edition_of(text: str) -> str:
    """Tells two letters of one name apart, as the report of a month that is closed again is another letter."""
    return "." + hashlib.sha256(text.encode("utf-8", "replace")).hexdigest()[:8]


def domain(club: Club) -> str:
    return one_line(club.settings.moderator).rpartition("@")[2] or "localhost"


def club_mark(club: Club) -> str:
    """Tells this club's letters from those of others: the first signs of the published checksum of its seed."""
    try:
        return club.places.seed_checksum.read_text("ascii").strip()[:12] or "club"
    except (OSError, UnicodeDecodeError):
        return "club"


def is_written(club: Club, name: str) -> bool:
    """Whether the letter waits, was sent, or could not be sent."""
    return any((folder / f"{name}.eml").exists() for folder in (club.places.out, club.places.sent, club.places.failed))


def post(club: Club, letter: Letter, now: datetime) -> bool:
    """Writes the letter to out/, once: False where it was written before, or has nobody to go to."""
    if not letter.to or is_written(club, letter.name):
        return False
    path = club.places.out / f"{letter.name}.eml"
    write_file(path, message_bytes(club, letter, now))
    # where letters are moved to out/sent by hand, this says when a report went out
    os.utime(path, (now.timestamp(), now.timestamp()))
    return True
