"""Letters go from out/ to the mail server, each once: what the server took lies in out/sent/ from then on."""

from __future__ import annotations

import email.policy
import os
import re
import smtplib
import time
from collections.abc import Callable
from dataclasses import dataclass
from email import message_from_bytes
from email.message import EmailMessage
from email.utils import getaddresses
from pathlib import Path
from typing import cast

from office.club.club import Club
from office.club.files import effect, move_file, read_json, write_json
from office.club.settings import Server
from office.errors import OfficeError
from office.mail.fetching import read_password, tls_context

SECONDS_OF_SILENCE = 60
LETTERS_FOR_A_CONNECTION = 50
REFUSED_FOR_GOOD = 500
TOO_LARGE = 552
MOST_LINES_DROPPED = 3  # one after the other


@dataclass(frozen=True)
class Sent:
    """How many letters the server took, refused for good, and couldn't take at this time."""

    taken: int
    refused: int
    waiting: int


class Post:
    """A connection to the mail server that is opened anew after some letters, or when the line was dropped."""

    def __init__(self, club: Club, server: Server) -> None:
        self.club = club
        self.server = server
        self.connection: smtplib.SMTP | None = None
        self.used = 0
        self.dropped = 0

    def _open(self) -> smtplib.SMTP:
        server = self.server
        if server.security == "tls":
            connection: smtplib.SMTP = smtplib.SMTP_SSL(server.host, server.port, timeout=SECONDS_OF_SILENCE,
                                                        context=tls_context(self.club))
        else:
            connection = smtplib.SMTP(server.host, server.port, timeout=SECONDS_OF_SILENCE)
            if server.security == "starttls":
                connection.starttls(context=tls_context(self.club))
        if server.user:
            connection.login(server.user, read_password(self.club, server))
        return connection

    def send(self, sender: str, to: list[str], message: bytes) -> dict[str, tuple[int, bytes]]:
        """The addresses for which the server didn't take the letter, with its answers. Any error of smtplib or the
        system where it took the letter for none."""
        if self.connection is None or self.used >= LETTERS_FOR_A_CONNECTION:
            self.close()
            self.connection = self._open()
        self.used += 1
        return self.connection.sendmail(sender, to, message)

    def close(self) -> None:
        if self.connection is not None:
            try:
                self.connection.quit()
            except (smtplib.SMTPException, OSError):
                self.connection.close()
        self.connection = None
        self.used = 0


def _code(error: Exception) -> int:
    """The server's answer to the letter; 0 where there is none."""
    if isinstance(error, smtplib.SMTPRecipientsRefused):
        return min((code for code, _ in error.recipients.values()), default=REFUSED_FOR_GOOD)
    if isinstance(error, smtplib.SMTPResponseException):
        return int(error.smtp_code)
    return 0


def _is_about_the_letter(error: Exception) -> bool:
    """Where the club's own address is refused for good, all letters are, so that isn't about the letter."""
    if isinstance(error, smtplib.SMTPSenderRefused):
        return error.smtp_code < REFUSED_FOR_GOOD or error.smtp_code == TOO_LARGE
    return isinstance(error, smtplib.SMTPRecipientsRefused | smtplib.SMTPDataError)


def _read_letter(path: Path) -> tuple[str, list[str], bytes]:
    """Who sends it to whom, and its bytes with the line ends of SMTP: a server may refuse others."""
    raw = re.sub(rb"\r\n|\r|\n", b"\r\n", path.read_bytes())
    message = cast(EmailMessage, message_from_bytes(raw, policy=email.policy.default))
    sender = getaddresses([str(message["From"] or "")])[0][1]
    to = [address for _, address in getaddresses([str(value) for value in message.get_all("To", [])]) if address]
    return sender, to, raw


def _fail(club: Club, path: Path, why: str) -> None:
    write_json(club.places.failed / f"{path.stem}.json", {"why": why[:500]})
    move_file(path, club.places.failed / path.name)
    club.log(f"letter {path.name} can't be sent: {why}")


def waiting_letters(club: Club) -> list[Path]:
    return sorted(path for path in club.places.out.glob("*.eml") if not path.name.startswith("."))


def send_letters(club: Club, server: Server, say: Callable[[str], None]) -> Sent:
    """Sends what lies in out/. A letter that the server refuses for good goes to out/failed/; one that it can't take at
    this time stays. OfficeError where the server can't be reached."""
    letters = waiting_letters(club)
    taken = refused = waiting = 0
    post = Post(club, server)
    try:
        for number, path in enumerate(letters, 1):
            match _send(club, post, path, say):
                case "taken":
                    taken += 1
                case "refused":
                    refused += 1
                case _:
                    waiting += 1
            if number % 50 == 0:
                say(f"{number} of {len(letters)} letters")
    finally:
        post.close()
    return Sent(taken, refused, waiting)


def _record(club: Club, path: Path) -> Path:
    """Which addresses have the letter, where the server took it for some alone."""
    return club.places.sent / f"{path.stem}.json"


def _send(club: Club, post: Post, path: Path, say: Callable[[str], None]) -> str:
    record = _record(club, path)
    try:
        sender, to, raw = _read_letter(path)
        have_it = read_json(record, [])
        rest = [address for address in to if address not in have_it]
        with effect():
            refused = post.send(sender, rest, raw)
        if refused:
            write_json(record, [*have_it, *(address for address in rest if address not in refused)])
            raise smtplib.SMTPRecipientsRefused(refused)
    except (smtplib.SMTPException, OSError) as error:
        return _not_sent(club, post, path, error, say)
    post.dropped = 0
    os.utime(path, (time.time(), time.time()))
    move_file(path, club.places.sent / path.name)
    return "taken"


def _not_sent(club: Club, post: Post, path: Path, error: Exception, say: Callable[[str], None]) -> str:
    post.close()
    code = _code(error)
    if _is_about_the_letter(error):
        post.dropped = 0
        if code >= REFUSED_FOR_GOOD:
            say(f"{path.name}: the mail server refuses it: {error}")
            _fail(club, path, str(error))
            return "refused"
        say(f"{path.name}: the mail server can't take it at this time ({code}); it stays in out/")
        return "waiting"
    post.dropped += 1
    if isinstance(error, smtplib.SMTPServerDisconnected | TimeoutError) and post.dropped < MOST_LINES_DROPPED:
        say(f"{path.name}: the line was dropped; it stays in out/, and may come twice")
        return "waiting"
    raise OfficeError(f"the mail server {post.server.host} can't be used: {error}. The letters stay in out/") from None
