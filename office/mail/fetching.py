"""Messages come to mail/in: from a mailbox by IMAP, or one on standard input, as `.forward` and procmail hand it over."""

from __future__ import annotations

import imaplib
import os
import re
import shutil
import ssl
import time
from collections.abc import Callable, Iterator
from contextlib import contextmanager
from dataclasses import dataclass
from pathlib import Path
from typing import IO

from office.club.club import Club
from office.club.files import read_json, write_file, write_json
from office.club.settings import Server
from office.errors import OfficeError
from office.mail.taking import BYTES_KEPT_ASIDE, MOST_BYTES

MOST_MESSAGES = 5_000
LEAST_FREE_BYTES = 100_000_000
SECONDS_OF_SILENCE = 60
BLOCK = 65_536
MESSAGES_OF_A_BATCH = 50
DIGITS_OF_A_NUMBER = 10  # a message's number in a mailbox is below 2^32
TEMPORARY_FAILURE = 75  # EX_TEMPFAIL: the mail server keeps the message, and hands it over again later


def check_room(folder: Path) -> None:
    """OfficeError where little room is left, so that mail can't fill the disk."""
    if shutil.disk_usage(folder).free < LEAST_FREE_BYTES:
        raise OfficeError("less than 100 MB are free on the disk: no mail is fetched. Make room, and call it again",
                          TEMPORARY_FAILURE)
    if sum(1 for _ in folder.iterdir()) >= MOST_MESSAGES:
        raise OfficeError(f"mail/in has {MOST_MESSAGES} messages already: call `kiwirudder take` first", TEMPORARY_FAILURE)


def fetch_one(club: Club, source: IO[bytes]) -> Path:
    """Puts one message into mail/in. Of one that is too large only the beginning is kept, in mail/aside. OfficeError with
    status 75 where it can't be written."""
    raw = source.read(MOST_BYTES + 1)
    name = f"{time.strftime('%Y%m%dT%H%M%S')}-{time.time_ns() % 10**9:09}-{os.getpid()}"
    try:
        check_room(club.places.incoming)
        if len(raw) <= MOST_BYTES:
            path = club.places.incoming / f"{name}.eml"
            write_file(path, raw)
            return path
        while source.read(BLOCK):
            pass
        path = club.places.aside / f"{name}.eml"
        write_file(path, raw[:BYTES_KEPT_ASIDE])
        club.log(f"aside {path.name}: over 1 MB")
        return path
    except OSError as error:
        raise OfficeError(f"the message can't be kept: {error.strerror}", TEMPORARY_FAILURE) from None


@dataclass(frozen=True)
class Mail:
    """A message of the mailbox: its number there, how large it is, and when it came, in seconds."""

    uid: int
    size: int
    came: float


def read_password(club: Club, server: Server) -> str:
    """The first line of the server's password file, which is named from the club's folder on."""
    path = club.places.root / server.password_file
    try:
        return path.read_text("utf-8").split("\n")[0].rstrip("\r")
    except (OSError, UnicodeDecodeError) as error:
        raise OfficeError(f"the password file {server.password_file or '(none is named)'} can't be read: {error}") from None


def tls_context(club: Club) -> ssl.SSLContext:
    """Trusts the system's certificates, and those of the file that club.toml names under mail.certificates."""
    context = ssl.create_default_context()
    if club.settings.certificates:
        context.load_verify_locations(club.places.root / club.settings.certificates)
    return context


def _connect(club: Club, server: Server) -> imaplib.IMAP4:
    if server.security == "tls":
        return imaplib.IMAP4_SSL(server.host, server.port, ssl_context=tls_context(club), timeout=SECONDS_OF_SILENCE)
    connection = imaplib.IMAP4(server.host, server.port, timeout=SECONDS_OF_SILENCE)
    if server.security == "starttls":
        connection.starttls(tls_context(club))
    return connection


@contextmanager
def _mailbox(club: Club, server: Server) -> Iterator[imaplib.IMAP4]:
    """The mailbox, with its folder opened. OfficeError for whatever the server or the line does wrong."""
    try:
        connection = _connect(club, server)
        try:
            connection.login(server.user, read_password(club, server))
            status, _ = connection.select(_quoted(server.folder))
            if status != "OK":
                raise OfficeError(f"the mailbox has no folder {server.folder}")
            yield connection
        finally:
            _log_out(connection)
    except (imaplib.IMAP4.error, OSError) as error:
        raise OfficeError(f"the mailbox at {server.host} can't be read: {_plain(error)}. What was fetched is kept; "
                          "call it again") from None


def _log_out(connection: imaplib.IMAP4) -> None:
    try:
        connection.logout()
    except (imaplib.IMAP4.error, OSError):
        pass


def _plain(error: Exception) -> str:
    text = error.args[0] if error.args else error
    return text.decode("ascii", "replace") if isinstance(text, bytes) else str(error)


def _quoted(folder: str) -> str:
    return '"' + folder.replace("\\", "\\\\").replace('"', '\\"') + '"'


def _uid_validity(connection: imaplib.IMAP4) -> int:
    _, values = connection.response("UIDVALIDITY")
    return int(values[0]) if values and values[0] else 0


def _numbers_after(connection: imaplib.IMAP4, last: int) -> list[int]:
    """The numbers of the messages that came since. A server names its last message also where that one isn't newer."""
    _, found = connection.uid("SEARCH", f"UID {last + 1}:*")
    return sorted(number for number in map(int, (found[0] or b"").split()) if number > last)


def _look_at(connection: imaplib.IMAP4, numbers: list[int]) -> list[Mail]:
    """Their sizes and times; a message that was removed meanwhile is passed over."""
    _, lines = connection.uid("FETCH", ",".join(map(str, numbers)), "(UID RFC822.SIZE INTERNALDATE)")
    mails = {}
    for line in lines:
        uid = re.search(rb"\bUID (\d+)", line) if isinstance(line, bytes) else None
        size = re.search(rb"RFC822\.SIZE (\d+)", line) if isinstance(line, bytes) else None
        if uid and size:
            moment = imaplib.Internaldate2tuple(line)
            mails[int(uid[1])] = Mail(int(uid[1]), int(size[1]), time.mktime(moment) if moment else time.time())
    return [mails[number] for number in numbers if number in mails]


def _text_of(connection: imaplib.IMAP4, mail: Mail) -> bytes | None:
    """None where the message was removed meanwhile. OfficeError where the server can't read it at this time."""
    part = f"BODY.PEEK[]<0.{BYTES_KEPT_ASIDE}>" if mail.size > MOST_BYTES else "BODY.PEEK[]"
    status, parts = connection.uid("FETCH", str(mail.uid), f"({part})")
    if status != "OK":
        raise OfficeError(f"the mail server can't read message {mail.uid} of the mailbox. What was fetched is kept; "
                          "call it again")
    return next((part[1] for part in parts if isinstance(part, tuple)), None)


def _fetch_batch(club: Club, connection: imaplib.IMAP4, validity: int, mails: list[Mail]) -> int:
    """Brings these messages, and notes the last one. A call that is killed before that brings them again, under the same
    names; what `take` had meanwhile it knows."""
    done: list[Mail] = []
    try:
        for mail in mails:
            check_room(club.places.incoming)
            text = _text_of(connection, mail)
            if text is not None:
                folder = club.places.aside if mail.size > MOST_BYTES else club.places.incoming
                # `take` goes by the names, and mail that came later has to come later there too.
                path = folder / f"imap-{validity}-{mail.uid:0{DIGITS_OF_A_NUMBER}}.eml"
                write_file(path, text)
                os.utime(path, (mail.came, mail.came))
            done.append(mail)
    finally:
        if done:
            write_json(club.places.record("imap"), {"validity": validity, "uid": done[-1].uid})
    connection.uid("STORE", ",".join(str(mail.uid) for mail in done), "+FLAGS.SILENT", "(\\Seen)")
    return len(done)


def fetch_mailbox(club: Club, server: Server, say: Callable[[str], None]) -> int:
    """Brings each message of the mailbox once, and returns how many came. They stay in the mailbox, marked as read."""
    count = 0
    with _mailbox(club, server) as connection:
        validity = _uid_validity(connection)
        state = read_json(club.places.record("imap"), {})
        last = state.get("uid", 0) if state.get("validity") == validity else 0
        numbers = _numbers_after(connection, last)
        for first in range(0, len(numbers), MESSAGES_OF_A_BATCH):
            mails = _look_at(connection, numbers[first:first + MESSAGES_OF_A_BATCH])
            count += _fetch_batch(club, connection, validity, mails) if mails else 0
            if len(numbers) > MESSAGES_OF_A_BATCH:
                say(f"{count} of {len(numbers)} messages fetched")
    return count
