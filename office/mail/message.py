"""Reads the bytes of an e-mail, or of a file with a body alone. Whatever the bytes are, the time is bounded, and
nothing is raised."""

from __future__ import annotations

import re
from collections.abc import Sequence
from dataclasses import dataclass
from datetime import datetime, timedelta, timezone

from office.mail.body import Text, text_of_file, text_of_parts
from office.mail.fields import Field, decode_words, first_value, split_head, values_of
from office.mail.limits import LONGEST_AUTHENTICATION, LONGEST_ID, LONGEST_SUBJECT, MOST_AUTHENTICATIONS, MOST_BYTES
from office.mail.notes import Change, Note
from office.mail.parts import find_parts, kind_of
from office.mail.senders import Automatic, automatic_of, is_authentic, sender_of
from office.mail.signs import without_hidden

__all__ = ["Automatic", "Message", "read_body", "read_message", "split_mbox"]

_MONTHS = ("jan", "feb", "mar", "apr", "may", "jun", "jul", "aug", "sep", "oct", "nov", "dec")
_DATE = re.compile(
    r"\s*(?:[A-Za-z]{3},)?\s*(\d{1,2})\s+([A-Za-z]{3})\s+(\d{4})\s+(\d{1,2}):(\d\d)(?::(\d\d))?"
    r"\s+(?:([+-])(\d\d)(\d\d)|GMT|UTC?|Z)\b"
)
_MBOX_LINE = rb"From [^\r\n]{1,300}\d\d:\d\d[^\r\n]{0,60}\d{4}[^\r\n]{0,20}\r?\n"
_MBOX_FIRST = re.compile(_MBOX_LINE)
_MBOX_NEXT = re.compile(rb"\r?\n\r?\n(?=" + _MBOX_LINE + rb"[!-9;-~]+:)")
_MBOX_QUOTED = re.compile(rb"^>(?=>*From )", re.MULTILINE)


@dataclass(frozen=True)
class Message:
    """What the office needs of a message.

    `message_id` is without `<` and `>`; '' where there is none, or where it isn't printable ASCII of at most 200 signs.
    `sender` is the one address of From in small letters, '' where there isn't exactly one plain address. `subject` is
    one line without control signs, of at most 200. `received` is the time of the topmost Received, in UTC; None where
    it can't be read. `authentication` has the values of Authentication-Results, topmost first."""

    message_id: str
    sender: str
    subject: str
    received: datetime | None
    automatic: Automatic
    authentication: tuple[str, ...]
    lines: tuple[str, ...]
    notes: tuple[Note, ...]

    def is_authentic(self, authserv: str) -> bool:
        """Whether the server `authserv` says that the sender's address is real: the topmost Authentication-Results
        under its name has dmarc=pass, or dkim=pass or spf=pass for the sender's domain or one above it."""
        return is_authentic(self.authentication, authserv, self.sender)


def read_message(raw: bytes) -> Message:
    """Reads a whole message, head and body."""
    fields, body = split_head(_without_mbox_line(raw[:MOST_BYTES]))
    text = _with_cut(text_of_parts(find_parts(fields, body)), raw)
    sender, subject = sender_of(fields), _subject_of(fields)
    results = values_of(fields, "authentication-results")[:MOST_AUTHENTICATIONS]
    return Message(
        message_id=_id_of(fields),
        sender=sender,
        subject=subject,
        received=_received_of(fields),
        automatic=automatic_of(fields, kind_of(first_value(fields, "content-type")), sender, subject),
        authentication=tuple(value[:LONGEST_AUTHENTICATION] for value in results),
        lines=text.lines,
        notes=text.notes,
    )


def read_body(raw: bytes) -> Message:
    """Reads a file that is a body alone: nobody sent it, at no time."""
    text = _with_cut(text_of_file(raw[:MOST_BYTES]), raw)
    return Message("", "", "", None, Automatic.NO, (), text.lines, text.notes)


def split_mbox(raw: bytes) -> list[bytes]:
    """The messages of a file that is an mbox, each without its line `From `; else the file alone.

    A sender can write a line into a message that looks as if another one began there. So only a file that a mail
    program wrote as an mbox is to be split, and never a single message as it came."""
    if not _MBOX_FIRST.match(raw):
        return [raw]
    return [_MBOX_QUOTED.sub(b"", _without_mbox_line(message)) for message in _MBOX_NEXT.split(raw)]


def _without_mbox_line(raw: bytes) -> bytes:
    found = _MBOX_FIRST.match(raw)
    return raw[found.end():] if found else raw


def _with_cut(text: Text, raw: bytes) -> Text:
    return Text(text.lines, (*text.notes, Note(Change.CUT_BYTES))) if len(raw) > MOST_BYTES else text


def _subject_of(fields: Sequence[Field]) -> str:
    return without_hidden(decode_words(first_value(fields, "subject")))[:LONGEST_SUBJECT].strip()


def _id_of(fields: Sequence[Field]) -> str:
    value = first_value(fields, "message-id")
    found = re.fullmatch(r"\s*<?([!-;=?-~]+)>?\s*", value)
    return found[1] if found and len(found[1]) <= LONGEST_ID else ""


def _received_of(fields: Sequence[Field]) -> datetime | None:
    """The time at the end of the topmost Received."""
    found = _DATE.match(first_value(fields, "received").rpartition(";")[2])
    if not found or found[2].lower() not in _MONTHS:
        return None
    day, year, hour, minute = (int(found[i]) for i in (1, 3, 4, 5))
    month = _MONTHS.index(found[2].lower()) + 1
    try:
        local = datetime(year, month, day, hour, minute, min(int(found[6] or 0), 59), tzinfo=timezone.utc)
        offset = timedelta(hours=int(found[8] or 0), minutes=int(found[9] or 0))
        return local + offset if found[7] == "-" else local - offset
    except (ValueError, OverflowError):
        return None
