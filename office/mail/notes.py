"""What was changed or left out on the way from a message to its lines."""

from __future__ import annotations

from dataclasses import dataclass
from enum import Enum


class Change(Enum):
    """A kind of change. The texts for players are in office/texts.py."""

    QUOTES = "curly quotes became straight"
    DASHES = "long dashes became -"
    ELLIPSES = "a sign of three dots became ..."
    SPACES = "no-break and other spaces became spaces"
    HIDDEN = "signs that nobody sees were taken out"
    FLOWED = "lines that a mail program broke were joined"
    HTML = "the text was taken out of HTML"
    ATTACHMENT = "the text was taken out of an attachment"
    OTHER_ORDERS = "another part with a header was left out"
    QUOTED_ORDERS = "a header in the text of another message was passed over"
    FORWARDED = "a forwarded message was left out"
    SIGNED = "a PGP signature was left out"
    CHARSET = "the letters were decoded by a guess"
    WINMAIL = "the file winmail.dat was read"
    WINMAIL_UNREAD = "the file winmail.dat could not be read"
    ENCRYPTED = "the message is encrypted"
    CUT_BYTES = "the message is too long, and its end was not read"
    CUT_LINES = "the text has too many lines, and its end was not read"
    CUT_PARTS = "the message has too many parts, and some were not read"


@dataclass(frozen=True)
class Note:
    """A change, with the numbers of the first lines that it concerns; none if it concerns the message."""

    change: Change
    lines: tuple[int, ...] = ()
