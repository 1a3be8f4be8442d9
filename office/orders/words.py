"""Splits a line of a mailing into its words, by docs/RULES.md, "Reading a mailing"."""

from __future__ import annotations

import re
from dataclasses import dataclass

MOST_NUMBER = 999_999_999
LAST_FACTION = 9_999
LAST_ALIAS = 9_999

_WORD = re.compile(r'[ \t]*(?:"([^"]*)"?|([^ \t;"]+))')
_BLANKS = " \t"


@dataclass(frozen=True)
class Word:
    """A word without the quotes around it. `start` and `end` are its place in the line, with the quotes."""

    text: str
    quoted: bool
    start: int
    end: int

    @property
    def keyword(self) -> str:
        """The word in capitals, as keywords are written."""
        return in_capitals(self.text)

    @property
    def name(self) -> str:
        """The word as a name: outside quotes `_` is read as a space."""
        return self.text if self.quoted else self.text.replace("_", " ")


def in_capitals(text: str) -> str:
    """The text in capitals. A text with other signs than ASCII stays as it is, since no keyword has any."""
    return text.upper() if text.isascii() else text


def words_of(line: str) -> list[Word]:
    """The words of a line, up to a comment."""
    words = []
    found = _WORD.match(line)
    while found:
        quoted, bare = found.group(1), found.group(2)
        start = found.end() - len(bare) if bare is not None else line.index('"', found.start())
        words.append(Word(quoted if bare is None else bare, bare is None, start, found.end()))
        found = _WORD.match(line, found.end())
    return words


def begins(line: str, keyword: str) -> bool:
    """Whether the first word of a line is a keyword, which is written in capitals."""
    found = _WORD.match(line)
    return found is not None and in_capitals(found.group(1) if found.group(2) is None else found.group(2)) == keyword


def number_of(text: str, most: int = MOST_NUMBER) -> int | None:
    """The number that a word writes in digits, None for another word and for a number above `most`."""
    if not (text.isascii() and text.isdigit()):
        return None
    digits = text.lstrip("0") or "0"
    if len(digits) > len(str(most)) or int(digits) > most:
        return None
    return int(digits)


def count_of(text: str, most: int = MOST_NUMBER) -> int | None:
    """As `number_of`, but None for 0 too."""
    return number_of(text, most) or None


def comment_of(line: str) -> str | None:
    """What follows the `;` that begins a comment, None if the line has no comment."""
    words = words_of(line)
    rest = line[words[-1].end if words else 0:].lstrip(_BLANKS)
    return rest[1:] if rest.startswith(";") else None
