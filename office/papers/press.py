"""Finds what players write for the chronicle: lines `; PRESS text` inside the orders of a mailing.

For the program such a line is a comment, so it makes no fault and no order, and stays in the mailing that is kept.
Lines one after another are one piece, and a line `; PRESS` alone begins a new paragraph of it."""

import re
from collections.abc import Iterator
from dataclasses import dataclass

# As docs/RULES.md, "Reading a mailing", splits a line into words.
FIRST_WORD = re.compile(r'[ \t]*(?:"([^"]*)|([^ \t;"]*))')
PRESS = re.compile(r"[ \t]*;[ \t]*PRESS(?:[ \t]*:[ \t]*|[ \t]+|$)(.*)", re.IGNORECASE | re.DOTALL)
NOT_ASCII = re.compile(r"[^\t -~]")


@dataclass(frozen=True)
class Piece:
    """A piece of press, which has one paragraph at least."""

    paragraphs: tuple[str, ...]


def press_of(mailing: bytes) -> tuple[Piece, ...]:
    """The pieces in a mailing, in its order. A byte that an order may not have is shown as `?`."""
    pieces: list[list[str]] = []
    is_open = False
    for line in _inner_lines(mailing):
        found = PRESS.fullmatch(line)
        if found and not is_open:
            pieces.append([])
        if found:
            pieces[-1].append(NOT_ASCII.sub("?", found[1]).strip())
        is_open = found is not None
    joined = (tuple(_paragraphs(lines)) for lines in pieces)
    return tuple(Piece(paragraphs) for paragraphs in joined if paragraphs)


def _paragraphs(lines: list[str]) -> Iterator[str]:
    """The lines joined up to each empty one."""
    paragraph: list[str] = []
    for line in [*lines, ""]:
        if line:
            paragraph.append(line)
        elif paragraph:
            yield " ".join(paragraph)
            paragraph = []


def _inner_lines(mailing: bytes) -> Iterator[str]:
    """The lines between the header and `#END`, each byte as a letter."""
    is_inside = False
    for line in mailing.decode("latin-1").split("\n"):
        first = _first_word(line.removesuffix("\r"))
        if is_inside and first == "#END":
            return
        if is_inside:
            yield line.removesuffix("\r")
        is_inside = is_inside or first == "#ATLANTIS"


def _first_word(line: str) -> str:
    found = FIRST_WORD.match(line)
    return (found[1] or found[2] or "").upper() if found else ""
