"""Finds the mailings in the lines of a message: each goes from a line `#ATLANTIS n` to a line `#END`.

A block with `#END` holds all lines up to there. A block without it ends at the first of these: a signature, a line of
another message, the next header, the end of the text. Then its tail is cut off. The tail begins at the first empty line
below the last line that surely is an order: one with all its words and no other. So `Work 020 7946 0958` below an empty
line and a greeting is no order, and the reply shows what was cut."""

from __future__ import annotations

from collections.abc import Sequence
from dataclasses import dataclass
from enum import Enum

from office.mail.marks import is_blank, is_signature, mark_quoted
from office.orders.reading import is_clean_order
from office.orders.words import LAST_FACTION, begins, count_of, words_of

HEADER = "#ATLANTIS"
END = "#END"
# so many of the lines that were cut off are kept for the reply
MOST_CUT = 20


class Ended(Enum):
    """What ended a block."""

    END = "end"
    SIGNATURE = "signature"
    QUOTE = "quote"
    NEXT_HEADER = "next header"
    TEXT_END = "text end"


@dataclass(frozen=True)
class Block:
    """The mailing of one faction, as a message has it.

    `faction` is the number on the header line, None where it is missing or isn't from 1 to 9,999. `pass_text` is what
    follows it. `first_line` is the number of the header's line. `orders` are the lines below the header, without the
    line of `#END`; a line of another message among them is empty. `cut` has lines that were left out. `unread` is the
    number of the first line below `#END` that reads as an order, 0 if there is none."""

    faction: int | None
    pass_text: str | None
    first_line: int
    orders: tuple[str, ...]
    ended: Ended
    cut: tuple[str, ...]
    unread: int = 0

    def mailing(self) -> bytes:
        """What is handed to the program: its line numbers are those of the message, and it has no pass text."""
        header = HEADER if self.faction is None else f"{HEADER} {self.faction}"
        lines = [""] * (self.first_line - 1) + [header, *self.orders, END, ""]
        return "\n".join(lines).encode("utf-8", "replace")


def find_blocks(lines: Sequence[str]) -> list[Block]:
    """The blocks of a text, from the top down. Lines of another message are neither header nor order."""
    quoted = mark_quoted(lines)
    headers = [i for i, line in enumerate(lines) if not quoted[i] and begins(line, HEADER)]
    limits = [*headers[1:], len(lines)]
    return [_block(lines, quoted, header, limit) for header, limit in zip(headers, limits)]


def _block(lines: Sequence[str], quoted: Sequence[bool], header: int, limit: int) -> Block:
    stop, ended = _find_stop(lines, quoted, header + 1, limit)
    taken = ["" if quoted[i] else lines[i] for i in range(header + 1, stop)]
    unread = 0
    if ended is Ended.END:
        cut = [lines[i] for i in range(header + 1, stop) if quoted[i]]
        unread = next((i + 1 for i in range(stop + 1, limit) if not quoted[i] and is_clean_order(lines[i])), 0)
    else:
        tail = _tail(taken)
        ended = ended if tail == len(taken) else Ended.SIGNATURE
        cut = [line for line in lines[header + 1 + tail:limit] if not is_blank(line)]
        taken = _without_empty_end(taken[:tail])
    faction, pass_text = read_header(lines[header])
    return Block(faction, pass_text, header + 1, tuple(taken), ended, tuple(cut[:MOST_CUT]), unread)


def _find_stop(lines: Sequence[str], quoted: Sequence[bool], first: int, limit: int) -> tuple[int, Ended]:
    """Where a block ends whose orders begin at `first`, and why. `limit` is the next header, or the end of the text."""
    for i in range(first, limit):
        if not quoted[i] and begins(lines[i], END):
            return i, Ended.END
    for i in range(first, limit):
        if quoted[i]:
            return i, Ended.QUOTE
        if is_signature(lines[i]):
            return i, Ended.SIGNATURE
    return limit, Ended.TEXT_END if limit == len(lines) else Ended.NEXT_HEADER


def _tail(lines: Sequence[str]) -> int:
    """Where the part of a block without `#END` begins that holds no order: below an empty line after the last line that
    surely is one. It is the end of the lines if there is no such part."""
    last = max((i for i, line in enumerate(lines) if is_clean_order(line)), default=None)
    if last is None:
        return len(lines)
    empty = next((i for i in range(last + 1, len(lines)) if is_blank(lines[i])), len(lines))
    return empty if any(words_of(line) for line in lines[empty:]) else len(lines)


def _without_empty_end(lines: Sequence[str]) -> list[str]:
    end = len(lines)
    while end and is_blank(lines[end - 1]):
        end -= 1
    return list(lines[:end])


def read_header(line: str) -> tuple[int | None, str | None]:
    """The faction and the pass text of a header line. A pass text may have `"` and `;` in it, so it goes up to the next
    blank; in quotes it goes to the next quote."""
    words = words_of(line)
    if len(words) < 2:
        return None, None
    faction = count_of(words[1].text, LAST_FACTION)
    rest = line[words[1].end:].lstrip(" \t")
    if not rest or rest.startswith(";"):
        return faction, None
    if rest.startswith('"'):
        return faction, rest[1:].partition('"')[0]
    return faction, rest.replace("\t", " ").partition(" ")[0]
