"""Signs that mail programs and phones write for those of a keyboard become ASCII again, or go away."""

from __future__ import annotations

import re
from collections.abc import Sequence

from office.mail.limits import MOST_NOTED_LINES
from office.mail.notes import Change, Note


def _ranges(*bounds: tuple[int, int]) -> list[int]:
    return [code for first, last in bounds for code in range(first, last + 1)]


_QUOTES = {**dict.fromkeys("“”„‟«»″〝〞＂", '"'), **dict.fromkeys("‘’‚‛‹›′`´ʼ＇", "'")}
del _QUOTES["`"]
# a long dash is what phones and word processors make of two
_DASHES = {**dict.fromkeys("‐‑‒–−﹣－", "-"), **dict.fromkeys("—―", "--")}
_ELLIPSES = {"…": "...", "‥": ".."}
_SPACES = dict.fromkeys(map(chr, [0xA0, 0x1680, *range(0x2000, 0x200B), 0x202F, 0x205F, 0x3000]), " ")
# controls but tab; soft hyphen, joiners, marks of direction, byte order marks, variation selectors, tags
_HIDDEN_CODES = _ranges(
    (0x00, 0x08), (0x0B, 0x1F), (0x7F, 0x9F), (0xAD, 0xAD), (0x34F, 0x34F), (0x61C, 0x61C), (0x180B, 0x180E),
    (0x200B, 0x200F),
    (0x202A, 0x202E), (0x2060, 0x206F), (0xFE00, 0xFE0F), (0xFEFF, 0xFEFF), (0xFFF9, 0xFFFB), (0xE0000, 0xE007F),
)
_HIDDEN = dict.fromkeys(map(chr, _HIDDEN_CODES), "")

_TABLES = {Change.QUOTES: _QUOTES, Change.DASHES: _DASHES, Change.ELLIPSES: _ELLIPSES, Change.SPACES: _SPACES,
           Change.HIDDEN: _HIDDEN}
_ALL = str.maketrans({sign: plain for table in _TABLES.values() for sign, plain in table.items()})
_PATTERNS = {change: re.compile("[" + "".join(map(re.escape, table)) + "]") for change, table in _TABLES.items()}
_HIDDEN_PATTERN = _PATTERNS[Change.HIDDEN]
_LINE_ENDS = re.compile("\r+\n?|\x85|\u2028|\u2029")


def plain_signs(line: str) -> str:
    """A line with ASCII in the place of signs that look like it, and without signs that nobody sees."""
    return line if line.isascii() and line.isprintable() else line.translate(_ALL)


def without_hidden(text: str) -> str:
    """A text without control signs and those that change its direction; a line feed goes away too."""
    return _HIDDEN_PATTERN.sub("", text.replace("\n", ""))


def _line_ends(match: re.Match[str]) -> str:
    """A line feed for a run of returns before a line feed, and for each return of another run."""
    run = match[0]
    return "\n" if run.endswith("\n") else "\n" * len(run)


def split_lines(text: str) -> list[str]:
    """The lines of a text, whose line ends may be those of any system. The last line is left out if it is empty."""
    lines = _LINE_ENDS.sub(_line_ends, text).split("\n")
    return lines[:-1] if lines[-1] == "" else lines


def plain_lines(lines: Sequence[str]) -> tuple[list[str], list[Note]]:
    """The lines with plain signs, and a note for each sort of sign that was changed."""
    changed: dict[Change, list[int]] = {change: [] for change in _TABLES}
    for number, line in enumerate(lines, 1):
        if line.isascii() and line.isprintable():
            continue
        for change, pattern in _PATTERNS.items():
            if len(changed[change]) < MOST_NOTED_LINES and pattern.search(line):
                changed[change].append(number)
    notes = [Note(change, tuple(numbers)) for change, numbers in changed.items() if numbers]
    return [plain_signs(line) for line in lines], notes
