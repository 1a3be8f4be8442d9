"""The reply to a mailing that was taken: its lines as they were read, with faults and warnings."""

from __future__ import annotations

import textwrap
from collections.abc import Iterator, Sequence
from dataclasses import dataclass
from functools import lru_cache

from office import texts
from office.mail.blocks import END, HEADER, MOST_CUT, Block, Ended
from office.mail.notes import Note
from office.orders.faults import LineFault, program_name
from office.orders.shown import shown
from office.orders.warnings import Warning, warn

WIDTH = texts.WIDTH
LONGEST_LINE_SHOWN = 200
MOST_LETTERS = 150_000
MOST_LINES_NAMED = 10
_INDENT = "    "


@dataclass(frozen=True)
class Previous:
    """The mailing that was replaced: when it came, in words, and how many orders it had."""

    when: str
    orders: int


@dataclass(frozen=True)
class Taken:
    """A mailing that the program took: `orders` and `faults` (number of a line, number of its fault) are the program's
    answer, `notes` those of the message. `own_units` are those of the faction's last report, None where it isn't known.
    `deadline` is in words."""

    month: int
    faction: int
    block: Block
    orders: int
    faults: Sequence[tuple[int, int]]
    notes: Sequence[Note] = ()
    own_units: frozenset[int] | None = None
    previous: Previous | None = None
    deadline: str | None = None


@dataclass(frozen=True)
class Reply:
    """The text of a reply, and how many warnings it has."""

    text: str
    warnings: int


def reply(taken: Taken) -> Reply:
    """The reply. Nothing that the player wrote is shown with control signs, and it has at most some 200,000 letters."""
    warnings = warn(taken.block, _known_faults(taken.faults), taken.own_units)
    sections = [
        _head(taken, len(warnings)),
        _listing(taken),
        _left_out(taken.block),
        _list(texts.WARNINGS, [_sentence(warning) for warning in warnings]),
        _list(texts.CHANGED, changes_in_words(taken.notes, *_span(taken.block))),
    ]
    return Reply("\n\n".join("\n".join(section) for section in sections if section) + "\n", len(warnings))


def _known_faults(faults: Sequence[tuple[int, int]]) -> dict[int, LineFault]:
    """The faults by their lines. One that this office doesn't know counts as the most general one."""
    numbers = set(LineFault)
    return {line: LineFault(number) if number in numbers else LineFault.UNKNOWN_ORDER for line, number in faults}


def _wrapped(text: str, first: str = "", rest: str = "") -> list[str]:
    return textwrap.wrap(text, WIDTH, initial_indent=first, subsequent_indent=rest, break_long_words=False,
                         break_on_hyphens=False)


def _head(taken: Taken, warnings: int) -> list[str]:
    lines = _wrapped(texts.counts(taken.faction, taken.month, taken.orders, len(taken.faults), warnings))
    if taken.previous:
        lines += _wrapped(texts.replaced(taken.previous.when, taken.previous.orders, taken.orders))
    if taken.faults:
        lines += _wrapped(texts.FAULTS_BELOW)
    return lines + _wrapped(texts.send_again(taken.deadline, bool(taken.faults)))


def _numbered(number: int, line: str) -> str:
    return f"{number:5}  {shown(line, LONGEST_LINE_SHOWN)}".rstrip()


def _header(block: Block) -> str:
    header = f"{HEADER} {block.faction}"
    return f"{header} {texts.PASS_TEXT_LEFT_OUT}" if block.pass_text else header


@lru_cache
def _fault(number: int) -> tuple[str, ...]:
    """The lines below a faulty line."""
    fault = LineFault(number) if number in set(LineFault) else None
    words = (program_name(fault), texts.FAULTS[fault]) if fault else ("", texts.OTHER_FAULT)
    return tuple(_wrapped(texts.fault_line(number, *words), " " * 7, " " * 10))


def _entries(taken: Taken) -> Iterator[tuple[int, list[str]]]:
    """Each line that was taken, with its fault."""
    faults = dict(taken.faults)
    block = taken.block
    yield block.first_line, [_numbered(block.first_line, _header(block))]
    for number, line in enumerate(block.orders, block.first_line + 1):
        yield number, [_numbered(number, line), *(_fault(faults[number]) if number in faults else ())]
    if block.ended is Ended.END:
        last = block.first_line + len(block.orders) + 1
        yield last, [_numbered(last, END)]


def _listing(taken: Taken) -> list[str]:
    """The lines that were taken, as far as there is room."""
    if not taken.block.orders:
        return _wrapped(texts.NO_LINES)
    lines = [*_wrapped(texts.LINES_TAKEN), ""]
    room = MOST_LETTERS
    last = taken.block.first_line + len(taken.block.orders)
    for number, entry in _entries(taken):
        room -= sum(len(line) + 1 for line in entry)
        if room < 0:
            hidden = sum(line >= number for line, _ in taken.faults)
            return [*lines, "", *_wrapped(texts.not_shown(number, last, hidden))]
        lines += entry
    return lines


def _left_out(block: Block) -> list[str]:
    if not block.cut:
        return []
    more = _wrapped(texts.MORE_LEFT_OUT) if len(block.cut) >= MOST_CUT else []
    return [*_wrapped(texts.LINES_LEFT_OUT), "", *(_INDENT + shown(line, LONGEST_LINE_SHOWN) for line in block.cut),
            *more]


def _list(title: str, sentences: Sequence[str]) -> list[str]:
    if not sentences:
        return []
    return [*_wrapped(title), "", *(line for sentence in sentences for line in _wrapped(sentence, "- ", "  "))]


def _sentence(warning: Warning) -> str:
    return warning.text[:1].upper() + warning.text[1:]


def _span(block: Block) -> tuple[int, int]:
    """The numbers of the block's first and last line, with the line of #END."""
    return block.first_line, block.first_line + len(block.orders) + 1


def changes_in_words(notes: Sequence[Note], first: int, last: int) -> list[str]:
    """What was changed in the lines from `first` to `last`, or in the message as a whole: a sentence each."""
    sentences = []
    for note in notes:
        numbers = [number for number in note.lines if first <= number <= last]
        if numbers or not note.lines:
            text = f"{texts.CHANGES[note.change]}{texts.in_lines(numbers, MOST_LINES_NAMED)}."
            sentences.append(text[:1].upper() + text[1:])
    return sentences
