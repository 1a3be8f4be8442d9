"""What in a mailing may be other than its player means. A warning is only for the eye: the program decides.

Where nothing is known, nothing is said: without a report no unit is unknown, and a line with a fault gives no
warning."""

from __future__ import annotations

from collections.abc import Collection, Iterator, Mapping, Sequence
from dataclasses import dataclass

from office import texts
from office.mail.blocks import Block, Ended
from office.orders.faults import LineFault
from office.orders.reading import Reading, Role, Slot, Target, read_orders
from office.orders.shown import shown
from office.orders.words import comment_of, count_of, words_of

MOST_UNITS_NAMED = 10
MOST_WARNINGS = 40
LONGEST_EXTRA = 60
# mail programs break lines at 72 letters or more
WRAPS_AT = 72


@dataclass(frozen=True)
class Warning:
    """`line` is the number of the line that it is about, 0 for the whole mailing."""

    line: int
    text: str


def warn(block: Block, faults: Mapping[int, LineFault] | None, own_units: Collection[int] | None) -> list[Warning]:
    """The warnings for a mailing, those for lines first. `faults` are those that the program found, by line, and
    `own_units` the units of the faction's last report."""
    readings = read_orders(block.orders, block.first_line + 1, faults)
    found = [
        *_replaced(readings),
        *_extra(block, readings),
        *_forms_without_end(readings),
        *_unknown_aliases(readings),
        *(Warning(reading.line, texts.quits(reading.line)) for reading in _orders(readings, "QUIT")),
        *(_not_in_report(readings, own_units) if own_units is not None else ()),
        *([Warning(block.unread, texts.below_end(block.unread))] if block.unread else ()),
    ]
    of_lines = sorted(found, key=lambda warning: warning.line)
    more = len(of_lines) - MOST_WARNINGS
    return [
        *of_lines[:MOST_WARNINGS],
        *([Warning(0, texts.more_warnings(more))] if more > 0 else []),
        *(_without_orders(readings, own_units) if own_units is not None else ()),
        *_ending(block),
    ]


def _orders(readings: Sequence[Reading], keyword: str) -> list[Reading]:
    return [reading for reading in readings if reading.is_order and reading.verb and reading.verb.keyword == keyword]


def _keyword(reading: Reading) -> str:
    return reading.verb.keyword if reading.verb else reading.role.name


def _replaced(readings: Sequence[Reading]) -> Iterator[Warning]:
    """A later order that takes the slot of an earlier one."""
    last: dict[tuple[Target, Slot], Reading] = {}
    for reading in readings:
        if not reading.is_order or not reading.verb or not reading.verb.slot or not reading.target:
            continue
        key = (reading.target, reading.verb.slot)
        if key in last:
            unit = texts.unit_in_words(reading.target.number, reading.target.is_new)
            earlier = last[key]
            text = texts.replaces(reading.line, _keyword(reading), earlier.line, _keyword(earlier), unit,
                                  reading.verb.slot is Slot.MONTH_LONG)
            yield Warning(reading.line, text)
        last[key] = reading


def _extra(block: Block, readings: Sequence[Reading]) -> Iterator[Warning]:
    """Words that the program passes over, and lines that may be the rest of a comment."""
    above = ""
    for line, reading in zip(block.orders, readings):
        if reading.fault is None and reading.role is not Role.NOTHING:
            if _is_rest_of_comment(above, line, reading):
                yield Warning(reading.line, texts.rest_of_comment(reading.line, _keyword(reading), reading.line - 1))
            elif reading.extra:
                words = shown(line[reading.extra[0].start:reading.extra[-1].end], LONGEST_EXTRA)
                yield Warning(reading.line, texts.extra_words(reading.line, _keyword(reading), words))
        above = line


def _is_rest_of_comment(above: str, line: str, reading: Reading) -> bool:
    """Whether a mail program may have made a line out of the end of the comment above it: the line isn't indented, and
    has words too many, or the first of its words would have made the line above too long."""
    comment = comment_of(above)
    if comment is None or not comment.strip() or line[:1] in (" ", "\t"):
        return False
    return bool(reading.extra) or len(above) + 1 + len(words_of(line)[0].text) > WRAPS_AT


def _forms_without_end(readings: Sequence[Reading]) -> Iterator[Warning]:
    open_form: Reading | None = None
    last = 0
    for reading in readings:
        if reading.fault is LineFault.BAD_BYTE:
            continue
        if reading.role is Role.UNIT and open_form:
            yield Warning(open_form.line, texts.form_without_end(open_form.line, last))
        if reading.role in (Role.UNIT, Role.END):
            open_form = None
        elif reading.role is Role.FORM and reading.fault is None:
            open_form = reading
        if reading.role is not Role.NOTHING:
            last = reading.line
    if open_form:
        yield Warning(open_form.line, texts.form_without_end(open_form.line, last))


def _aliases_named(reading: Reading) -> Iterator[int]:
    """The numbers after NEW in an order."""
    for word, after in zip(reading.operands, reading.operands[1:]):
        if word.keyword == "NEW" and _keyword(reading) in ("PROMOTE", "GIVE", "PAY", "TRANSFER", "TEACH"):
            alias = count_of(after.text)
            if alias:
                yield alias


def _unknown_aliases(readings: Sequence[Reading]) -> Iterator[Warning]:
    formed = {count_of(reading.operands[0].text) for reading in _orders(readings, "FORM")}
    for reading in readings:
        if reading.is_order:
            for alias in dict.fromkeys(_aliases_named(reading)):
                if alias not in formed:
                    yield Warning(reading.line, texts.no_form(reading.line, alias))


def _units_named(readings: Sequence[Reading]) -> Iterator[tuple[Reading, int]]:
    for reading in readings:
        if reading.role is Role.UNIT and reading.fault is None:
            number = count_of(reading.operands[0].text)
            if number:
                yield reading, number


def _not_in_report(readings: Sequence[Reading], own_units: Collection[int]) -> Iterator[Warning]:
    said: set[int] = set()
    for reading, number in _units_named(readings):
        if number not in own_units and number not in said:
            said.add(number)
            yield Warning(reading.line, texts.not_in_report(reading.line, number))


def _without_orders(readings: Sequence[Reading], own_units: Collection[int]) -> Iterator[Warning]:
    targets = {reading.target for reading in readings if reading.is_order and reading.target}
    busy = {target.number for target in targets if not target.is_new}
    idle = sorted(set(own_units) - busy)
    if idle:
        yield Warning(0, texts.without_orders(idle[:MOST_UNITS_NAMED], max(len(idle) - MOST_UNITS_NAMED, 0)))


def _ending(block: Block) -> Iterator[Warning]:
    text = {
        Ended.END: texts.QUOTED_INSIDE if block.cut else "",
        Ended.SIGNATURE: texts.NO_END_SIGNATURE,
        Ended.QUOTE: texts.NO_END_QUOTE,
        Ended.NEXT_HEADER: texts.NO_END_HEADER,
        Ended.TEXT_END: texts.NO_END,
    }[block.ended]
    if text:
        yield Warning(0, text)
