"""Reads the lines of a mailing as the program does, by docs/RULES.md, "Reading a mailing" and "Orders".

It serves to warn, and never to judge: what a line means is for the program to say. It knows no world, so every word is
a good item, skill or kind to it, unless the program's faults are handed in."""

from __future__ import annotations

from collections.abc import Callable, Mapping, Sequence
from dataclasses import dataclass, replace
from enum import Enum

from office.orders.faults import LineFault
from office.orders.words import LAST_ALIAS, Word, count_of, number_of, words_of

LONGEST_NAME = 40
DIRECTIONS = ("NORTH", "SOUTH", "EAST", "WEST")
NAMED = ("UNIT", "FACTION", "BUILDING", "SHIP")


class Slot(Enum):
    """Orders of which a unit carries out only the last one in a mailing."""

    MONTH_LONG = "month-long"
    TAX = "TAX"
    RECRUIT = "RECRUIT"
    SELL = "SELL"
    BUY = "BUY"


class Shape(Enum):
    """What the words after a verb name."""

    NOTHING = ""
    ALIAS = "a"
    FLAG = "0 or 1"
    NUMBER = "n"
    UNIT = "u"
    UNITS = "u .."
    UNIT_AND_NUMBER = "u n"
    UNIT_AND_GOODS = "u n item"
    GOODS = "n item"
    NAME = "kind name"
    DIRECTION = "d"
    KIND = "kind or nothing"
    THING = "thing"


@dataclass(frozen=True)
class Verb:
    """A row of the table of orders."""

    keyword: str
    shape: Shape
    slot: Slot | None = None


_ROWS = (
    Verb("FORM", Shape.ALIAS),
    Verb("NAME", Shape.NAME),
    Verb("GUARD", Shape.FLAG),
    Verb("ENTER", Shape.NUMBER),
    Verb("BOARD", Shape.NUMBER),
    Verb("LEAVE", Shape.NOTHING),
    Verb("PROMOTE", Shape.UNIT),
    Verb("GIVE", Shape.UNIT_AND_GOODS),
    Verb("PAY", Shape.UNIT_AND_NUMBER),
    Verb("TRANSFER", Shape.UNIT_AND_NUMBER),
    Verb("SELL", Shape.GOODS, Slot.SELL),
    Verb("BUY", Shape.GOODS, Slot.BUY),
    Verb("TAX", Shape.NOTHING, Slot.TAX),
    Verb("RECRUIT", Shape.NUMBER, Slot.RECRUIT),
    Verb("QUIT", Shape.NUMBER),
    Verb("MOVE", Shape.DIRECTION, Slot.MONTH_LONG),
    Verb("SAIL", Shape.DIRECTION, Slot.MONTH_LONG),
    Verb("BUILD", Shape.KIND, Slot.MONTH_LONG),
    Verb("TEACH", Shape.UNITS, Slot.MONTH_LONG),
    Verb("STUDY", Shape.THING, Slot.MONTH_LONG),
    Verb("PRODUCE", Shape.THING, Slot.MONTH_LONG),
    Verb("WORK", Shape.NOTHING, Slot.MONTH_LONG),
)
VERBS = {verb.keyword: verb for verb in _ROWS}


class Role(Enum):
    """What a line does."""

    NOTHING = "nothing"
    UNIT = "unit"
    FORM = "form"
    END = "end"
    ORDER = "order"
    UNKNOWN = "unknown"


@dataclass(frozen=True)
class Target:
    """The unit that an order is for: its number, or the number that FORM gave to a new unit."""

    number: int
    is_new: bool = False


@dataclass(frozen=True)
class Reading:
    """A line as read. `line` is its number, `operands` are the words that it needs and `extra` those after them.
    `target` is the unit that an order is for, None where the line is no order or no unit is named."""

    line: int
    role: Role
    verb: Verb | None = None
    operands: tuple[Word, ...] = ()
    extra: tuple[Word, ...] = ()
    fault: LineFault | None = None
    target: Target | None = None

    @property
    def is_order(self) -> bool:
        """Whether the line gives an order, FORM included."""
        return self.role in (Role.ORDER, Role.FORM) and self.fault is None


def is_plain(line: str) -> bool:
    """Whether a line has no sign but those that a line may have: tab, and ASCII from 32 to 126."""
    return all(sign == "\t" or " " <= sign <= "~" for sign in line)


# how many words a shape takes of those that follow the verb, and the first fault of these words
_Taken = tuple[int, LineFault | None]


def _count(words: Sequence[Word], at: int) -> _Taken:
    if at >= len(words):
        return at, LineFault.MISSING_WORD
    return at + 1, None if count_of(words[at].text) else LineFault.BAD_NUMBER


def _alias(words: Sequence[Word], at: int) -> _Taken:
    if at >= len(words):
        return at, LineFault.MISSING_WORD
    return at + 1, None if count_of(words[at].text, LAST_ALIAS) else LineFault.BAD_ALIAS


def _unit(words: Sequence[Word], at: int) -> _Taken:
    if at < len(words) and words[at].keyword == "NEW":
        return _alias(words, at + 1)
    return _count(words, at)


def _thing(words: Sequence[Word], at: int) -> _Taken:
    return (at + 1, None) if at < len(words) else (at, LineFault.MISSING_WORD)


def _units(words: Sequence[Word]) -> _Taken:
    at, fault = _unit(words, 0)
    while fault is None and at < len(words):
        at, fault = _unit(words, at)
    return at, fault


def _unit_and_more(words: Sequence[Word], has_item: bool) -> _Taken:
    at, fault = _unit(words, 0)
    if fault is None:
        at, fault = _count(words, at)
    if fault is None and has_item:
        at, fault = _thing(words, at)
    return at, fault


def _goods(words: Sequence[Word]) -> _Taken:
    at, fault = _count(words, 0)
    return (at, fault) if fault else _thing(words, at)


def _flag(words: Sequence[Word]) -> _Taken:
    if not words:
        return 0, LineFault.MISSING_WORD
    return 1, LineFault.BAD_NUMBER if number_of(words[0].text, 1) is None else None


def _direction(words: Sequence[Word]) -> _Taken:
    if not words:
        return 0, LineFault.MISSING_WORD
    return 1, None if words[0].keyword in DIRECTIONS else LineFault.BAD_DIRECTION


def is_name(name: str) -> bool:
    """Whether a name keeps the rule of docs/RULES.md, "Names and pass texts"."""
    is_plain_text = all(" " <= sign <= "~" and sign != '"' for sign in name)
    return is_plain_text and 1 <= len(name) <= LONGEST_NAME and name == name.strip(" ")


def _name(words: Sequence[Word]) -> _Taken:
    if not words:
        return 0, LineFault.MISSING_WORD
    if words[0].keyword not in NAMED:
        return 1, LineFault.UNKNOWN_THING
    if len(words) < 2:
        return 1, LineFault.MISSING_WORD
    return 2, None if is_name(words[1].name) else LineFault.BAD_NAME


def _nothing(_words: Sequence[Word]) -> _Taken:
    return 0, None


_READERS: dict[Shape, Callable[[Sequence[Word]], _Taken]] = {
    Shape.NOTHING: _nothing,
    Shape.ALIAS: lambda words: _alias(words, 0),
    Shape.FLAG: _flag,
    Shape.NUMBER: lambda words: _count(words, 0),
    Shape.UNIT: lambda words: _unit(words, 0),
    Shape.UNITS: _units,
    Shape.UNIT_AND_NUMBER: lambda words: _unit_and_more(words, False),
    Shape.UNIT_AND_GOODS: lambda words: _unit_and_more(words, True),
    Shape.GOODS: _goods,
    Shape.NAME: _name,
    Shape.DIRECTION: _direction,
    Shape.KIND: lambda words: (min(len(words), 1), None),
    Shape.THING: lambda words: _thing(words, 0),
}


def _role_of(keyword: str) -> Role:
    if keyword in ("UNIT", "END", "FORM"):
        return Role[keyword]
    return Role.ORDER if keyword in VERBS else Role.UNKNOWN


def read_line(line: str, number: int = 0) -> Reading:
    """A line by itself, without regard to the lines above it."""
    if not is_plain(line):
        return Reading(number, Role.UNKNOWN, fault=LineFault.BAD_BYTE)
    words = words_of(line)
    if not words:
        return Reading(number, Role.NOTHING)
    role = _role_of(words[0].keyword)
    if role is Role.UNKNOWN:
        return Reading(number, role, fault=LineFault.UNKNOWN_ORDER)
    shape = {Role.UNIT: Shape.NUMBER, Role.END: Shape.NOTHING}.get(role)
    verb = VERBS.get(words[0].keyword)
    count, fault = _READERS[shape or VERBS[words[0].keyword].shape](words[1:])
    return Reading(number, role, verb, tuple(words[1:1 + count]), tuple(words[1 + count:]), fault)


def is_clean_order(line: str) -> bool:
    """Whether a line surely was written as an order, or as UNIT or END: it has all words that it needs and no other."""
    reading = read_line(line)
    return reading.role is not Role.NOTHING and reading.fault is None and not reading.extra


class _Block(Enum):
    """What a FORM opened: nothing, the block of a new unit, or one whose orders are for nobody."""

    NONE = 0
    FORMING = 1
    SKIPPED = 2


@dataclass(frozen=True)
class _State:
    """Between two lines: the unit that UNIT named, and the block that is open."""

    named: int | None = None
    block: _Block = _Block.NONE
    alias: int = 0

    def target(self) -> Target | None:
        if self.block is _Block.FORMING:
            return Target(self.alias, is_new=True)
        return None if self.block is _Block.SKIPPED or self.named is None else Target(self.named)


def _number_in(reading: Reading) -> int | None:
    return count_of(reading.operands[0].text) if reading.operands and not reading.fault else None


def _form_fault(state: _State, reading: Reading, aliases: set[int]) -> LineFault | None:
    if state.block is not _Block.NONE:
        return LineFault.NESTED_FORM
    if state.named is None:
        return LineFault.NO_UNIT
    return LineFault.BAD_ALIAS if _number_in(reading) in aliases else reading.fault


def _own_fault(state: _State, reading: Reading, aliases: set[int]) -> LineFault | None:
    """The fault of a line, by the lines above it."""
    if reading.role is Role.END and state.block is _Block.NONE:
        return LineFault.END_ALONE
    if reading.role is Role.FORM:
        return _form_fault(state, reading, aliases)
    if reading.role is Role.ORDER and state.target() is None:
        return LineFault.NO_UNIT
    return reading.fault


def _next_state(state: _State, reading: Reading) -> _State:
    """The state after a line, whose fault is right."""
    if reading.fault is LineFault.BAD_BYTE:
        return state
    if reading.role is Role.UNIT:
        return _State(_number_in(reading))
    if reading.role is Role.END:
        return _State(state.named)
    if reading.role is not Role.FORM or reading.fault is LineFault.NESTED_FORM:
        return state
    alias = _number_in(reading)
    return _State(state.named, _Block.SKIPPED) if alias is None else _State(state.named, _Block.FORMING, alias)


def read_orders(lines: Sequence[str], first: int, faults: Mapping[int, LineFault] | None = None) -> list[Reading]:
    """The lines below a header, the first of which has the number `first`. `faults` are those that the program found,
    by line; without them the faults are those that show without a world."""
    state = _State()
    aliases: set[int] = set()
    readings = []
    for number, line in enumerate(lines, first):
        reading = read_line(line, number)
        fault = _own_fault(state, reading, aliases) if faults is None else faults.get(number)
        target = state.target() if reading.role in (Role.ORDER, Role.FORM) else None
        reading = replace(reading, fault=fault, target=target)
        state = _next_state(state, reading)
        if state.block is _Block.FORMING:
            aliases.add(state.alias)
        readings.append(reading)
    return readings
