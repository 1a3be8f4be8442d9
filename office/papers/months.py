"""Reads a club's folder `months` for the papers. office/closing/folder.py says what the folder of a month has."""

import re
from collections.abc import Iterator, Mapping
from dataclasses import dataclass
from pathlib import Path

from office.closing.folder import Listed, MonthFolder, Sent, read_bytes
from office.errors import OfficeError
from office.papers.report import Report, parse_report
from office.papers.world import World, read_world

MONTH = re.compile(r"[1-9]\d{0,3}")
BOOKED = re.compile(r'(money|people|item "([^"]+)") ([a-z]+) (-?\d{1,25})')


@dataclass(frozen=True)
class Account:
    """The books of one thing since the founding: an amount for each entry that isn't 0, and what there is now."""

    entries: Mapping[str, int]
    total: int


@dataclass(frozen=True)
class Books:
    """`items` has all items of the world, in its order."""

    money: Account
    people: Account
    items: Mapping[str, Account]


@dataclass(frozen=True)
class Month:
    """A closed month. `reports` has each faction of the list. That of a faction that was gone before is an older one.
    `seed` is None if the folder has none, as in a copy for others."""

    number: int
    world: World
    seed: str | None
    factions: tuple[Listed, ...]
    books: Books
    mailings: Mapping[int, bytes]
    reports: Mapping[int, Report]

    def new_reports(self) -> Iterator[Report]:
        """The reports that this closing made, by faction."""
        return (report for report in self.reports.values() if report.month == self.number)


def month_numbers(months: Path) -> list[int]:
    """The months of the folder, from the first to the last. OfficeError if there is none, or one is missing between."""
    if not months.is_dir():
        raise OfficeError(f"{months} is no folder: name the folder months of the club")
    numbers = sorted(int(path.name) for path in months.iterdir() if MONTH.fullmatch(path.name) and path.is_dir())
    if not numbers:
        raise OfficeError(f"{months} has no closed month")
    for before, after in zip(numbers, numbers[1:]):
        if after != before + 1:
            raise OfficeError(f"{months / str(before + 1)} is missing")
    return numbers


def read_months(months: Path, last: int) -> Iterator[Month]:
    """The months up to `last`, one after another, so that a long campaign needs no more memory than one month."""
    numbers = month_numbers(months)
    if last not in numbers:
        raise OfficeError(f"{months} has no month {last}: it has the months {numbers[0]} to {numbers[-1]}")
    return (read_month(months, number) for number in numbers if number <= last)


def read_month(months: Path, number: int) -> Month:
    """A month of the folder. OfficeError if a file is missing, or has a line of no known form."""
    folder = MonthFolder(months / str(number))
    world = read_world(folder.world)
    factions = tuple(folder.read_factions())
    mailings = {it.number: read_bytes(folder.mail(it.number)) for it in factions if it.sent is Sent.MAIL}
    reports = {it.number: _report(folder.report(it.number), world, it.number) for it in factions}
    return Month(number, world, _seed(folder.seed), factions, _books(folder.books, world), mailings, reports)


def _text(path: Path) -> str:
    try:
        return read_bytes(path).decode("utf-8")
    except UnicodeDecodeError as error:
        raise OfficeError(f"{path} is no UTF-8") from error


def _lines(path: Path) -> list[str]:
    lines = _text(path).split("\n")
    return lines[:-1] if lines[-1] == "" else lines


def _seed(path: Path) -> str | None:
    return _text(path).strip() if path.exists() else None


def _report(path: Path, world: World, faction: int) -> Report:
    report = parse_report(_text(path), world, str(path))
    if report.faction != faction:
        raise OfficeError(f"{path} is the report of faction {report.faction}")
    return report


def _books(path: Path, world: World) -> Books:
    entries: dict[str, dict[str, int]] = {}
    for number, line in enumerate(_lines(path), 1):
        found = BOOKED.fullmatch(line)
        if not found:
            raise OfficeError(f"{path}: line {number} is no line of the books")
        entries.setdefault(found[1], {})[found[3]] = int(found[4])
    items = {item.name: _account(path, entries, f'item "{item.name}"') for item in world.items}
    return Books(_account(path, entries, "money"), _account(path, entries, "people"), items)


def _account(path: Path, entries: Mapping[str, Mapping[str, int]], thing: str) -> Account:
    booked = dict(entries.get(thing, {}))
    if "total" not in booked:
        raise OfficeError(f"{path}: the line of the total of {thing} is missing")
    return Account(booked, booked.pop("total"))
