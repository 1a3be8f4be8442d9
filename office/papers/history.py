"""Gathers from the closed months what the chronicle shows: standings, changes, the books, stocks and press. Of each
month only this is kept, so that a long campaign of many factions needs little memory."""

from collections.abc import Iterable, Iterator, Mapping
from dataclasses import dataclass
from enum import Enum

from office.closing.folder import Sent
from office.papers.months import Books, Month
from office.papers.press import Piece, press_of
from office.papers.report import Outcome, Report
from office.papers.world import World


class Happened(Enum):
    """What a change is: a faction joined, showed another name, left by QUIT, or lost its last people."""

    JOINED = "joined"
    RENAMED = "renamed"
    QUIT = "quit"
    STARVED = "starved"


@dataclass(frozen=True)
class Change:
    """What became of a faction in a month. `name` is what it shows, and `before` what it showed before (RENAMED)."""

    month: int
    faction: int
    name: str
    happened: Happened
    before: str = ""


@dataclass(frozen=True)
class Standing:
    """What a faction has at the end of a month. `regions` are those where it has people."""

    faction: int
    name: str
    people: int
    money: int
    regions: int


@dataclass(frozen=True)
class Press:
    """A piece with the name that the faction shows at the end of the month."""

    month: int
    name: str
    piece: Piece


@dataclass(frozen=True)
class Chapter:
    """What is kept of a month. `stocks` has the markets that somebody saw, by the numbers of regions and the items."""

    number: int
    standings: tuple[Standing, ...]
    changes: tuple[Change, ...]
    books: Books
    stocks: Mapping[tuple[int, str], int]
    press: tuple[Press, ...]


@dataclass(frozen=True)
class History:
    """The chapters from the first month that was kept to the last, whose reports are kept too."""

    world: World
    chapters: tuple[Chapter, ...]
    reports: tuple[Report, ...]

    @property
    def last(self) -> Chapter:
        """The month of the chronicle."""
        return self.chapters[-1]

    @property
    def months(self) -> tuple[int, ...]:
        """The numbers of the chapters."""
        return tuple(chapter.number for chapter in self.chapters)


def gather(months: Iterable[Month]) -> History:
    """The history of these months, of which there is at least one."""
    chapters: list[Chapter] = []
    names: dict[int, str] = {}
    month: Month | None = None
    for month in months:
        if not chapters and month.number > 1:
            # The months before were not kept, so nobody knows who joined when.
            names.update((report.faction, report.name) for report in month.new_reports())
        chapters.append(_chapter(month, names))
        names.update((report.faction, report.name) for report in month.new_reports())
    assert month is not None
    return History(month.world, tuple(chapters), tuple(month.new_reports()))


def _chapter(month: Month, names: Mapping[int, str]) -> Chapter:
    reports = list(month.new_reports())
    standings = tuple(
        Standing(it.faction, it.name, it.men, it.money, len(it.regions)) for it in reports if it.regions
    )
    stocks = {(region.number, market.item): market.stock
              for report in reports for region in report.regions for market in region.markets}
    changes = tuple(change for report in reports for change in _changes(month, report, names))
    return Chapter(month.number, standings, changes, month.books, stocks, tuple(_press(month)))


def _changes(month: Month, report: Report, names: Mapping[int, str]) -> Iterator[Change]:
    """`names` are those that the factions showed in the month before."""
    before = names.get(report.faction)
    joined_as = month.factions[report.faction - 1].name
    if before is None:
        yield Change(month.number, report.faction, joined_as, Happened.JOINED)
    if report.name != (before or joined_as):
        yield Change(month.number, report.faction, report.name, Happened.RENAMED, before or joined_as)
    if not report.regions:
        has_quit = any(event.verb == "QUIT" and event.outcome is Outcome.DONE for event in report.events)
        happened = Happened.QUIT if has_quit else Happened.STARVED
        yield Change(month.number, report.faction, report.name, happened)


def _press(month: Month) -> Iterator[Press]:
    for listed in month.factions:
        if listed.sent is Sent.MAIL:
            for piece in press_of(month.mailings[listed.number]):
                yield Press(month.number, month.reports[listed.number].name, piece)


def places(amounts: Mapping[int, int]) -> dict[int, int]:
    """The place of each faction: 1 and how many have more than it."""
    order = sorted(amounts.values(), reverse=True)
    first = {amount: place for place, amount in reversed(list(enumerate(order, 1)))}
    return {faction: first[amount] for faction, amount in amounts.items()}
