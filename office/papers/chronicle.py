"""Makes the chronicle: a page for the club's magazine, from the closed months alone."""

from collections.abc import Callable, Mapping, Sequence
from enum import Enum

from office.papers.chart import Chart, Curve, figure, greatest
from office.papers.goods import goods_section, markets_section
from office.papers.history import Change, Happened, History, Press, Standing, places
from office.papers.html import Child, Element, document, el, table
from office.papers.ledger import money_section, people_section
from office.papers.report import Report, SeenRegion, SeenUnit
from office.papers.sheet import STYLE
from office.papers.wording import counted, listed

UP, DOWN = "\N{UPWARDS ARROW}", "\N{DOWNWARDS ARROW}"

MOVES = f"{UP} and {DOWN} say how many places a faction rose or fell in the month."


class Secrecy(Enum):
    """What a chronicle shows.

    PUBLIC shows names, places, who came and fell, press, the books, prices, and the stocks of all markets together.
    OPEN is for a campaign that is over, or for the moderator. It shows also what each faction and each market has."""

    PUBLIC = "public"
    OPEN = "open"


SHOWN = {
    Secrecy.PUBLIC: "This page is public. It shows places, and sums over all factions.",
    Secrecy.OPEN: "This page is for a campaign that is over, or for the moderator. It shows what each faction has.",
}
MEASURES: Mapping[str, Callable[[Standing], int]] = {
    "people": lambda standing: standing.people,
    "money": lambda standing: standing.money,
    "regions": lambda standing: standing.regions,
}


def chronicle(history: History, secrecy: Secrecy, club: str = "") -> str:
    """The page of the last month of the history. `club` is the name of the club, for the title."""
    month = history.last.number
    title = f"{club}: month {month}" if club else f"Chronicle of month {month}"
    is_open = secrecy is Secrecy.OPEN
    return document(
        title, STYLE,
        el("header", {}, el("h1", {}, title), el("p", {"class": "quiet"}, SHOWN[secrecy])),
        el("main", {}, [
            _leaders(history, is_open), _changes(history), _press(history, is_open),
            money_section(history), people_section(history),
            goods_section(history), markets_section(history, is_open),
            _factions(history) if is_open else None,
        ]),
    )


# ---- who leads


def _leaders(history: History, is_open: bool) -> Element:
    standings = history.last.standings
    if not standings:
        return el("section", {}, el("h2", {}, "Who leads"), el("p", {}, "No faction is in the game."))
    now = {name: _places_of(standings, name) for name in MEASURES}
    before = {name: _places_of(_month_before(history), name) for name in MEASURES}
    order = sorted(standings, key=lambda it: (now["people"][it.faction], now["money"][it.faction], it.faction))
    rows = [[it.name, *_cells(it, now, before, is_open)] for it in order]
    headings = ["faction", *_headings(is_open)]
    leaders = table(headings, rows, [False, *[True] * (len(headings) - 1)])
    return el(
        "section", {}, el("h2", {}, "Who leads"), el("p", {}, _sentences(order, now)), leaders,
        el("p", {"class": "quiet"}, MOVES) if len(history.chapters) > 1 else None,
        [_curves(history, order, name, is_open) for name in ("people", "money")],
    )


def _month_before(history: History) -> tuple[Standing, ...]:
    return history.chapters[-2].standings if len(history.chapters) > 1 else ()


def _places_of(standings: Sequence[Standing], measure: str) -> dict[int, int]:
    return places({it.faction: MEASURES[measure](it) for it in standings})


def _headings(is_open: bool) -> list[str]:
    if is_open:
        return [words for name in MEASURES for words in (name, "place")]
    return [f"place by {name}" for name in MEASURES]


def _cells(it: Standing, now: Mapping[str, Mapping[int, int]], before: Mapping[str, Mapping[int, int]],
           is_open: bool) -> list[Child]:
    cells: list[Child] = []
    for name, measure in MEASURES.items():
        if is_open:
            cells.append(f"{measure(it):,}")
        cells.append(_place(now[name][it.faction], before[name].get(it.faction)))
    return cells


def _place(now: int, before: int | None) -> Child:
    moved = "" if before in (None, now) else f"{UP if now < (before or 0) else DOWN}{abs(now - (before or 0))}"
    return (now, el("span", {"class": "moved"}, moved))


def _sentences(order: Sequence[Standing], now: Mapping[str, Mapping[int, int]]) -> str:
    count = f"{counted(len(order), 'faction')} {'is' if len(order) == 1 else 'are'}"
    first = {name: [it.name for it in order if now[name][it.faction] == 1] for name in MEASURES}
    return " ".join([f"{count} in the game.", *(f"Most {name}: {listed(who)}." for name, who in first.items())])


def _curves(history: History, order: Sequence[Standing], measure: str, is_open: bool) -> Element | None:
    """The curves of the factions that are in the game: what they have where that is open, or else their places."""
    values = [
        {it.faction: MEASURES[measure](it) for it in chapter.standings} if is_open
        else _places_of(chapter.standings, measure)
        for chapter in history.chapters
    ]
    curves = [Curve(it.name, tuple(month.get(it.faction) for month in values)) for it in order]
    if is_open:
        shown = greatest(curves)
    else:
        shown = tuple(sorted(curves, key=lambda curve: curve.last()))[:len(greatest(curves))]
    words = f"{measure.capitalize()} of each faction" if is_open else f"Places by {measure}"
    if len(shown) < len(curves):
        words += f" (the first {len(shown)} of {len(curves)})"
    return figure(Chart(words, history.months, shown, places=not is_open))


# ---- who came and fell, and press


def _changes(history: History) -> Element:
    changes = [change for chapter in reversed(history.chapters) for change in chapter.changes]
    rows: list[list[Child]] = [[change.month, change.name, _happened(change)] for change in changes]
    changed = table(["month", "faction", "what happened"], rows, [True, False, False])
    return el("section", {}, el("h2", {}, "Who came and fell"), changed if rows else el("p", {}, "Nobody."))


def _happened(change: Change) -> str:
    match change.happened:
        case Happened.JOINED:
            return "joined"
        case Happened.RENAMED:
            return f"was called {change.before} before"
        case Happened.QUIT:
            return "left the game"
        case Happened.STARVED:
            return "lost its last people, and is out of the game"


def _press(history: History, is_open: bool) -> Element | None:
    """The press of the month, and for a campaign that is open that of all months before too, the newest first."""
    chapters = reversed(history.chapters) if is_open else [history.last]
    pieces = [press for chapter in chapters for press in chapter.press]
    if not pieces:
        return None
    return el("section", {}, el("h2", {}, "Press"), [_piece(press, is_open) for press in pieces])


def _piece(press: Press, is_open: bool) -> Element:
    by = f"{press.name}, month {press.month}" if is_open else press.name
    paragraphs = [el("p", {}, words) for words in press.piece.paragraphs]
    return el("article", {"class": "press"}, el("h3", {}, by), paragraphs)


# ---- what each faction has


def _factions(history: History) -> Element:
    reports = [report for report in history.reports if report.regions]
    return el("section", {}, el("h2", {}, "What each faction has"), [_faction(report) for report in reports])


def _faction(report: Report) -> Element:
    units = [(region, unit) for region in report.regions for unit in region.units if unit.own]
    rows = [_unit(region, unit) for region, unit in sorted(units, key=lambda pair: pair[1].number)]
    headings = ["unit", "name", "region", "people", "money", "where", "goods", "skills"]
    numbers = [True, False, False, True, True, False, False, False]
    return el("section", {}, el("h3", {}, f"{report.faction} {report.name}"), table(headings, rows, numbers))


def _unit(region: SeenRegion, unit: SeenUnit) -> list[Child]:
    where = [words for words, applies in (("on guard", unit.guard), (f"in {unit.inside}", unit.inside > 0)) if applies]
    goods = ", ".join(f"{amount:,} {item}" for item, amount in unit.items)
    skills = ", ".join(f"{skill.name} {skill.level}" for skill in unit.skills)
    place = f"{region.number} {region.name}"
    return [unit.number, unit.name, place, f"{unit.men:,}", f"{unit.money or 0:,}", ", ".join(where), goods, skills]
