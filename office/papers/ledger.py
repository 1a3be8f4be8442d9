"""The chronicle's sections on money and people, as the books have them."""

from collections.abc import Callable, Sequence

from office.papers.chart import Chart, Curve, figure
from office.papers.history import History
from office.papers.html import Child, Element, el, table
from office.papers.months import Account, Books
from office.papers.wording import signed

# docs/RULES.md, "Books", has the entries in this order.
ENTRIES = ("founding", "joining", "income", "wages", "recruiting", "study", "upkeep", "lost", "births", "starved",
           "left", "made", "used", "bought", "sold", "stocked")


def money_section(history: History) -> Element:
    """The curve of all money, and a table of its entries by month."""
    return _section(history, "Money", lambda books: books.money,
                    "All money of units and regions together, and what came and went in each month, by the books.")


def people_section(history: History) -> Element:
    """The same for people: those of units, and peasants."""
    return _section(history, "People", lambda books: books.people,
                    "All people of units and all peasants together, and who came and went in each month, by the books.")


def _section(history: History, title: str, account: Callable[[Books], Account], words: str) -> Element:
    accounts = [account(chapter.books) for chapter in history.chapters]
    curve = Curve("total", tuple(it.total for it in accounts))
    drawn = figure(Chart(f"{title}, all together", history.months, (curve,)))
    return el("section", {}, el("h2", {}, title), el("p", {}, words), drawn, _table(history, accounts))


def _table(history: History, accounts: Sequence[Account]) -> Element:
    """A row for each month, with what its closing booked. The first row has all that was booked before too."""
    entries = [entry for entry in ENTRIES if any(entry in account.entries for account in accounts)]
    rows: list[list[Child]] = [
        [month, *(signed(change_of(accounts, place, entry)) for entry in entries), f"{accounts[place].total:,}"]
        for place, month in enumerate(history.months)
    ]
    return table(["month", *entries, "total"], rows, [True] * (len(entries) + 2))


def change_of(accounts: Sequence[Account], place: int, entry: str) -> int:
    """What was booked under an entry since the month before, or since the founding for the first month."""
    before = accounts[place - 1].entries.get(entry, 0) if place else 0
    return accounts[place].entries.get(entry, 0) - before
