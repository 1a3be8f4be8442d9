"""The chronicle's sections on goods, by the books, and on markets: what they ask, what they pay and what they have."""

from collections.abc import Iterator, Sequence
from dataclasses import dataclass

from office.papers.chart import Chart, Curve, figure, greatest
from office.papers.history import History
from office.papers.html import Child, Element, el, table
from office.papers.ledger import change_of
from office.papers.wording import signed
from office.papers.world import Market, Region

COLUMNS = 9
FLOWS = ("made", "used", "lost", "stocked")


def goods_section(history: History) -> Element | None:
    """Nothing where there never were any goods."""
    names = [name for name in history.last.books.items if any(it.books.items[name].total for it in history.chapters)]
    if not names:
        return None
    curves = [Curve(name, tuple(it.books.items[name].total for it in history.chapters)) for name in names]
    return el(
        "section", {}, el("h2", {}, "Goods"),
        el("p", {}, "All goods of units and markets together, by the books."),
        _figure(history, curves, "Goods, all together"), _totals(history, names),
        el("h3", {}, f"What came and went in month {history.last.number}"), _flows(history, names),
    )


def _figure(history: History, curves: Sequence[Curve], words: str) -> Element | None:
    shown = greatest(curves)
    if len(shown) < len(curves):
        words += f" (the {len(shown)} items of which there is most)"
    return figure(Chart(words, history.months, shown))


def _totals(history: History, names: Sequence[str]) -> list[Child]:
    """A row for each month, in as many tables as the items need."""
    return [
        table(["month", *part], [[it.number, *(f"{it.books.items[name].total:,}" for name in part)]
                                 for it in history.chapters], [True] * (len(part) + 1))
        for part in (names[begin:begin + COLUMNS] for begin in range(0, len(names), COLUMNS))
    ]


def _flows(history: History, names: Sequence[str]) -> Element:
    rows = []
    for name in names:
        accounts = [it.books.items[name] for it in history.chapters]
        flows = [signed(change_of(accounts, len(accounts) - 1, entry)) for entry in FLOWS]
        rows.append([name, *flows, f"{accounts[-1].total:,}"])
    return table(["item", *FLOWS, "total"], rows, [False, *[True] * (len(FLOWS) + 1)])


# ---- markets


@dataclass(frozen=True)
class _Known:
    """A market, and the newest stock that a report has, with its month. Both are None if no report has one."""

    region: Region
    market: Market
    stock: int | None
    month: int | None


def markets_section(history: History, is_open: bool) -> Element | None:
    """Nothing in a world without markets."""
    markets = list(_markets(history))
    if not markets:
        return None
    return el(
        "section", {}, el("h2", {}, "Markets"), _by_item(history, markets),
        _figure(history, list(_stocks(history, markets)), "In stock, as it was last seen"),
        (el("h3", {}, "Each market"), _each(markets)) if is_open else None,
    )


def _markets(history: History) -> Iterator[_Known]:
    seen = {key: (stock, it.number) for it in history.chapters for key, stock in it.stocks.items()}
    for region in history.world.regions:
        for market in region.markets:
            yield _Known(region, market, *seen.get((region.number, market.item), (None, None)))


def _by_item(history: History, markets: Sequence[_Known]) -> Element:
    rows: list[list[Child]] = []
    for item in history.world.items:
        mine = [known for known in markets if known.market.item == item.name]
        if mine:
            cheap = min(mine, key=lambda known: known.market.price)
            dear = max(mine, key=lambda known: known.market.pays)
            stock = sum(known.stock or 0 for known in mine)
            asked, paid = cheap.market.price, dear.market.pays
            rows.append([item.name, len(mine), f"{asked:,}", _where(cheap), f"{paid:,}", _where(dear), f"{stock:,}"])
    headings = ["item", "markets", "least price", "for example in", "most paid", "for example in", "in stock"]
    return table(headings, rows, [False, True, True, False, True, False, True])


def _where(known: _Known) -> str:
    return f"{known.region.number} {known.region.name}"


def _stocks(history: History, markets: Sequence[_Known]) -> Iterator[Curve]:
    """For each item what all markets have, each as it was last seen up to the month."""
    for item in history.world.items:
        numbers = [known.region.number for known in markets if known.market.item == item.name]
        if numbers:
            latest: dict[int, int] = {}
            sums = []
            for chapter in history.chapters:
                seen = ((it, chapter.stocks.get((it, item.name))) for it in numbers)
                latest.update((it, stock) for it, stock in seen if stock is not None)
                sums.append(sum(latest.values()))
            yield Curve(item.name, tuple(sums))


def _each(markets: Sequence[_Known]) -> Element:
    rows: list[list[Child]] = []
    for it in markets:
        numbers = (it.market.price, it.market.pays, it.market.limit, it.market.restock)
        seen = ("", "never") if it.stock is None else (f"{it.stock:,}", it.month)
        rows.append([_where(it), it.market.item, *(f"{number:,}" for number in numbers), *seen])
    headings = ["region", "item", "price", "pays", "limit", "restock", "in stock", "seen in month"]
    return table(headings, rows, [False, False, *[True] * 6])
