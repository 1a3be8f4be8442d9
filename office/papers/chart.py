"""Draws curves over months as SVG. Each curve has a colour, a pattern of dashes and a mark of its own, and its name at
its end, so that curves are told apart without colours too."""

import math
from collections.abc import Sequence
from dataclasses import dataclass
from itertools import accumulate

from office.papers.html import Child, Element, el
from office.papers.svg import Attributes, Point, line, picture, polyline, short, title, words

MOST_CURVES = 8
WIDTH, HEIGHT = 720, 280
LEFT, RIGHT, TOP, BOTTOM = 76, 190, 16, 44
LABEL_HEIGHT = 17
# How wide a name beside a curve may be, in the height of its letters.
NAME_WIDTH = 11.5
# How wide letters are in a wide font without serifs, in their height.
LETTER_WIDTHS = {
    **dict.fromkeys(" .,:;'|iljI", 0.34), **dict.fromkeys('tfr!()[]/-"', 0.45), **dict.fromkeys("mwMWQGO@%&", 0.98)
}
CAPITAL_WIDTH, SMALL_WIDTH = 0.74, 0.65
TICKS = 5
MARK = 3.6
DASHES = ("", "7 3", "2 3", "9 3 2 3", "13 4", "4 2 1 2 1 2", "5 5", "1 4")
# The corners of the marks, in units of MARK; the first mark is a disc.
MARKS: tuple[tuple[Point, ...], ...] = (
    (),
    ((-1, -1), (1, -1), (1, 1), (-1, 1)),
    ((0, -1.3), (1.2, 1), (-1.2, 1)),
    ((0, -1.4), (1.4, 0), (0, 1.4), (-1.4, 0)),
    ((0, 1.3), (1.2, -1), (-1.2, -1)),
    ((-1.3, -0.4), (-0.4, -0.4), (-0.4, -1.3), (0.4, -1.3), (0.4, -0.4), (1.3, -0.4), (1.3, 0.4), (0.4, 0.4),
     (0.4, 1.3), (-0.4, 1.3), (-0.4, 0.4), (-1.3, 0.4)),
    ((-1.4, -0.6), (1.4, -0.6), (1.4, 0.6), (-1.4, 0.6)),
    ((-0.6, -1.4), (0.6, -1.4), (0.6, 1.4), (-0.6, 1.4)),
)


@dataclass(frozen=True)
class Curve:
    """A value for each month, or None where there is none."""

    name: str
    values: tuple[int | None, ...]

    def last(self) -> int:
        """The newest value that there is, or 0."""
        return next((value for value in reversed(self.values) if value is not None), 0)


@dataclass(frozen=True)
class Chart:
    """What a chart shows. Where `places` is set, the values are places from 1 on, and 1 is at the top."""

    label: str
    months: tuple[int, ...]
    curves: tuple[Curve, ...]
    places: bool = False


def greatest(curves: Sequence[Curve]) -> tuple[Curve, ...]:
    """As many curves as a chart shows, those with the greatest last values, from the greatest to the least."""
    return tuple(sorted(curves, key=lambda curve: -curve.last())[:MOST_CURVES])


def figure(chart: Chart) -> Element | None:
    """The chart with its label above it. Nothing for one month, of which there are no curves."""
    if len(chart.months) < 2:
        return None
    return el("figure", {}, el("figcaption", {}, chart.label), draw(chart))


def draw(chart: Chart) -> Element:
    """The picture of the chart. It shows MOST_CURVES of the curves at most."""
    scale = _Scale(chart)
    curves = chart.curves[:MOST_CURVES]
    heights = _apart([scale.y(curve.last()) for curve in curves])
    return picture(
        WIDTH, HEIGHT, f"{chart.label}: {_summary(curves)}", {"class": "chart", "preserveAspectRatio": "xMinYMid"},
        _grid(scale), _months(scale),
        [_curve(scale, place, curve) for place, curve in enumerate(curves)],
        [_label(scale, place, curve, height) for place, (curve, height) in enumerate(zip(curves, heights))],
    )


def _summary(curves: Sequence[Curve]) -> str:
    return "; ".join(f"{curve.name} ends at {curve.last():,}" for curve in curves) or "nothing to show"


# ---- the scale


class _Scale:
    """Where months and values are in the picture."""

    def __init__(self, chart: Chart) -> None:
        values = [value for curve in chart.curves for value in curve.values if value is not None]
        self.months, self.places = chart.months, chart.places
        self.ticks = _places(max(values, default=1)) if chart.places else _ticks(min([0, *values]), max([1, *values]))
        self.low, self.high = self.ticks[0], self.ticks[-1]

    def x(self, month: int) -> float:
        span = max(1, self.months[-1] - self.months[0])
        return LEFT + (WIDTH - LEFT - RIGHT) * (month - self.months[0]) / span

    def y(self, value: int) -> float:
        part = (value - self.low) / max(1, self.high - self.low)
        return TOP + (HEIGHT - TOP - BOTTOM) * (part if self.places else 1 - part)


def _ticks(low: int, high: int) -> list[int]:
    """Round values from at most `low` to at least `high`, in equal steps."""
    rough = max(1.0, (high - low) / TICKS)
    power = 10 ** math.floor(math.log10(rough))
    step = next(power * factor for factor in (1, 2, 5, 10) if power * factor >= rough)
    return list(range(math.floor(low / step) * step, high + step, step))


def _places(last: int) -> list[int]:
    """The first place, the last one, and some between."""
    step = max(1, math.ceil((last - 1) / (TICKS + 2)))
    between = [place for place in range(1 + step, last, step) if last - place >= step]
    return [1, *between, max(2, last)]


def _grid(scale: _Scale) -> list[Child]:
    end = WIDTH - RIGHT
    foot = scale.high if scale.places else scale.low
    return [
        (line((LEFT, scale.y(tick)), (end, scale.y(tick)), {"class": "axis" if tick == foot else "grid"}),
         words((LEFT - 8, scale.y(tick) + 4), f"{tick:,}", {"class": "tick", "text-anchor": "end"}))
        for tick in scale.ticks
    ]


def _months(scale: _Scale) -> list[Child]:
    foot = HEIGHT - BOTTOM
    step = max(1, math.ceil(len(scale.months) / 12))
    shown = [month for month in scale.months if (scale.months[-1] - month) % step == 0]
    marks: list[Child] = [
        (line((scale.x(month), foot), (scale.x(month), foot + 5), {"class": "axis"}),
         words((scale.x(month), foot + 18), str(month), {"class": "tick", "text-anchor": "middle"}))
        for month in shown
    ]
    middle = (LEFT + WIDTH - RIGHT) / 2
    return [*marks, words((middle, foot + 36), "month", {"class": "tick", "text-anchor": "middle"})]


# ---- the curves


def _curve(scale: _Scale, place: int, curve: Curve) -> Element:
    points = [(scale.x(month), scale.y(value)) for month, value in zip(scale.months, curve.values) if value is not None]
    dashes: Attributes = {"stroke-dasharray": DASHES[place]} if DASHES[place] else {}
    line_of_all = polyline(points, {"class": "curve", **dashes})
    step = max(1, math.ceil(len(points) / 6))
    marks = [_mark(place, point) for number, point in enumerate(reversed(points)) if number % step == 0]
    return el("g", {"class": f"c{place}"}, title(curve.name), line_of_all, marks)


def _mark(place: int, at: Point) -> Element:
    if not MARKS[place]:
        return el("circle", {"class": "mark", "cx": short(at[0]), "cy": short(at[1]), "r": short(MARK)})
    corners = [(at[0] + MARK * x, at[1] + MARK * y) for x, y in MARKS[place]]
    return el("polygon", {"class": "mark", "points": " ".join(f"{short(x)},{short(y)}" for x, y in corners)})


def _label(scale: _Scale, place: int, curve: Curve, height: float) -> Element:
    """The curve's name beside its end, with its mark and a thin line to it."""
    begin, at = WIDTH - RIGHT, (WIDTH - RIGHT + 26, height)
    known = [month for month, value in zip(scale.months, curve.values) if value is not None]
    end = (scale.x(known[-1]) if known else begin, scale.y(curve.last()))
    return el(
        "g", {"class": f"c{place}"}, title(f"{curve.name}: {curve.last():,}"),
        line((end[0] + 5, end[1]), (at[0] - 7, height), {"class": "lead"}),
        _mark(place, at), words((at[0] + 9, height + 4), shorten(curve.name, NAME_WIDTH), {"class": "name"}),
    )


def shorten(text: str, most: float) -> str:
    """The text, or as many of its first letters as fit into this width, in the height of its letters."""
    widths = list(accumulate(LETTER_WIDTHS.get(it, CAPITAL_WIDTH if it.isupper() else SMALL_WIDTH) for it in text))
    if not widths or widths[-1] <= most:
        return text
    fitting = sum(width <= most - 1 for width in widths)
    return f"{text[:fitting].rstrip()}\N{HORIZONTAL ELLIPSIS}"


def _apart(heights: Sequence[float]) -> list[float]:
    """The heights of the labels, moved so far that none covers another and all are in the picture."""
    order = sorted(range(len(heights)), key=lambda place: heights[place])
    moved = list(heights)
    least = float(TOP - 4)
    for place in order:
        least = moved[place] = max(heights[place], least)
        least += LABEL_HEIGHT
    most = float(HEIGHT - BOTTOM + 4)
    for place in reversed(order):
        most = moved[place] = min(moved[place], most)
        most -= LABEL_HEIGHT
    return moved
