"""Builds the shapes of SVG pictures. Coordinates are in user units, with y downwards."""

from collections.abc import Iterable, Mapping

from office.papers.html import Child, Element, el, render

NAMESPACE = "http://www.w3.org/2000/svg"
Attributes = Mapping[str, str | int]
Point = tuple[float, float]


def picture(width: float, height: float, label: str, attributes: Attributes, *children: Child) -> Element:
    """A picture that scales to its box. `label` is what is read out in its place."""
    size = {"viewBox": f"0 0 {short(width)} {short(height)}", "width": short(width), "height": short(height)}
    return el("svg", {"xmlns": NAMESPACE, "role": "img", "aria-label": label, **size, **attributes}, *children)


def file_text(root: Element) -> str:
    """The picture as the text of a file of its own."""
    return f'<?xml version="1.0" encoding="UTF-8"?>\n{render(root)}\n'


def group(attributes: Attributes, *children: Child) -> Element:
    """Shapes that belong together."""
    return el("g", attributes, *children)


def line(begin: Point, end: Point, attributes: Attributes) -> Element:
    """A straight line."""
    places = {"x1": short(begin[0]), "y1": short(begin[1]), "x2": short(end[0]), "y2": short(end[1])}
    return el("line", {**places, **attributes})


def rect(corner: Point, width: float, height: float, attributes: Attributes) -> Element:
    """A rectangle, by its upper left corner."""
    box = {"x": short(corner[0]), "y": short(corner[1]), "width": short(width), "height": short(height)}
    return el("rect", {**box, **attributes})


def polyline(points: Iterable[Point], attributes: Attributes) -> Element:
    """Straight lines from point to point."""
    return el("polyline", {"points": " ".join(f"{short(x)},{short(y)}" for x, y in points), **attributes})


def words(at: Point, text: Child, attributes: Attributes) -> Element:
    """A line of text that begins there, unless the attributes have another text-anchor."""
    return el("text", {"x": short(at[0]), "y": short(at[1]), **attributes}, text)


def title(text: str) -> Element:
    """What a reader sees who points at the shape around it."""
    return el("title", {}, text)


def short(number: float) -> str:
    """The number with one decimal at most."""
    return f"{number:.1f}".removesuffix(".0")
