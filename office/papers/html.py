"""Builds HTML and SVG as trees of elements. Whatever a tree holds is escaped when it is written out, in this module
alone. The one exception is the style sheet of a document, which is a text of this program."""

import re
from collections.abc import Mapping, Sequence
from dataclasses import dataclass
from typing import Union

ELEMENT = re.compile(r"[A-Za-z][A-Za-z0-9]*")
ATTRIBUTE = re.compile(r"[A-Za-z][A-Za-z0-9:-]*")
VOID = frozenset(("br", "hr", "meta"))
# A line of the file ends after these, so that words of neighbours are apart for any program that reads the text.
ENDS_LINE = frozenset((
    "article", "div", "figcaption", "figure", "h1", "h2", "h3", "h4", "header", "li", "main", "nav", "ol", "p",
    "pre", "section", "table", "tbody", "td", "text", "th", "thead", "title", "tr", "ul",
))
# What neither HTML nor XML may hold, and signs that turn the direction of writing around.
BARRED = re.compile(
    "[\0-\x08\x0b\x0c\x0e-\x1f\x7f-\x9f\u202a-\u202e\u2066-\u2069\ud800-\udfff\ufdd0-\ufdef\ufffe\uffff]"
)
ESCAPES = {"&": "&amp;", "<": "&lt;", ">": "&gt;", '"': "&quot;", "'": "&#39;"}
SAFE_TARGET = re.compile(r"#|https?://|[\w-]+(?:[./][\w-]+)*(?:#|$)")
POLICY = "default-src 'none'; style-src 'unsafe-inline'"


@dataclass(frozen=True)
class Element:
    """An element of HTML or SVG, as `el` makes it."""

    name: str
    attributes: Mapping[str, str]
    children: "Child"


Child = Union[Element, str, int, None, Sequence["Child"]]


def el(name: str, attributes: Mapping[str, str | int] | None = None, *children: Child) -> Element:
    """An element. Children that are None are left out. ValueError if a name could be anything but a name."""
    given = {key: str(value) for key, value in (attributes or {}).items()}
    if not ELEMENT.fullmatch(name) or not all(ATTRIBUTE.fullmatch(key) for key in given):
        raise ValueError(f"no names of an element and its attributes: {name!r}, {list(given)!r}")
    return Element(name, given, children)


def escape(text: str) -> str:
    """The text as it may be in an element or in a quoted attribute, of HTML and of SVG."""
    return re.sub("[&<>\"']", lambda found: ESCAPES[found[0]], BARRED.sub("\ufffd", text))


def render(node: Child) -> str:
    """The tree as text, which is HTML and, without void elements, XML too."""
    parts: list[str] = []
    _render(node, parts)
    return "".join(parts)


def _render(node: Child, parts: list[str]) -> None:
    if isinstance(node, Element):
        attributes = "".join(f' {key}="{escape(value)}"' for key, value in node.attributes.items())
        parts.append(f"<{node.name}{attributes}>")
        _render(node.children, parts)
        if node.name not in VOID:
            parts.append(f"</{node.name}>")
        if node.name in ENDS_LINE:
            parts.append("\n")
    elif isinstance(node, (str, int)):
        parts.append(escape(str(node)))
    elif node is not None:
        for child in node:
            _render(child, parts)


def words_of(node: Child) -> str:
    """What a reader sees of the tree, without its elements."""
    if isinstance(node, Element):
        return words_of(node.children)
    if isinstance(node, (str, int)):
        return str(node)
    return "" if node is None else "".join(words_of(child) for child in node)


def link(target: str, *children: Child) -> Element:
    """A link to a place of this page, to a file beside it, or to the web. Any other target gives no link."""
    return el("a", {"href": target}, *children) if SAFE_TARGET.match(target) else el("span", {}, *children)


def table(headings: Sequence[Child], rows: Sequence[Sequence[Child]], numbers: Sequence[bool]) -> Element:
    """A table in a box that scrolls. Columns of numbers are aligned right; the first cell of a row is its heading."""
    classes = ["n" if number else "t" for number in numbers]
    head = [el("th", {"scope": "col", "class": kind}, words) for kind, words in zip(classes, headings)]
    body = [el("tr", {}, [_cell(place, kind, cell) for place, (kind, cell) in enumerate(zip(classes, row))])
            for row in rows]
    inner = el("table", {}, el("thead", {}, el("tr", {}, head)), el("tbody", {}, body))
    return el("div", {"class": "wide", "tabindex": "0", "role": "region", "aria-label": "Table"}, inner)


def _cell(place: int, kind: str, words: Child) -> Element:
    return el("td", {"class": kind}, words) if place else el("th", {"scope": "row", "class": kind}, words)


def document(title: str, style: str, *body: Child) -> str:
    """A whole page that needs no other file, and in which no script runs. ValueError if the style could end early."""
    if "<" in style:
        raise ValueError("a style sheet has no <")
    head = (
        el("meta", {"charset": "utf-8"}),
        el("meta", {"http-equiv": "Content-Security-Policy", "content": POLICY}),
        el("meta", {"name": "viewport", "content": "width=device-width, initial-scale=1"}),
        el("meta", {"name": "color-scheme", "content": "light dark"}),
        el("title", {}, title),
    )
    opened = f'<!DOCTYPE html>\n<html lang="en">\n<head>\n{render(head)}\n<style>\n{style}</style>\n</head>\n'
    return f"{opened}<body>\n{render(body)}\n</body>\n</html>\n"
