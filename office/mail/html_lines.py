"""The lines of a text in HTML, as a mail program shows them. Lines of a quoted message get `> ` in front.

The time is in proportion to the length whatever the text is. The parser html.parser of Debian 12 doesn't promise
that."""

from __future__ import annotations

import html
import re
from collections.abc import Iterator
from dataclasses import dataclass

# a comment, a declaration, a tag (its quoted values may have `>`), or text
_TOKEN = re.compile(
    r"(?P<comment><!--)|<[!?][^<>]*>|<(?P<close>/?)(?P<name>[a-zA-Z][a-zA-Z0-9:]*)"
    r"""(?P<values>(?:"[^"<]*"|'[^'<]*'|[^"'<>])*|[^<>]*)>|(?P<text>[^<]+|<)"""
)
_BLANKS = re.compile(r"[ \t\r\n\f]+")
# a number of a sign that is no Unicode; html.unescape fails at very long ones
_LONG_NUMBER = re.compile(r"&#[xX]?[0-9a-fA-F]{8,};?")
_HIDES = re.compile(r"display\s*:\s*none|mso-hide\s*:\s*all|visibility\s*:\s*hidden", re.IGNORECASE)
_KEEPS_BLANKS = re.compile(r"white-space\s*:\s*(?:pre|break-spaces)", re.IGNORECASE)
_IS_QUOTE = re.compile(
    r"""(?:class|id)\s*=\s*["']?[^"'>]*(?:gmail_quote|yahoo_quoted|moz-cite|protonmail_quote)"""
    r"""|\bname\s*=\s*["']?quote""",
    re.IGNORECASE,
)
_IS_CITED = re.compile(r"type\s*=\s*[\"']?cite", re.IGNORECASE)
_IS_INDENT = re.compile(r"border\s*:\s*none|border\s*:\s*0|border-width\s*:\s*0", re.IGNORECASE)
# Outlook writes each line as a paragraph without space around it
_IS_TIGHT = re.compile(r"""class\s*=\s*["']?Mso|margin(?:-top)?\s*:\s*0(?:in|cm|px|pt)?\s*(?:[;"']|0)""", re.IGNORECASE)

_UNSEEN = frozenset("script style head title template noscript svg math object select textarea".split())
_BLOCKS = frozenset(
    "address article aside blockquote body center dd div dl dt fieldset footer form h1 h2 h3 h4 h5 h6 header hr html "
    "li main nav ol p pre section table tbody tfoot thead tr ul".split()
)
_APART = frozenset("blockquote dl h1 h2 h3 h4 h5 h6 ol p pre table ul".split())
_VOID = frozenset("area base br col embed hr img input link meta param source track wbr".split())
# deeper elements aren't shown
_MOST_OPEN = 100


@dataclass(frozen=True)
class _Element:
    """An open element. What holds around it holds inside it too, but for `is_apart`: a block with empty lines around
    it."""

    name: str
    is_unseen: bool = False
    is_quote: bool = False
    keeps_blanks: bool = False
    is_apart: bool = False


_ROOT = _Element("")


class _Page:
    """What was read so far: the lines, the text of the line at the end, and the open elements."""

    def __init__(self, most_lines: int) -> None:
        self.lines: list[str] = []
        self._most_lines = most_lines
        self._text: list[str] = []
        self._open: list[_Element] = []
        self._too_deep = 0

    def is_full(self) -> bool:
        return len(self.lines) > self._most_lines

    def _inside(self) -> _Element:
        return self._open[-1] if self._open else _ROOT

    def _is_unseen(self) -> bool:
        return self._too_deep > 0 or self._inside().is_unseen

    def end_line(self, is_forced: bool = False) -> None:
        """Ends the line at the end; where it has no text, only by force."""
        text = "".join(self._text)
        if text.strip(" ") or is_forced:
            line = text if self._inside().keeps_blanks else text.strip(" ")
            self.lines.append(f"> {line}" if self._inside().is_quote else line)
        self._text.clear()

    def _end_block(self, is_apart: bool) -> None:
        self.end_line()
        if is_apart and self.lines and self.lines[-1]:
            self.lines.append("")

    def add_text(self, text: str) -> None:
        if self._is_unseen():
            return
        shown = html.unescape(_LONG_NUMBER.sub("", text))
        if not self._inside().keeps_blanks:
            shown = _BLANKS.sub(" ", shown)
            is_begin = not self._text or self._text[-1].endswith(" ")
            self._text.append(shown[1:] if is_begin and shown.startswith(" ") else shown)
            return
        first, *more = shown.replace("\r\n", "\n").split("\n", self._most_lines)
        self._text.append(first)
        for line in more:
            if self.is_full():
                return
            self.end_line(is_forced=True)
            self._text.append(line)

    def open(self, name: str, values: str) -> None:
        if name == "br":
            if not self._is_unseen():
                self.end_line(is_forced=True)
            return
        if name == "body":
            self._open.clear()
            self._too_deep = 0
        if name in ("td", "th"):
            self._text.append(" ")
        if name in _BLOCKS:
            self._close_paragraph(name)
        if name not in _VOID and not values.endswith("/"):
            self._push(name, values)

    def _close_paragraph(self, name: str) -> None:
        """A block ends the paragraph that is open, and the line."""
        if self._open and self._open[-1].name == "p":
            self.close("p")
        self._end_block(name in _APART and name != "p")

    def _push(self, name: str, values: str) -> None:
        if self._too_deep or len(self._open) >= _MOST_OPEN:
            self._too_deep += 1
            return
        around = self._inside()
        is_indent = bool(_IS_INDENT.search(values)) and not _IS_CITED.search(values)
        self._open.append(_Element(
            name,
            is_unseen=around.is_unseen or name in _UNSEEN or bool(_HIDES.search(values)),
            is_quote=around.is_quote or bool(_IS_QUOTE.search(values)) or name == "blockquote" and not is_indent,
            keeps_blanks=around.keeps_blanks or name == "pre" or bool(_KEEPS_BLANKS.search(values)),
            is_apart=name in _APART and not _IS_TIGHT.search(values),
        ))

    def close(self, name: str) -> None:
        if self._too_deep:
            self._too_deep -= 1
            return
        last = len(self._open) - 1
        while last >= 0 and self._open[last].name != name:
            last -= 1
        if last < 0:
            return
        if name in _BLOCKS:
            self._end_block(False)
        is_apart = self._open[last].is_apart
        del self._open[last:]
        if is_apart:
            self._end_block(True)


def _tokens(text: str) -> Iterator[re.Match[str]]:
    """The tokens of a text without its comments. A comment without an end goes to the end of the text."""
    at = 0
    while found := _TOKEN.match(text, at):
        at = found.end()
        if found["comment"]:
            end = text.find("-->", at)
            if end < 0:
                return
            at = end + len("-->")
            continue
        yield found


def html_lines(text: str, most_lines: int) -> list[str]:
    """The lines that are seen, up to a number of them; then there may be a few more."""
    page = _Page(most_lines)
    for found in _tokens(text):
        if page.is_full():
            break
        if found["text"]:
            page.add_text(found["text"])
        elif found["name"] and found["close"]:
            page.close(found["name"].lower())
        elif found["name"]:
            page.open(found["name"].lower(), found["values"])
    page.end_line()
    while page.lines and not page.lines[-1].strip():
        page.lines.pop()
    return page.lines
