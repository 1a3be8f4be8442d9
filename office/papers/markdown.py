"""Reads the part of Markdown that docs/PLAYER.md and docs/RULES.md use: headings, paragraphs, lists, tables, blocks of
code, links, bold and italic text, and code in a line. Anything else stays text, so that no word is lost."""

import re
from collections.abc import Callable, Iterator, Sequence
from dataclasses import dataclass

from office.papers.html import Child, Element, el, link, table, words_of

FENCE = re.compile(r"(`{3,}|~{3,})(.*)")
HEADING = re.compile(r"(#{1,6}) +(.*?)(?: +#+)? *")
ITEM = re.compile(r"( {0,3})(?:[-*+]|(\d{1,9})[.)])( +)(?=\S)")
INDENT = "    "
RULE_OF_TABLE = re.compile(r"\|?(?: *:?-+:? *\|)+(?: *:?-+:? *)?")
BAR = re.compile(r"(?<!\\)\|")
INLINE = re.compile(
    r"(?P<ticks>`+)(?P<code>.+?)(?<!`)(?P=ticks)(?!`)"
    r"|\[(?P<label>(?:[^\[\]`]|`[^`]*`|\[[^\]]*\])*)\]\((?P<target>[^)\s]*)\)"
    r"|\*\*(?P<strong>\S(?:.*?\S)?)\*\*"
    r"|\*(?P<em>[^\s*](?:[^*]*[^\s*])?)\*"
    r"|\\(?P<escaped>[!-/:-@\[-`{-~])"
    r"|(?P<cited>docs/\w+\.md(?:, \"[^\"]+\")?)"
    r"|(?P<bracketed>\([A-Z][a-z]+(?: [a-z]+)*\))"
)


@dataclass(frozen=True)
class Reading:
    """How a page is read: `prefix` begins the ids of its headings, and `place` says where a target leads from it, which
    is None for a target that the handout doesn't have. A target is what a link has, or a citation, as
    `docs/RULES.md, "Owners"`, or a section's name in brackets."""

    prefix: str
    place: Callable[[str], str | None]


def slug(heading: str) -> str:
    """The name of a heading in links, as GitHub makes it."""
    return re.sub(r"[^\w -]", "", heading.lower()).replace(" ", "-")


def headings(text: str) -> Iterator[tuple[int, str]]:
    """The headings of a page outside its code, each with its level."""
    for kind, lines in _parts(text.split("\n")):
        found = HEADING.fullmatch(lines[0]) if kind == "heading" else None
        if found:
            yield len(found[1]), words_of(inline(found[2], Reading("", lambda target: None)))


def blocks(lines: Sequence[str], reading: Reading) -> list[Element]:
    """The blocks of these lines as HTML, in their order."""
    make = {"fence": _fence, "code": _code, "heading": _heading, "table": _table, "list": _list,
            "paragraph": _paragraph}
    return [make[kind](part, reading) for kind, part in _parts(lines)]


# ---- lines to parts


def _parts(lines: Sequence[str]) -> Iterator[tuple[str, Sequence[str]]]:
    """The lines of each block, with its kind."""
    at = 0
    while at < len(lines):
        kind = _kind(lines, at)
        end = at + 1 if kind in ("blank", "heading") else ENDS[kind](lines, at)
        if kind != "blank":
            yield kind, lines[at:end]
        at = end


def _kind(lines: Sequence[str], at: int) -> str:
    line = lines[at]
    if not line.strip():
        return "blank"
    if line.startswith(INDENT):
        return "code"
    if FENCE.match(line.lstrip()):
        return "fence"
    if HEADING.fullmatch(line):
        return "heading"
    if ITEM.match(line):
        return "list"
    if at + 1 < len(lines) and "|" in line and RULE_OF_TABLE.fullmatch(lines[at + 1].strip()):
        return "table"
    return "paragraph"


def _end_of_fence(lines: Sequence[str], at: int) -> int:
    opened = FENCE.match(lines[at].lstrip())
    assert opened is not None
    for end in range(at + 1, len(lines)):
        if re.fullmatch(re.escape(opened[1][0]) + f"{{{len(opened[1])},}} *", lines[end].strip()):
            return end + 1
    return len(lines)


def _end_of_code(lines: Sequence[str], at: int) -> int:
    end = last = at
    while end < len(lines) and (lines[end].startswith(INDENT) or not lines[end].strip()):
        last = end if lines[end].strip() else last
        end += 1
    return last + 1


def _end_of_table(lines: Sequence[str], at: int) -> int:
    return next((end for end in range(at, len(lines)) if "|" not in lines[end]), len(lines))


def _end_of_list(lines: Sequence[str], at: int) -> int:
    """A list goes on with its items, with indented lines, and with lines that go on with a paragraph."""
    first = ITEM.match(lines[at])
    end = at + 1
    while end < len(lines):
        line, after_blank = lines[end], not lines[end - 1].strip()
        item = ITEM.match(line)
        is_other_list = item is not None and first is not None and (item[2] is None) != (first[2] is None)
        if line.strip() and not line.startswith("  ") and (is_other_list or not item and (
                after_blank or _kind(lines, end) != "paragraph")):
            break
        end += 1
    while not lines[end - 1].strip():
        end -= 1
    return end


def _end_of_paragraph(lines: Sequence[str], at: int) -> int:
    """A line that looks like code goes on with a paragraph. So does an item of a list that doesn't begin with 1."""
    end = at + 1
    while end < len(lines):
        kind, item = _kind(lines, end), ITEM.match(lines[end])
        goes_on = kind in ("paragraph", "code") or kind == "list" and item is not None and item[2] not in (None, "1")
        if not goes_on:
            break
        end += 1
    return end


ENDS: dict[str, Callable[[Sequence[str], int], int]] = {
    "fence": _end_of_fence, "code": _end_of_code, "table": _end_of_table, "list": _end_of_list,
    "paragraph": _end_of_paragraph,
}


# ---- parts to HTML


def _fence(lines: Sequence[str], reading: Reading) -> Element:
    is_closed = len(lines) > 1 and FENCE.match(lines[-1].lstrip()) is not None
    return el("pre", {}, el("code", {}, "\n".join(lines[1:-1] if is_closed else lines[1:])))


def _code(lines: Sequence[str], reading: Reading) -> Element:
    return el("pre", {}, el("code", {}, "\n".join(line.removeprefix(INDENT) for line in lines)))


def _heading(lines: Sequence[str], reading: Reading) -> Element:
    found = HEADING.fullmatch(lines[0])
    assert found is not None
    text = inline(found[2], reading)
    return el(f"h{len(found[1])}", {"id": reading.prefix + slug(words_of(text))}, text)


def _paragraph(lines: Sequence[str], reading: Reading) -> Element:
    return el("p", {}, inline(" ".join(line.strip() for line in lines), reading))


def _table(lines: Sequence[str], reading: Reading) -> Element:
    heads, rule, *rows = [_cells(line) for line in lines]
    numbers = [cell.endswith(":") for cell in rule]
    shown = [[inline(cell, reading) for cell in (*row, *[""] * (len(heads) - len(row)))] for row in rows]
    return table([inline(cell, reading) for cell in heads], shown, numbers)


def _cells(line: str) -> list[str]:
    inner = line.strip().removeprefix("|")
    if BAR.search(inner[-1:]) and not inner.endswith("\\|"):
        inner = inner[:-1]
    return [cell.strip().replace("\\|", "|") for cell in BAR.split(inner)]


def _list(lines: Sequence[str], reading: Reading) -> Element:
    found = ITEM.match(lines[0])
    starts = [at for at, line in enumerate(lines) if ITEM.match(line) and not line.startswith("  ")]
    items = [_item(lines[begin:end], reading) for begin, end in zip(starts, [*starts[1:], len(lines)])]
    if found and found[2] is not None:
        return el("ol", {"start": found[2]} if found[2] != "1" else {}, items)
    return el("ul", {}, items)


def _item(lines: Sequence[str], reading: Reading) -> Element:
    """An item of one paragraph has its text alone."""
    found = ITEM.match(lines[0])
    assert found is not None
    width = found.end()
    inner = [lines[0][width:], *(line[min(width, len(line) - len(line.lstrip())):] for line in lines[1:])]
    made = blocks(inner, reading)
    return el("li", {}, made[0].children if len(made) == 1 and made[0].name == "p" else made)


# ---- text of a line


def inline(text: str, reading: Reading) -> list[Child]:
    """The text with its links, code, bold and italic parts."""
    parts: list[Child] = []
    at = 0
    for found in INLINE.finditer(text):
        parts += [text[at:found.start()], _inline_part(found, reading)]
        at = found.end()
    return [*parts, text[at:]]


def _inline_part(found: re.Match[str], reading: Reading) -> Child:
    if found["code"] is not None:
        return el("code", {}, _code_words(found["code"]))
    if found["target"] is not None:
        return _link(found["target"], inline(found["label"], reading), reading)
    if found["strong"] is not None:
        return el("strong", {}, inline(found["strong"], reading))
    if found["em"] is not None:
        return el("em", {}, inline(found["em"], reading))
    if found["escaped"] is not None:
        return found["escaped"]
    if found["cited"] is not None:
        return _link(found["cited"], [found["cited"]], reading)
    inner = found["bracketed"][1:-1]
    return ["(", _link(found["bracketed"], [inner], reading), ")"]


def _code_words(code: str) -> str:
    """A space at both ends is there to keep ticks apart."""
    is_spaced = code.startswith(" ") and code.endswith(" ") and code.strip() != ""
    return code[1:-1] if is_spaced else code


def _link(target: str, label: list[Child], reading: Reading) -> Child:
    place = reading.place(target)
    return label if place is None else link(place, label)
