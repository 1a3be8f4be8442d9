"""Makes the handout: one page with the guide for players, the rules, and the price list of a world."""

import re
from collections.abc import Collection, Iterator, Mapping
from dataclasses import dataclass
from pathlib import Path

from office.errors import OfficeError
from office.papers.html import Child, Element, document, el, link
from office.papers.markdown import Reading, blocks, headings, slug
from office.papers.prices import price_list
from office.papers.sheet import HANDOUT, MAP, STYLE
from office.papers.world import World

CITED = re.compile(r'(docs/\w+\.md)(?:, "([^"]+)")?')
PRICES = "prices"


@dataclass(frozen=True)
class Source:
    """A page of the folder `docs` that the handout has, with the id of its part."""

    file: str
    part: str
    title: str


SOURCES = (Source("PLAYER.md", "guide", "Guide"), Source("RULES.md", "rules", "Rules"))
PARTS = ("guide", "rules", PRICES)


def handout(world: World, docs: Path, regions: bool = True, club: str = "", parts: Collection[str] = PARTS) -> str:
    """The page, with these parts. `docs` is the folder with the guide and the rules, and `regions` says whether the
    price list has the regions, their map and their markets. OfficeError if a page of `docs` can't be read."""
    texts = {source: _text(docs / source.file) for source in SOURCES if source.part in parts}
    title = f"Handout: {club}" if club else "Handout for players"
    prices = el("section", {"id": PRICES, "class": "part"}, price_list(world, regions)) if PRICES in parts else None
    return document(
        title, STYLE + MAP + HANDOUT,
        el("header", {}, el("h1", {"class": "title"}, title), _contents(world, texts, prices is not None)),
        el("main", {}, [_part(source, text, texts) for source, text in texts.items()], prices),
    )


def _text(path: Path) -> str:
    try:
        return path.read_text(encoding="utf-8")
    except FileNotFoundError as error:
        raise OfficeError(f"{path} is missing: name the folder docs of the program by --docs") from error
    except (OSError, UnicodeDecodeError) as error:
        raise OfficeError(f"{path} can't be read: {error}") from error


def _contents(world: World, texts: Mapping[Source, str], has_prices: bool) -> Element:
    """The parts, and the sections of each."""
    parts = [
        el("li", {}, el("strong", {}, link(f"#{source.part}", source.title)), ": ",
           list(_separated([link(f"#{source.part}-{slug(words)}", words)
                            for level, words in headings(text) if level == 2])))
        for source, text in texts.items()
    ]
    name = f"Prices of the world {world.name}" if world.name else "Prices"
    prices = el("li", {}, el("strong", {}, link(f"#{PRICES}", name))) if has_prices else None
    return el("nav", {}, el("ul", {}, parts, prices))


def _separated(links: list[Element]) -> Iterator[Child]:
    for place, it in enumerate(links):
        yield ", " if place else ""
        yield it


def _part(source: Source, text: str, texts: Mapping[Source, str]) -> Element:
    reading = Reading(f"{source.part}-", _Places(source, texts).find)
    return el("section", {"id": source.part, "class": "part"}, list(blocks(text.split("\n"), reading)))


class _Places:
    """Where the targets of a page lead in the handout."""

    def __init__(self, source: Source, texts: Mapping[Source, str]) -> None:
        self.source = source
        self.ids = {it: {slug(words) for _, words in headings(text)} for it, text in texts.items()}
        self.files = {it.file: it for it in texts}

    def find(self, target: str) -> str | None:
        """The place of a link's target, of a citation, or of a section's name in brackets. None if it isn't here."""
        if target.startswith(("https://", "http://")):
            return target
        if target.startswith("("):
            return self.section(self.source, slug(target)) if self.source.file == "RULES.md" else None
        if cited := CITED.fullmatch(target):
            return self.in_file(cited[1], slug(cited[2] or ""))
        file, _, heading = target.partition("#")
        return self.in_file(file or self.source.file, heading)

    def in_file(self, file: str, heading: str) -> str | None:
        source = self.files.get(Path(file).name)
        if not source:
            return None
        return self.section(source, heading) if heading else f"#{source.part}"

    def section(self, source: Source, heading: str) -> str | None:
        return f"#{source.part}-{heading}" if heading in self.ids[source] else None
