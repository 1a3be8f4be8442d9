#!/usr/bin/env python3
"""Checks docs/INDEX.md, which says where each rule is defined, coded and tested, and prints each fault with its line:

- Each section (##) of docs/RULES.md has one row, in the order of the sections, which begins with a link to the section.
- Each of its cells has links, and each file is there: definitions in crates/*/specs, and code in crates/*/src.
- After each file of definitions come names that it defines, between backquotes.
- Some of the code cites one of the definitions, or holds the numbers that it defines.
- A file of definitions whose first line names sections of docs/RULES.md is in the rows of these, and in no other.

It ends with 'rules_index: all there'. believe.py takes the order of the definitions from this page."""
import glob
import os
import re
import sys
from collections.abc import Iterator
from dataclasses import dataclass
from pathlib import Path

RULES, INDEX = "docs/RULES.md", "docs/INDEX.md"
FILE = re.compile(r"\[[^\]]*\]\(([^)\s]*)\)([^\[]*)")
ROW = re.compile(r"\| \[(?P<title>[^\]]*)\]\((?P<target>[^)]*)\) \|" + r" ([^|]*) \|" * 3)
DEFINED = re.compile(r"^ *(?:abbrev|unfoldable|pub record|pub data)(?: pub)? (\S+)", re.MULTILINE)
SPEC = re.compile(r"crates/(\w+)/specs/(\w+)\.antt")
CODE = re.compile(r"crates/\w+/src/[\w/]+\.rt")


@dataclass(frozen=True)
class Linked:
    """A file that a cell links to, as a path from the top of the repository, and the names between backquotes after it."""

    path: str
    names: tuple[str, ...]


@dataclass(frozen=True)
class Row:
    """Where a rule is: a row of the index."""

    line: int
    title: str
    target: str
    definitions: tuple[Linked, ...]
    code: tuple[Linked, ...]
    tests: tuple[Linked, ...]

    def files(self) -> tuple[Linked, ...]:
        return self.definitions + self.code + self.tests


def read(path: str) -> str:
    return Path(path).read_text(encoding="utf-8")


def titles_of_rules() -> list[str]:
    return re.findall(r"^## (.*)$", read(RULES), re.MULTILINE)


def linked(cell: str) -> tuple[Linked, ...]:
    """The files of a cell."""
    return tuple(Linked(os.path.normpath(f"docs/{path}"), tuple(re.findall(r"`([^`]+)`", rest))) for path, rest in FILE.findall(cell))


def rows() -> list[Row]:
    """The rows of the index, in their order."""
    return list(rows_of(read(INDEX)))


def rows_of(text: str) -> Iterator[Row]:
    for line, words in enumerate(text.split("\n"), 1):
        if found := ROW.fullmatch(words):
            yield Row(line, found["title"], found["target"], *(linked(cell) for cell in found.groups()[2:]))


# ---- the sections


def faults_of_sections(found: list[Row]) -> Iterator[str]:
    """Sections without a row, rows without a section, and the first row that is out of order."""
    titles, named = titles_of_rules(), [row.title for row in found]
    yield from (f"{INDEX}: {title}: this section of {RULES} has no row" for title in titles if title not in named)
    for row in found:
        if row.title not in titles:
            yield f"{INDEX}:{row.line}: {RULES} has no section {row.title}"
        elif row.target != f"RULES.md#{row.title.lower().replace(' ', '-')}":
            yield f"{INDEX}:{row.line}: {row.target} leads elsewhere"
    if sorted(titles) == sorted(named):
        yield from (f"{INDEX}:{row.line}: the row of {title} has to be here" for row, title in zip(found, titles) if row.title != title)
    elif len(set(named)) < len(named):
        yield f"{INDEX}: a section has two rows"


def faults_of_lines() -> Iterator[str]:
    """Lines that look like a row and can't be read as one."""
    for line, words in enumerate(read(INDEX).split("\n"), 1):
        if words.startswith("| [") and not ROW.fullmatch(words):
            yield f"{INDEX}:{line}: a row has the cells rule, definitions, code and tests"


# ---- the files of a row


def faults_of_row(row: Row) -> Iterator[str]:
    """What is wrong with the files and names of a row."""
    cells = {"definitions": row.definitions, "code": row.code, "tests": row.tests}
    yield from (f"no file under {name}" for name, files in cells.items() if not files)
    missing = [file.path for file in row.files() if not os.path.isfile(file.path)]
    yield from (f"{path} isn't there" for path in missing)
    yield from (f"{file.path} is no file of code" for file in row.code if not CODE.fullmatch(file.path))
    if not missing:
        for file in row.definitions:
            yield from faults_of_definitions(file, row.title)
        if not any(cites(code.path, file.path) for code in row.code for file in row.definitions):
            yield "none of the code cites one of the definitions"


def faults_of_definitions(file: Linked, title: str) -> Iterator[str]:
    if not SPEC.fullmatch(file.path):
        yield f"{file.path} is no file of definitions"
        return
    defined, titles = set(DEFINED.findall(read(file.path))), titles_named(file.path)
    yield from (f"{file.path} doesn't define {name}" for name in file.names if name not in defined)
    if not file.names:
        yield f"{file.path}: no definition is named"
    if titles and title not in titles:
        yield f"{file.path} names other sections: {', '.join(sorted(titles))}"


def titles_named(path: str) -> set[str]:
    """The sections of docs/RULES.md that the first line of a file of definitions names."""
    return set(re.findall(rf"{RULES}, \"([^\"]*)\"", read(path).split("\n")[0]))


def cites(code: str, path: str) -> bool:
    """Whether a file of code brings in a name of a file of definitions, or holds the numbers that it defines."""
    found = SPEC.fullmatch(path)
    if not found:
        return False
    crate, name = found.groups()
    return f"Rattle.{crate}.specs.{name}." in read(code) or code == f"crates/{crate}/src/{name.lower()}.rt"


def faults_of_specs(found: list[Row]) -> Iterator[str]:
    """Files of definitions that name a section in whose row they aren't."""
    listed = {(row.title, file.path) for row in found for file in row.definitions}
    for path in sorted(glob.glob("crates/*/specs/*.antt")):
        for title in sorted(titles_named(path)):
            if (title, path) not in listed:
                yield f"{INDEX}: {title}: {path} names this section, and isn't in its row"


def main() -> None:
    os.chdir(Path(__file__).resolve().parents[2])
    if sys.argv[1:]:
        sys.exit(__doc__)
    found = rows()
    faults = [*faults_of_lines(), *faults_of_sections(found), *faults_of_specs(found)]
    faults += [f"{INDEX}:{row.line}: {row.title}: {fault}" for row in found for fault in faults_of_row(row)]
    for fault in faults:
        print(fault)
    print(f"rules_index: {len(faults)} faults" if faults else "rules_index: all there")
    sys.exit(bool(faults))


if __name__ == "__main__":
    main()
