#!/usr/bin/env python3
"""Checks the pages against the repository, and prints each fault with its line:

- Each link of a page leads to a file, and to a heading where it names one, and each file and folder that a page names is
  there.
- Each section of a page that code, definitions, tests or pages name, as in `docs/RULES.md, "Shares"`, is there.
- Each name between backquotes in a comment of the crates, and in the pages on the code (OF_CODE), is a name of their code,
  definitions or proofs, or of a file.

It ends with 'links: all there'."""
import glob
import os
import re
import sys
from collections.abc import Iterable, Iterator
from pathlib import Path

LINK = re.compile(r"\[([^\]]*)\]\(([^)\s]*)\)")
PATH = re.compile(r"(?:\./)?[\w.-]+(?:/[\w.-]+)*/?")
IN_TEXT = re.compile(r"(?<![\w./-])(?:bench|crates|docs|examples|package|release|tests|tools|web|worlds)/[\w./-]*\w")
FILE = re.compile(r"[\w-]+\.(?:antt|c|conf|edit|md|py|rt|sh|toml|txt)$")
NAME = re.compile(r"[A-Za-z_][\w']*")
CITED_NAME = re.compile(rf"{NAME.pattern}(?:(?:::|\.|-){NAME.pattern})*(?:\(\))?")
CITED = re.compile(r"\b((?:docs|web)/\w+\.md), \"([^\"]+)\"(?:(?:,| and|, and) \"([^\"]+)\")*")

# What pages name and the repository doesn't have: files of a club, what the build makes, and what HTTP calls by such names.
NOT_NAMES_OF_OURS = {"sqlite3", "ANALYZE", "REINDEX", "VACUUM"}
OF_CODE = ("docs/DECISIONS.md", "docs/GATE.md", "docs/PROVED.md", "crates/*/README.md")
OF_A_CLUB = re.compile(r"(?:mail|months|undone|out|office)/.*"
                       r"|(?:books|mailing|orders|club|players|factions|world|island|slip|new|(?:report-|mail-)?\d+)\.\w+")
NOT_HERE = {"bench/NAME.txt", "crates/atl_gm/out/atl_gm", "text/plain", "HTTP/1.1"}


# ---- pages


def pages() -> list[str]:
    return ["README.md", "web/README.md", *files_of("docs/*.md"), "release/README.md", *files_of("crates/**/README.md")]


def read(path: str) -> str:
    return Path(path).read_text(encoding="utf-8")


def files_of(*patterns: str) -> list[str]:
    return sorted(path for pattern in patterns for path in glob.glob(pattern, recursive=True) if os.path.isfile(path))


# ---- what pages name


def lines_of(page: str) -> Iterator[tuple[int, str]]:
    """The lines of a page outside of its blocks, each with its number."""
    is_block = False
    for number, line in enumerate(read(page).split("\n"), 1):
        if line.startswith("```"):
            is_block = not is_block
        elif not is_block:
            yield number, line


def headings_of(page: str) -> set[str]:
    return {line.lstrip("#").strip() for _, line in lines_of(page) if line.startswith("#")}


def anchors_of(page: str) -> set[str]:
    """The headings of a page, as links name them."""
    return {re.sub(r"[^\w -]", "", heading.lower()).replace(" ", "-") for heading in headings_of(page)}


def all_paths() -> set[str]:
    """Each file and folder of the repository, without what is made."""
    found: set[str] = set()
    for folder, folders, files in os.walk("."):
        folders[:] = [name for name in folders if name not in (".git", "out", "__pycache__")]
        found.update(os.path.normpath(os.path.join(folder, name)) for name in folders + files)
    return found


def ends_of(paths: Iterable[str]) -> set[str]:
    """Each way to name one of these paths: itself, and what is left without its first folders; modules and definitions also
    without their ending."""
    ends: set[str] = set()
    for path in paths:
        parts = path.split("/")
        ends.update("/".join(parts[at:]) for at in range(len(parts)))
    return ends | {re.sub(r"\.(rt|antt)$", "", end) for end in ends if "/" in end}


def links_missing(page: str, line: str) -> Iterator[str]:
    for _, target in LINK.findall(line):
        path, _, anchor = target.partition("#")
        if re.match(r"https?:", target):
            continue
        whole = os.path.normpath(os.path.join(os.path.dirname(page), path)) if path else page
        if not os.path.exists(whole):
            yield f"{target} leads nowhere"
        elif anchor and anchor not in anchors_of(whole):
            yield f"{target}: there is no such heading"


def names_in(line: str) -> Iterator[str]:
    """The names of files and folders in a line: between backquotes the first word that may be one, and elsewhere what begins
    with a folder of the repository."""
    for code in re.findall(r"`([^`]+)`", line):
        word = code.split()[0]
        if PATH.fullmatch(word) and ("/" in word or FILE.fullmatch(word)):
            yield word
    yield from IN_TEXT.findall(re.sub(r"`[^`]*`|\]\([^)]*\)", " ", line))


def names_missing(line: str, ends: set[str]) -> Iterator[str]:
    for name in names_in(line):
        is_here = os.path.normpath(name) in ends
        if not is_here and name not in NOT_HERE and not OF_A_CLUB.fullmatch(name):
            yield f"{name} isn't in the repository"


def faults_of_pages() -> Iterator[str]:
    ends = ends_of(all_paths())
    for page in pages():
        for number, line in lines_of(page):
            yield from (f"{page}:{number}: {fault}" for fault in (*links_missing(page, line), *names_missing(line, ends)))


# ---- sections that are named


def sources() -> list[str]:
    code = files_of("crates/*/src/**/*.rt", "crates/*/specs/*.antt", "crates/*/proofs/**/*.antt")
    return [*pages(), *code, *files_of("tests/**/*.sh", "tests/**/*.py", "examples/*.sh")]


def faults_of_citations() -> Iterator[str]:
    headings: dict[str, set[str]] = {}
    for path in sources():
        for number, line in enumerate(read(path).split("\n"), 1):
            for cited in CITED.finditer(line):
                page = cited[1]
                if page not in headings:
                    headings[page] = headings_of(page) if os.path.isfile(page) else set()
                for title in re.findall(r"\"([^\"]+)\"", cited[0]):
                    if title not in headings[page]:
                        yield f"{path}:{number}: {page} has no section \"{title}\""


# ---- names in comments


def with_comment(path: str, line: str) -> tuple[str, str]:
    """A line of code without its comment, and the comment. In `.rt` files, two slashes within a text begin none."""
    if path.endswith(".antt"):
        begins = re.search(r"(?:^|\s)--(?:\s|$)", line)
    else:
        begins = next((found for found in re.finditer("//", line) if line[: found.start()].count('"') % 2 == 0), None)
    return (line[: begins.start()], line[begins.start() :]) if begins else (line, "")


def faults_of_cited_names() -> Iterator[str]:
    paths = files_of("crates/**/*.rt", "crates/**/*.antt")
    files = files_of("crates/**/*", "bench/**/*", "tests/**/*", "examples/*")
    names = NOT_NAMES_OF_OURS | {os.path.basename(path).split(".")[0] for path in files}
    cited = [(page, number, line) for page in files_of(*OF_CODE) for number, line in lines_of(page)]
    for path in paths:
        for number, line in enumerate(read(path).split("\n"), 1):
            code, comment = with_comment(path, line)
            names.update(NAME.findall(code))
            cited.append((path, number, comment))
    for path, number, text in cited:
        for cited_name in re.findall(r"`([^`]+)`", text):
            if CITED_NAME.fullmatch(cited_name) and not FILE.fullmatch(cited_name):
                yield from (f"{path}:{number}: {name} is no name of the crates" for name in NAME.findall(cited_name) if name not in names)


def main() -> None:
    os.chdir(Path(__file__).resolve().parents[2])
    if sys.argv[1:]:
        sys.exit(__doc__)
    faults = [*faults_of_pages(), *faults_of_citations(), *faults_of_cited_names()]
    for fault in faults:
        print(fault)
    print(f"links: {len(faults)} faults" if faults else "links: all there")
    sys.exit(bool(faults))


if __name__ == "__main__":
    main()
