#!/usr/bin/env python3
"""Sees that no sentence of the pages has more than 35 words, and prints those that have, each with the line where its
paragraph begins and its count of words. Code blocks, tables and headings are left out, and what is between backquotes
counts as one word."""
import os
import re
import sys
from collections.abc import Iterable, Iterator
from pathlib import Path

sys.dont_write_bytecode = True
TOP = Path(__file__).resolve().parents[2]
sys.path.insert(0, str(TOP))

from tests.pages.links import pages, read  # noqa: E402

MOST_WORDS = 35
ITEM = re.compile(r"\s*([-*]|\d+\.)\s+")
ENDS = re.compile(r"(?<=[^.\s][.!?])[)\"*]*\s+")


def paragraphs(lines: Iterable[str]) -> Iterator[tuple[int, str]]:
    """The paragraphs and the items of lists, each with the line where it begins."""
    is_code, begun = False, 0
    text: list[str] = []
    for number, line in enumerate([*lines, ""], 1):
        is_fence = line.lstrip().startswith("```")
        is_apart = is_code or is_fence or not line.strip() or line.startswith(("#", "    ")) and not text or line.lstrip().startswith("|")
        if text and (is_apart or ITEM.match(line)):
            yield begun, " ".join(text)
            text = []
        if is_fence:
            is_code = not is_code
        if not is_apart:
            begun = begun if text else number
            text.append(ITEM.sub("", line, count=1).strip() if ITEM.match(line) else line.strip())


def words_of(sentence: str) -> list[str]:
    plain = re.sub(r"\]\([^)]*\)", "]", re.sub(r"`[^`]*`", "code", sentence))
    return [word for word in plain.split() if re.search(r"\w", word)]


def long_sentences(page: str) -> Iterator[str]:
    for line, text in paragraphs(read(page).split("\n")):
        for sentence in ENDS.split(text):
            count = len(words_of(sentence))
            if count > MOST_WORDS:
                yield f"{page}:{line}: {count} words: {sentence}"


def main() -> None:
    os.chdir(TOP)
    if sys.argv[1:]:
        sys.exit(__doc__)
    found = [sentence for page in pages() for sentence in long_sentences(page)]
    for sentence in found:
        print(sentence)
    print(f"sentences: {len(found)} too long" if found else "sentences: none too long")
    sys.exit(bool(found))


if __name__ == "__main__":
    main()
