"""Tries a mailing before it is sent, and shows what the program would answer.

It finds what the program can't read. It doesn't know the player's units, so it can't say whether an order will succeed
when the month is closed, nor whether the number after #ATLANTIS is the player's: it takes that number for theirs."""

from __future__ import annotations

import re
import sys
from collections.abc import Callable
from pathlib import Path
from tempfile import TemporaryDirectory

from office import texts
from office.closing.lines import find_header, split_lines
from office.club.program import Fault, Program, Refusal
from office.errors import OfficeError
from office.orders.faults import LineFault
from office.orders.words import LAST_FACTION, count_of, words_of

Say = Callable[[str], None]

PASS_TEXT = "scratch"
LONGEST_LINE = 100
# the program reads no longer mailing, so no more is read of a pipe
MOST_BYTES = 65_536
_FAULT = re.compile(r"line (\d+): (\d+) (\w+)")


def check(world: Path, mailing: Path, say: Say) -> bool:
    """Whether the mailing has no fault. Each fault is said with its line and what it means. `-` reads standard input.
    OfficeError where a file can't be read or the world has a fault."""
    text = _read(mailing)
    try:
        answer = try_mailing(world, text)
    except Refusal as refusal:
        say(f"refused: {refusal.number} {refusal.name}")
        say(texts.refusal_sentence(refusal.number))
        return False
    except Fault as fault:
        raise OfficeError(fault.line) from None
    lines = split_lines(text)
    for line in answer:
        say(line)
        found = _FAULT.fullmatch(line)
        if found:
            say(f"    {_shown(lines[int(found[1]) - 1])}")
            say(f"    {_explain(int(found[2]))}")
    return answer[0].endswith(", 0 faults")


def try_mailing(world: Path, text: bytes) -> list[str]:
    """The lines of the program's answer, which come from a campaign with one faction. Refusal or Fault where it takes
    nothing."""
    with TemporaryDirectory(prefix="check-") as folder:
        program = Program(Path(folder), "scratch.db")
        program.run("found", "--world", str(world.absolute()), "--db", program.file, f"--pass={PASS_TEXT}")
        program.run("join", "--db", program.file, "--name=Faction 1", f"--pass={PASS_TEXT}", "--seed=0")
        file = Path(folder) / "mailing.txt"
        file.write_bytes(with_first_faction(text))
        answer = program.run("mail", "--db", program.file, "--faction", "1", f"--pass={PASS_TEXT}", "--file", file.name)
    return answer.splitlines()


def with_first_faction(text: bytes) -> bytes:
    """The same mailing for faction 1, of the same length and with the same lines. One without a good number stays."""
    lines = text.split(b"\n")
    at = find_header(split_lines(text))
    if at is None:
        return text
    words = words_of(lines[at].decode("latin-1"))
    if len(words) < 2 or count_of(words[1].text, LAST_FACTION) is None:
        return text
    word = words[1]
    begin = lines[at].index(word.text.encode("latin-1"), word.start)
    lines[at] = lines[at][:begin] + b"1".zfill(len(word.text)) + lines[at][begin + len(word.text):]
    return b"\n".join(lines)


def _read(mailing: Path) -> bytes:
    try:
        if str(mailing) == "-":
            return sys.stdin.buffer.read(MOST_BYTES + 1)
        with mailing.open("rb") as file:
            return file.read(MOST_BYTES + 1)
    except OSError as error:
        raise OfficeError(f"{mailing} can't be read: {error.strerror}") from None


def _shown(line: str) -> str:
    """The line with ? for each sign that isn't allowed."""
    return "".join(sign if sign == "\t" or " " <= sign <= "~" else "?" for sign in line[:LONGEST_LINE]).lstrip(" \t")


def _explain(fault: int) -> str:
    sentence = texts.FAULTS[LineFault(fault)] if fault in set(LineFault) else texts.OTHER_FAULT
    return sentence[0].upper() + sentence[1:]
