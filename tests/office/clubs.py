"""A club of a test: its folder, and calls of `kiwirudder` on it as a moderator makes them."""

from __future__ import annotations

import os
import sqlite3
import subprocess
import sys
from collections.abc import Mapping
from contextlib import closing
from dataclasses import dataclass
from functools import cache
from pathlib import Path

TOP = Path(__file__).resolve().parents[2]
TOOL = TOP / "kiwirudder"
MODERATOR = "club@club.test"
SECONDS_FOR_A_CALL = 600


@dataclass(frozen=True)
class Done:
    """What a call came to. A negative `status` is the signal that ended it."""

    status: int
    output: str
    errors: str


@cache
def find_program() -> Path | None:
    """The program that $GM names, or that the script `gm` would run; None where there is none."""
    named = os.environ.get("GM")
    if named:
        return Path(named)
    asked = subprocess.run([str(TOP / "gm"), "path"], capture_output=True, text=True, check=False)
    return None if asked.returncode else Path(asked.stdout.strip())


class ClubFolder:
    """A club in `folder`, which `found` makes."""

    def __init__(self, folder: Path) -> None:
        self.folder = folder

    def words(self, *words: str) -> list[str]:
        return [sys.executable, str(TOOL), "--club", str(self.folder), *words]

    def environment(self, more: Mapping[str, str] | None = None) -> dict[str, str]:
        program = find_program()
        known = {**os.environ, **({"GM": str(program)} if program else {})}
        return {**known, **(more or {})}

    def try_call(self, *words: str, environment: Mapping[str, str] | None = None, stdin: bytes = b"") -> Done:
        done = subprocess.run(self.words(*words), input=stdin, capture_output=True, check=False,
                              env=self.environment(environment), timeout=SECONDS_FOR_A_CALL)
        return Done(done.returncode, done.stdout.decode(), done.stderr.decode())

    def call(self, *words: str, expected: int = 0, stdin: bytes = b"") -> str:
        """What it prints on standard output. AssertionError where its status is another one than `expected`."""
        done = self.try_call(*words, stdin=stdin)
        if done.status != expected:
            raise AssertionError(f"kiwirudder {' '.join(words)}: status {done.status}, and not {expected}\n"
                                 f"{done.output}{done.errors}")
        return done.output

    def found(self, world: Path, *words: str) -> str:
        """Makes the club, and returns the checksum of its seed as it was printed."""
        return self.call("init", str(self.folder), "--world", str(world), "--moderator", MODERATOR, *words).split()[-1]

    def add_settings(self, text: str) -> None:
        path = self.folder / "club.toml"
        path.write_text(path.read_text() + text)

    def change_settings(self, old: str, new: str) -> None:
        """AssertionError where club.toml hasn't `old` once."""
        path = self.folder / "club.toml"
        text = path.read_text()
        if text.count(old) != 1:
            raise AssertionError(f"club.toml has {old!r} {text.count(old)} times")
        path.write_text(text.replace(old, new))

    def ask(self, question: str) -> list[tuple[object, ...]]:
        """What the campaign's database answers to a SELECT."""
        with closing(sqlite3.connect(f"file:{self.folder}/club.db?mode=ro", uri=True)) as database:
            return database.execute(question).fetchall()

    def pass_text(self, faction: int) -> str:
        return str(self.ask(f"SELECT pass FROM faction WHERE number = {faction}")[0][0])

    def letters(self, place: str = "out") -> list[Path]:
        """The letters of out/, `out/sent` or `out/failed`."""
        return sorted((self.folder / place).glob("*.eml"))
