#!/usr/bin/env python3
"""Calls the program on databases that a person changed by sqlite3, and compares its answers and the rows of all tables
with what the files of cases in by_hand/ say: which databases are opened, founded in and upgraded, and that a refused
command changes no row.

by_hand/texts.toml has the texts and worlds that the cases name. Each other file there has cases. Its keys outside the
cases are those of each case that doesn't have them itself:

    start   steps that make the database, if there is one
    sql     statements that sqlite3 then runs. $NAME is the one of this name in the table `statements` of the file
    steps   what is asked then; or `call` and `answer`, which are a single step
    name    how a failure names the case, where its statements, or else its call, don't say enough

A step is a call of the program, without `--db`, and its answer; or a SELECT, and the one value that it gives. The name
of a text stands for the text. A call that is refused or reports a fault leaves all rows as they are, and so do `report`
and `books`. An upgrade adds a table without a row, and changes the format and the world text alone.

The script takes some ten seconds. It prints how many cases it tried, and how many failed."""
import shlex
import sqlite3
import subprocess
import sys
import tempfile
import tomllib
from collections.abc import Iterator, Sequence
from contextlib import closing
from dataclasses import dataclass
from pathlib import Path
from string import Template
from typing import Any, NamedTuple

sys.path.insert(0, str(Path(__file__).resolve().parents[2]))

from tests.program.calls import EMPTY_LOG, PATIENCE, PROGRAM, TOP  # noqa: E402

CASES = Path(__file__).with_suffix("")
TEXTS = CASES / "texts.toml"
DATABASE = "club.db"
KEYS = {"name", "start", "sql", "steps", "call", "answer"}
# How an answer on standard error begins.
ERRORS = ("refused: ", "fault: ", "world: ", "file: ")

Step = tuple[str, str | int]
Steps = tuple[Step, ...]
Rows = dict[str, list[tuple[object, ...]]]


class Outcome(NamedTuple):
    status: int
    output: str
    error: str


@dataclass(frozen=True)
class Case:
    name: str
    start: Steps
    sql: str
    steps: Steps


# ---- the files of cases


def changed_world(change: dict[str, str]) -> str:
    """A world of the folder worlds/ in which a text, which is there once, is another."""
    world = (TOP / "worlds" / change["of"]).read_text(encoding="utf-8")
    assert world.count(change["text"]) == 1, change
    return world.replace(change["text"], change["becomes"])


def read_texts() -> dict[str, str]:
    """What the cases call by a name: worlds, mailings and reports."""
    shared = tomllib.loads(TEXTS.read_text(encoding="utf-8"))
    worlds = {name: (TOP / "worlds" / name).read_text(encoding="utf-8") for name in shared["worlds"]}
    changed = {name: changed_world(change) for name, change in shared["changed"].items()}
    long = {name: part["first"] + part["then"] * part["times"] for name, part in shared["long"].items()}
    return {**worlds, **changed, **long, **shared["texts"]}


def steps_of(pairs: Sequence[Any]) -> Steps:
    return tuple((asked, wanted) for asked, wanted in pairs)


def case_of(file: str, keys: dict[str, Any], statements: dict[str, str]) -> Case:
    assert keys.keys() <= KEYS, (file, keys)
    sql = keys.get("sql", "")
    steps = [(keys["call"], keys["answer"])] if "answer" in keys else keys["steps"]
    return Case(name=f"{file}: {keys.get('name', sql or steps[0][0])}", start=steps_of(keys.get("start", ())),
                sql=Template(sql).substitute(statements), steps=steps_of(steps))


def cases_of(file: Path) -> Iterator[Case]:
    keys = tomllib.loads(file.read_text(encoding="utf-8"))
    cases, statements = keys.pop("case"), keys.pop("statements", {})
    return (case_of(file.name, {**keys, **case}, statements) for case in cases)


def all_cases() -> list[Case]:
    return [case for file in sorted(CASES.glob("*.toml")) if file != TEXTS for case in cases_of(file)]


# ---- a database


def change(database: Path, statements: str) -> None:
    with closing(sqlite3.connect(database, isolation_level=None)) as connection:
        connection.executescript(f"PRAGMA synchronous = OFF; {statements}")


def read(database: Path) -> sqlite3.Connection:
    """A connection that reads the file alone, whatever log is beside it, and writes nothing."""
    return sqlite3.connect(f"file:{database}?immutable=1", uri=True)


def select(database: Path, query: str) -> list[tuple[object, ...]]:
    with closing(read(database)) as connection:
        return connection.execute(query).fetchall()


def rows_of(database: Path) -> Rows:
    """All rows of all tables."""
    if not database.exists():
        return {}
    with closing(read(database)) as connection:
        names = connection.execute("SELECT name FROM sqlite_schema WHERE type = 'table'").fetchall()
        return {name: connection.execute(f"SELECT * FROM {name}").fetchall() for (name,) in names}


def upgraded(rows: Rows, world: str) -> Rows:
    """What an upgrade makes of these rows."""
    number, _, *others, _ = rows["campaign"][0]
    return {**rows, "campaign": [(number, 2, *others, world)], "market": []}


# ---- one case


@dataclass(frozen=True)
class Shared:
    """What all cases have: the texts, and the bytes of the database that each `start` made so far."""

    texts: dict[str, str]
    made: dict[Steps, bytes]


class Trial:
    """A folder in which a case is tried, and what was wrong so far."""

    def __init__(self, folder: Path, shared: Shared) -> None:
        self.folder = folder
        self.texts = shared.texts
        self.made = shared.made
        self.database = folder / DATABASE
        self.faults: list[str] = []
        for name, text in shared.texts.items():
            (folder / name).write_bytes(text.encode())

    def expect(self, asked: str, wanted: object, came: object) -> None:
        if came != wanted:
            self.faults.append(f"  {asked}\n    wanted: {wanted}\n    came:   {came}")

    def outcome(self, words: Sequence[str]) -> Outcome:
        ended = subprocess.run([PROGRAM, *words, "--db", DATABASE], cwd=self.folder, stdin=subprocess.DEVNULL,
                               capture_output=True, encoding="utf-8", timeout=PATIENCE)
        return Outcome(ended.returncode, ended.stdout, ended.stderr)

    def has_log(self) -> bool:
        """Whether changes are beside the file."""
        log = self.folder / f"{DATABASE}-wal"
        return log.exists() and log.stat().st_size > EMPTY_LOG

    def wanted_outcome(self, answer: str) -> Outcome:
        text = self.texts.get(answer, answer)
        lines = text if text.endswith("\n") else f"{text}\n"
        return Outcome(1, "", lines) if answer.startswith(ERRORS) else Outcome(0, lines, "")

    def wanted_rows(self, words: Sequence[str], status: int, before: Rows) -> Rows | None:
        """The rows after a call, or None where it may change any."""
        if status != 0 or words[0] in ("report", "books"):
            return before
        if words[0] == "upgrade":
            return upgraded(before, self.texts[words[words.index("--world") + 1]])
        return None

    def call(self, asked: str, answer: str) -> None:
        words = shlex.split(asked)
        before = rows_of(self.database)
        outcome = self.outcome(words)
        self.expect(asked, self.wanted_outcome(answer), outcome)
        self.expect(f"{asked}, content of the log after it", False, self.has_log())
        wanted = self.wanted_rows(words, outcome.status, before)
        if wanted is not None:
            self.compare(asked, wanted, rows_of(self.database))

    def compare(self, asked: str, wanted: Rows, came: Rows) -> None:
        self.expect(f"{asked}, the tables after it", sorted(wanted), sorted(came))
        for name in wanted.keys() & came.keys():
            if wanted[name] != came[name]:
                self.faults.append(f"  {asked}\n    other rows of {name} than are wanted after it")

    def take(self, step: Step) -> None:
        asked, wanted = step
        if asked.startswith("SELECT"):
            value = self.texts.get(wanted, wanted) if isinstance(wanted, str) else wanted
            self.expect(asked, [(value,)], select(self.database, asked))
        else:
            self.call(asked, str(wanted))

    def take_all(self, steps: Steps) -> None:
        for step in steps:
            self.take(step)

    def make(self, start: Steps) -> None:
        if start and start not in self.made:
            self.take_all(start)
            self.made[start] = self.database.read_bytes()
        elif start:
            self.database.write_bytes(self.made[start])

    def run(self, case: Case) -> None:
        self.make(case.start)
        if case.sql:
            change(self.database, case.sql)
        self.take_all(case.steps)


def faults_of(case: Case, shared: Shared) -> list[str]:
    """What is wrong with the program's answers, or with the rows."""
    with tempfile.TemporaryDirectory() as folder:
        trial = Trial(Path(folder), shared)
        try:
            trial.run(case)
        except (OSError, sqlite3.Error, subprocess.TimeoutExpired) as error:
            trial.faults.append(f"  {error}")
        return trial.faults


def main() -> int:
    shared, cases, failed = Shared(read_texts(), {}), all_cases(), 0
    for case in cases:
        faults = faults_of(case, shared)
        failed += bool(faults)
        if faults:
            print("\n".join([case.name, *faults]))
    print(f"by_hand: {len(cases)} cases, {failed} failed")
    return 1 if failed else 0


if __name__ == "__main__":
    sys.dont_write_bytecode = True
    sys.exit(main())
