#!/usr/bin/env python3
"""Tries what the program makes of world texts, most of them with a fault. The cases are in worlds.toml.

`gm trial` reads each text, and prints a first report, or the first fault with its path. Each text is also put into a
file of the first format, whose reader ignores markets. There `gm upgrade` shows whether the text has a fault, but not
which one. Other cases upgrade campaigns to worlds that differ in their markets alone, or in more.

Called without arguments, it takes some 10 seconds. It prints each case that fails, and at the end how many it tried."""
import sqlite3
import subprocess
import sys
import tempfile
import tomllib
from collections.abc import Iterator, Mapping
from contextlib import closing
from dataclasses import dataclass
from pathlib import Path
from typing import Any

sys.path.insert(0, str(Path(__file__).resolve().parents[2]))

from tests.program.calls import PATIENCE, PROGRAM, SMALL_FILE, TOP  # noqa: E402

CASES = Path(__file__).with_suffix(".toml")
OLD_FILE = TOP / "tests/old/trial.db"
SMALL = SMALL_FILE.read_text(encoding="utf-8")
NONE = "none"
# This breaks rule 2 of docs/FORMATS.md, "Rules of the tables". A faulty world text breaks rule 1.
BREAK_RULE_2 = "UPDATE campaign SET month = 10000"

MARKET = """\
[[region.market]]
item = "wood"
price = 7
pays = 5
limit = 30
restock = 20
"""
ITEM_SKILL_KIND = """\
[[item]]
name = "wood"
weight = 5
carry = 0
[[skill]]
name = "carpentry"
fee = 10
[[kind]]
name = "lodge"
ship = false
material = "wood"
size = 20
skill = "carpentry"
level = 1
"""
# Status, output and errors of a call.
Outcome = tuple[int, str, str]


@dataclass(frozen=True)
class Case:
    """A world text, its first fault, and whether the first format finds a fault in it."""

    name: str
    text: str
    fault: str
    has_old_fault: bool


@dataclass(frozen=True)
class Difference:
    """A world, the same with an edit, and whether they are the same but for their markets."""

    name: str
    world: str
    other: str
    markets_alone: bool


class Bench:
    """A folder with the files of the calls, and how many cases were tried and failed."""

    def __init__(self, folder: Path) -> None:
        self.folder = folder
        self.tried = 0
        self.failed = 0

    def count(self, name: str, *faults: str) -> None:
        """Counts a case. Each fault that isn't empty is printed."""
        self.tried += 1
        if any(faults):
            self.failed += 1
            print("\n  ".join([f"{name}:", *filter(None, faults)]))


def mismatch(what: str, wanted: Outcome, came: Outcome) -> str:
    return "" if came == wanted else f"{what}: wanted {wanted}, came {came}"


# ---- the cases

def above(header: str) -> str:
    return SMALL.partition(header)[0]


def with_markets(count: int) -> str:
    return SMALL + MARKET * count + ITEM_SKILL_KIND


def named_worlds() -> dict[str, str]:
    return {
        "empty": "",
        "small": SMALL,
        "small, above its region": above("[[region]]"),
        "small, above its terrain": above("[[terrain]]"),
        "things": with_markets(0),
        "1 market": with_markets(1),
        "2 markets": with_markets(2),
        "200 markets": with_markets(200),
        "201 markets": with_markets(201),
    }


def case_of(name: str, text: str, fault: str, has_old_fault: bool = False) -> Case:
    return Case(name, text, fault, has_old_fault or fault != NONE and ".market" not in fault)


def replaced(text: str, old: str, new: str) -> str:
    """The text with the first `old` replaced."""
    if old not in text:
        raise ValueError(f"a case edits what its world doesn't have: {old!r}")
    return text.replace(old, new, 1)


def pieces_of(edit: Mapping[str, str]) -> tuple[str, str]:
    """What an edit replaces, and by what."""
    if "above" in edit:
        return edit["above"], f"{edit['add']}\n{edit['above']}"
    if "below" in edit:
        return edit["below"], f"{edit['below']}\n{edit['add']}"
    return edit["old"], edit["new"]


def edited(text: str, edit: Mapping[str, str]) -> str:
    return replaced(text, *pieces_of(edit))


def name_of(world: str, edit: Mapping[str, str]) -> str:
    old, new = pieces_of(edit)
    return f"{world}, {old!r} replaced by {new!r}"


def edit_cases(tables: Mapping[str, Any]) -> Iterator[Case]:
    worlds = named_worlds()
    for table in tables["edits"]:
        world, has_old_fault = table["world"], table.get("has_old_fault", False)
        for row in table["cases"]:
            yield case_of(name_of(world, row), edited(worlds[world], row), row["fault"], has_old_fault)


def range_cases(tables: Mapping[str, Any]) -> Iterator[Case]:
    world = named_worlds()[tables["ranges"]["world"]]
    for row in tables["ranges"]["keys"]:
        path: str = row["path"]
        key = path.rpartition(".")[2]
        if "line" in row:
            line, front = row["line"], f"{key} = "
            yield case_of(f"{path} is missing", replaced(world, line, ""), f"2 Missing {path}")
        else:
            line, front = row["below"], f"{row['below']}\n{key} = "
        for number, fault in numbers_of(row["least"], row["greatest"]):
            text = replaced(world, line, f"{front}{number}")
            yield case_of(f"{path} is {number}", text, f"{fault} {path}" if fault else NONE)


def numbers_of(least: int, greatest: int) -> list[tuple[float, str]]:
    """The numbers that are tried of a range, each with its fault, which is empty for a good number."""
    good, out = [(least, ""), (greatest, "")], "4 OutOfRange"
    return [(1.5, "3 WrongType"), (least - 1, out), *good, (greatest + 1, out)]


def repeated(table: Mapping[str, str], times: int) -> str:
    def part(key: str) -> str:
        return table.get(key, "")

    return part("front") + part("open") * times + part("inside") + part("close") * times + part("end")


def repeated_cases(tables: Mapping[str, Any]) -> Iterator[Case]:
    for table in tables["repeated"]:
        for row in table["cases"]:
            name = f"{repeated(table, 1)!r}, {row['times']} times"
            yield case_of(name, SMALL + repeated(table, row["times"]), row["fault"])


def region_cases(tables: Mapping[str, Any]) -> Iterator[Case]:
    before, header, region = SMALL.partition("[[region]]")
    for row in tables["numbered_regions"]["cases"]:
        numbers = range(1, row["count"] + 1)
        regions = (header + replaced(region, "number = 1", f"number = {number}") for number in numbers)
        yield case_of(f"{row['count']} regions", before + "".join(regions), row["fault"])


def differences(tables: Mapping[str, Any]) -> Iterator[Difference]:
    name = tables["differences"]["world"]
    world = named_worlds()[name]
    for row in tables["differences"]["cases"]:
        yield Difference(name_of(name, row), world, edited(world, row), row["markets_alone"])


# ---- what the program makes of them

def done(line: str) -> Outcome:
    return 0, f"{line}\n", ""


def fails(line: str) -> Outcome:
    return 1, "", f"{line}\n"


def call(*words: str | Path, stdin: str = "") -> Outcome:
    ended = subprocess.run([PROGRAM, *words], input=stdin.encode(), capture_output=True, timeout=PATIENCE)
    return ended.returncode, ended.stdout.decode(), ended.stderr.decode()


def trial(text: str) -> Outcome:
    """The outcome of a trial, with the first line of its report alone."""
    status, output, error = call("trial", stdin=text)
    return status, "".join(output.splitlines(keepends=True)[:1]), error


def of_trial(case: Case) -> Outcome:
    if case.fault == NONE:
        return done('Atlantis report, month 0, faction 1 "Avalon".')
    return fails(f"world: {case.fault}")


def run_sql(database: Path, statements: str) -> None:
    with closing(sqlite3.connect(database)) as connection:
        connection.executescript(statements)


def make_old_file(database: Path) -> None:
    """A file of the first format whose upgrade is refused, whatever its world text."""
    database.write_bytes(OLD_FILE.read_bytes())
    run_sql(database, BREAK_RULE_2)


def upgrade_with_text(database: Path, text: str) -> Outcome:
    """The outcome of an upgrade of an old file that has this world text."""
    with closing(sqlite3.connect(database)) as connection, connection:
        connection.execute("UPDATE campaign SET world = ?", (text,))
    return call("upgrade", "--db", database, "--world", SMALL_FILE)


def try_case(bench: Bench, old_file: Path, case: Case) -> None:
    damaged = fails("fault: Damaged 1" if case.has_old_fault else "fault: Damaged 2")
    bench.count(case.name, mismatch("trial", of_trial(case), trial(case.text)),
                mismatch("upgrade", damaged, upgrade_with_text(old_file, case.text)))


def upgrade_to(folder: Path, world: str, other: str) -> Outcome:
    """The outcome of an upgrade of a campaign of the first format from one world to another. Such a file has the tables
    of a file of the second format, but for `market`."""
    with tempfile.TemporaryDirectory(dir=folder) as name:
        database, file = Path(name, "club.db"), Path(name, "world.toml")
        file.write_text(world, encoding="utf-8")
        founded = call("found", "--db", database, "--world", file, "--pass", "gm")
        if founded != done(f"founded, {world.count('[[region]]')} regions"):
            return founded
        run_sql(database, "DROP TABLE market; UPDATE campaign SET format = 1")
        file.write_text(other, encoding="utf-8")
        return call("upgrade", "--db", database, "--world", file)


def of_upgrade(case: Difference, other: str) -> Outcome:
    if case.markets_alone:
        return done(f"upgraded, {other.count('[[region.market]]')} markets")
    return fails("fault: Differs")


def try_difference(bench: Bench, case: Difference) -> None:
    there, back = (upgrade_to(bench.folder, *worlds) for worlds in ((case.world, case.other), (case.other, case.world)))
    bench.count(case.name, mismatch("upgrade", of_upgrade(case, case.other), there),
                mismatch("upgrade back", of_upgrade(case, case.world), back))


def main() -> int:
    tables = tomllib.loads(CASES.read_text(encoding="utf-8"))
    with tempfile.TemporaryDirectory() as name:
        bench = Bench(Path(name))
        old_file = bench.folder / "old.db"
        make_old_file(old_file)
        for make_cases in (edit_cases, range_cases, repeated_cases, region_cases):
            for case in make_cases(tables):
                try_case(bench, old_file, case)
        for changed in differences(tables):
            try_difference(bench, changed)
    print(f"worlds: {bench.tried} cases, {bench.failed} failed")
    return 1 if bench.failed else 0


if __name__ == "__main__":
    sys.exit(main())
