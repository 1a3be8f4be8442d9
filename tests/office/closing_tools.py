"""Clubs for the tests of office/closing, and functions of the office that are killed at each of their steps.

The program is the one that tests/office/clubs.py finds. Tests that need it are skipped where there is none."""

from __future__ import annotations

import io
import os
import shutil
import sqlite3
import sys
import tempfile
import traceback
import unittest
from collections.abc import Callable
from contextlib import closing, redirect_stderr, redirect_stdout
from dataclasses import dataclass
from pathlib import Path

from office.closing.month import close_month
from office.club import files
from office.club.club import Club
from office.errors import OfficeError
from tests.office.clubs import find_program

HERE = Path(__file__).resolve().parents[2]
ISLE = HERE / "worlds" / "isle.toml"
PASS_TEXT = "moderator"
# With this seed factions 1 and 2 begin in region 3, faction 3 in region 4 and faction 4 in region 1 (docs/FORMATS.md,
# "Dice").
SEED = "15"
KILL = "KIWIRUDDER_KILL_AT"
FULL = "KIWIRUDDER_FULL_AT"
_POINTS = "points reached: "
# a disk in memory, on which a write that waits for the disk takes no time
MEMORY = "/dev/shm" if "TMPDIR" not in os.environ and os.access("/dev/shm", os.W_OK) else None
CHILD = Path(__file__).with_name("closing_child.py")
# every system call in place of some, as the nightly run may have it
ALL_CALLS = bool(os.environ.get("KIWIRUDDER_ALL_CALLS"))


PROGRAM = find_program()
if PROGRAM:
    PROGRAM = PROGRAM.absolute()
    os.environ["GM"] = str(PROGRAM)
needs_program = unittest.skipUnless(PROGRAM, "no program is there: ./gm path says why")
needs_strace = unittest.skipUnless(shutil.which("strace"), "strace is missing: apt-get install strace")


class TemporaryFolder(unittest.TestCase):
    """A test with a folder of its own."""

    def setUp(self) -> None:
        self.work = Path(tempfile.mkdtemp(prefix="closing-", dir=MEMORY))
        self.addCleanup(shutil.rmtree, self.work)


class TestedClub:
    """A club's folder, as `init` makes it and players fill it. `said` is what the last function printed."""

    def __init__(self, root: Path, world: Path = ISLE, seed: str = SEED) -> None:
        self.root = root
        root.mkdir(mode=0o700, parents=True)
        (root / "club.toml").write_text('name = "Testers"\nmoderator = "gm@example.org"\n')
        (root / "pass").write_text(f"{PASS_TEXT}\n")
        (root / "seed").write_text(f"{seed}\n")
        self.world = world.read_bytes()
        self.club = Club(root)
        self.club.program.found(world, PASS_TEXT)
        with self.club.locked():
            pass
        self.said: list[str] = []

    def join(self, faction: int, unit: int, name: str) -> None:
        seen = self.club.program.join(name, f"pass-{faction}", self.club.seed())
        assert seen == (faction, unit), f"{name} has numbers {seen}"

    def mail(self, faction: int, *lines: str) -> bytes:
        """Hands in a mailing, which is given back."""
        text = "".join(f"{line}\n" for line in (f"#ATLANTIS {faction}", *lines)).encode()
        self.club.program.hand_in(faction, f"pass-{faction}", text)
        return text

    def close(self, month: int | None = None) -> int:
        self.said = []
        with self.club.locked():
            return close_month(self.club, month, self.said.append)

    def ask(self, file: str, query: str) -> list[tuple[object, ...]]:
        with closing(sqlite3.connect(self.root / file)) as database:
            return database.execute(query).fetchall()


def say_nothing(_line: str) -> None:
    """For functions that say what they do."""


def rows(campaign: Path) -> list[str]:
    """All that the database holds."""
    with closing(sqlite3.connect(campaign)) as database:
        return list(database.iterdump())


def contents(folder: Path, without: tuple[str, ...] = ("office",)) -> dict[str, object]:
    """Each file below the folder with its bytes, databases with their rows. `without` names some files and folders.
    The logs beside a database are left out, since their rows are the database's."""
    found: dict[str, object] = {}
    for path in sorted(folder.rglob("*")):
        name = str(path.relative_to(folder))
        if name.split("/")[0] in without or name.endswith((".db-wal", ".db-shm")):
            continue
        if path.is_symlink():
            found[name] = os.readlink(path)
        elif path.is_dir():
            found[name] = "folder"
        else:
            found[name] = rows(path) if path.suffix == ".db" else path.read_bytes()
    return found


@dataclass(frozen=True)
class Ended:
    """How a forked function ended: its status (-9 where it was killed), what it printed, and the points that it
    reached."""

    status: int
    printed: str
    points: int


def fork(function: Callable[[], object], **environment: str) -> Ended:
    """Calls the function in a process of its own, with its points of failure counted from 1."""
    with tempfile.TemporaryFile() as output:
        child = os.fork()
        if not child:
            os.dup2(output.fileno(), 1)
            os.dup2(output.fileno(), 2)
            os.environ.update(environment)
            files._points = 0
            _run_and_end(function)
        _, how = os.waitpid(child, 0)
        output.seek(0)
        printed, _, points = output.read().decode().rpartition(_POINTS)
        return Ended(os.waitstatus_to_exitcode(how), printed, int(points or 0))


def _run_and_end(function: Callable[[], object]) -> None:
    printed, status = io.StringIO(), 0
    try:
        with redirect_stdout(printed), redirect_stderr(printed):
            function()
    except OfficeError as error:
        print(error.text, file=printed)
        status = error.status
    except OSError as error:
        # office.command says it so
        print(f"{error.filename or 'a file'}: {error.strerror}", file=printed)
        status = 1
    except BaseException:
        traceback.print_exc(file=printed)
        status = 99
    os.write(1, f"{printed.getvalue()}{_POINTS}{files._points}".encode())
    os._exit(status)


class StopEverywhere:
    """Stops a function at each of its points, and calls it again. `make` gives a fresh folder to work in, `call` the
    function over this folder, and `see` what has to be the same as without a stop."""

    def __init__(self, test: TemporaryFolder, make: Callable[[Path], None], call: Callable[[Path], object],
                 see: Callable[[Path], object]) -> None:
        self.test = test
        self.make = make
        self.call = call
        self.see = see
        whole = test.work / "whole"
        make(whole)
        ended = fork(lambda: call(whole))
        test.assertEqual(ended.status, 0, ended.printed)
        self.points = ended.points
        self.expected = see(whole)

    def stop_at_each(self, variable: str) -> None:
        """`variable` names the sort of stop."""
        self.test.assertGreater(self.points, 1)
        for point in range(1, self.points + 1):
            self._stop_at(variable, point)

    def _stop_at(self, variable: str, point: int) -> None:
        folder = self.test.work / "stopped"
        shutil.rmtree(folder, ignore_errors=True)
        self.make(folder)
        ended = fork(lambda: self.call(folder), **{variable: str(point)})
        where = f"{variable} at point {point}: "
        self.test.assertIn(ended.status, (-9,) if variable == KILL else (0, 1), where + ended.printed)
        again = fork(lambda: self.call(folder))
        self.test.assertIn(again.status, (0, 1), where + again.printed)
        self.test.assertEqual(self.see(folder), self.expected, where + ended.printed + again.printed)


def words(arguments: list[str]) -> list[str]:
    """A call of tests/office/closing_child.py."""
    return [sys.executable, str(CHILD), *arguments]
