#!/usr/bin/env python3
"""Opens what is no file of a campaign, a file that changes while it is opened, and one whose system calls fail.

Each time the program gives the fault that docs/FORMATS.md, "The program", names, and leaves the file as it was. The
program asks for a file's length before it opens it, so a file is also changed between the two. Called without
arguments, it takes some 20 seconds, wants strace, and ends with 'OK'."""
import os
import re
import shutil
import signal
import sqlite3
import stat
import subprocess
import sys
import tempfile
import time
import unittest
from collections import Counter
from collections.abc import Callable, Iterator
from contextlib import closing
from pathlib import Path
from typing import NamedTuple

TOP = Path(__file__).resolve().parents[2]
PROGRAM = subprocess.run([TOP / "gm", "path"], check=True, capture_output=True, text=True).stdout.strip()
SMALL = TOP / "worlds/small.toml"
PATIENCE = 60
# A user who isn't root, and whom the system doesn't let read everything.
NOBODY = 65_534
# The subcommands that keep as many pages as the file needs, and `serve`, which keeps as many as for a large file.
COMMANDS = {
    "join": "join --name Bree --pass pw --seed 1",
    "mail": "mail --faction 1 --pass pw --file mailing",
    "close": "close --month 1 --pass gm --seed 1",
    "report": "report --faction 1 --pass pw",
    "books": "books",
    "serve": "serve --port 0 --count 0 --seed 1",
}
READING, WRITING = "report", "join"
# A log of this length or less holds nothing.
EMPTY_LOG = 41
LONGEST_NAME = 247
# The system gives no error for the first four, but for want of memory: tests/faults/memory.sh refuses that. Nothing
# hangs on the result of the last.
NEVER_FAILING = ("brk", "mmap", "munmap", "mremap", "close")
# The first two calls of opening: the program asks what is at the path, and then for the length.
LOOKS = 2


class Outcome(NamedTuple):
    status: int
    output: str
    error: str


STORE = Outcome(1, "", "fault: Store\n")
MEMORY = Outcome(1, "", "fault: Memory\n")
NOT_A_CAMPAIGN = Outcome(1, "", "fault: NotACampaign\n")
REPORT = Outcome(0, """Atlantis report, month 0, faction 1 "Avalon".
Orders:
None.
Region 1 "Vale", plain: 1000 peasants, 500 money.
Exits: none.
* Unit 1 "Unit 1": 1 men, 1000 money.
""", "")


class Call(NamedTuple):
    """A system call: its name, and how many of this name the program has made with it."""

    name: str
    number: int


def opening_calls(trace: str) -> Iterator[Call]:
    """The calls from the first that names the file of the campaign to the one that reads its first page."""
    counts: Counter[str] = Counter()
    has_begun = False
    for name, words in re.findall(r"^\d+ +(\w+)\((.*)$", trace, re.MULTILINE):
        counts[name] += 1
        has_begun = has_begun or "club.db" in words and name != "execve"
        if has_begun:
            yield Call(name, counts[name])
        if has_begun and name == "pread64" and ", 4096, 0)" in words:
            return


def rows_of(database: Path) -> list[str]:
    """All that sqlite3 finds in a file, which it may change."""
    with closing(sqlite3.connect(database)) as connection:
        return list(connection.iterdump())


def contents(folder: Path) -> dict[str, object]:
    """What is in a folder: of a file its bytes, or its length where it may not be read, of a link its target, of
    anything else its sort."""
    return {path.name: content_of(path) for path in folder.iterdir()}


def content_of(path: Path) -> object:
    mode = path.lstat().st_mode
    if stat.S_ISLNK(mode):
        return os.readlink(path)
    if not stat.S_ISREG(mode):
        return stat.S_IFMT(mode)
    return path.read_bytes() if os.access(path, os.R_OK) else path.stat().st_size


def put_folder(path: Path) -> None:
    path.unlink()
    path.mkdir()


def put_pipe(path: Path) -> None:
    path.unlink()
    os.mkfifo(path)


def put_link(path: Path, target: str) -> None:
    path.unlink()
    path.symlink_to(target)


class Opening(unittest.TestCase):
    def setUp(self) -> None:
        self.top = Path(self.enterContext(tempfile.TemporaryDirectory()))
        self.top.chmod(0o755)
        self.program = shutil.copy(PROGRAM, self.top / "gm")
        self.good = self.top / "good.db"
        self.folder = self.top / "run"
        self.call(f"found --world {SMALL} --pass gm", self.good)
        self.call("join --name Avalon --pass pw --seed 0", self.good)
        Path(f"{self.good}-wal").unlink()

    def call(self, words: str, database: Path) -> None:
        subprocess.run([self.program, *words.split(), "--db", database], check=True, capture_output=True, timeout=PATIENCE)

    def make_folder(self) -> Path:
        """A fresh folder with the campaign and a mailing; returns the path of the campaign."""
        if self.folder.exists():
            self.folder.chmod(0o755)
            shutil.rmtree(self.folder)
        self.folder.mkdir()
        (self.folder / "mailing").write_text("#ATLANTIS 1\nUNIT 1\nWORK\n", encoding="ascii")
        return Path(shutil.copy(self.good, self.folder / "club.db"))

    def words_of(self, command: str, *before: str) -> list[str]:
        return [*before, str(self.program), *COMMANDS[command].split(), "--db", "club.db"]

    def run_command(self, command: str, *before: str, user: int | None = None) -> Outcome:
        ended = subprocess.run(self.words_of(command, *before), cwd=self.folder, capture_output=True, text=True,
                               timeout=PATIENCE, user=user, group=user, extra_groups=None if user is None else [])
        return Outcome(ended.returncode, ended.stdout, ended.stderr)

    def expect_empty_log(self) -> None:
        log = self.folder / "club.db-wal"
        self.assertLessEqual(log.stat().st_size if log.exists() else 0, EMPTY_LOG)


class Paths(Opening):
    """What a path leads to that is no file, or none that the user may open."""

    def expect(self, wanted: Outcome, make: Callable[[Path], object], user: int | None = None) -> None:
        """Each command gives this outcome, and leaves the folder as it was."""
        for command in COMMANDS:
            with self.subTest(command=command):
                database = self.make_folder()
                make(database)
                before = contents(self.folder)
                self.assertEqual(self.run_command(command, user=user), wanted)
                self.assertEqual(contents(self.folder), before)

    def expect_without_rights(self, make: Callable[[Path], object]) -> None:
        """The same as a user who isn't root: Store."""
        user = NOBODY if os.geteuid() == 0 else None

        def make_for(database: Path) -> None:
            if user is not None:
                os.chown(database, user, user)
                os.chown(self.folder, user, user)
            make(database)

        self.expect(STORE, make_for, user)

    def test_a_folder(self) -> None:
        self.expect(STORE, put_folder)

    def test_a_pipe(self) -> None:
        self.expect(STORE, put_pipe)

    def test_a_device(self) -> None:
        def make(path: Path) -> None:
            path.unlink()
            try:
                os.mknod(path, 0o666 | stat.S_IFCHR, os.stat(os.devnull).st_rdev)
            except PermissionError:
                self.skipTest("this user can make no device")

        self.expect(STORE, make)

    def test_a_dangling_link(self) -> None:
        self.expect(NOT_A_CAMPAIGN, lambda path: put_link(path, "nowhere"))

    def test_a_link_to_itself(self) -> None:
        self.expect(STORE, lambda path: put_link(path, path.name))

    def test_no_file(self) -> None:
        self.expect(NOT_A_CAMPAIGN, lambda path: path.unlink())

    def test_an_empty_file(self) -> None:
        self.expect(NOT_A_CAMPAIGN, lambda path: os.truncate(path, 0))

    def test_a_long_name(self) -> None:
        """A link leads to a file whose log would have too long a name."""
        def make(path: Path) -> None:
            name = "x" * (LONGEST_NAME + 1)
            path.rename(path.with_name(name))
            path.symlink_to(name)

        self.expect(STORE, make)

    def test_a_second_name(self) -> None:
        self.expect(STORE, lambda path: path.with_name("second.db").hardlink_to(path))

    def test_no_right_to_the_file(self) -> None:
        self.expect_without_rights(lambda path: path.chmod(0))

    def test_no_right_to_write_the_file(self) -> None:
        self.expect_without_rights(lambda path: path.chmod(0o444))

    def test_no_right_to_write_into_the_folder(self) -> None:
        self.expect_without_rights(lambda path: path.parent.chmod(0o555))


@unittest.skipUnless(shutil.which("strace"), "strace is not there")
class Traced(Opening):
    def trace_path(self) -> Path:
        return self.top / "trace"

    def strace(self, *more: str) -> list[str]:
        return ["strace", "-f", "-o", str(self.trace_path()), *more]

    def calls_of(self, command: str) -> list[Call]:
        self.make_folder()
        self.assertEqual(self.run_command(command, *self.strace()).status, 0)
        return list(opening_calls(self.trace_path().read_text()))


class Failing(Traced):
    """Each call of opening fails once, for want of a disk or of memory."""

    def fail_each(self, command: str, error: str, check: Callable[[int, Outcome], None]) -> None:
        """Checks the outcome where each call fails, by the call's place. The file is as it was."""
        calls = self.calls_of(command)
        self.assertEqual([call.name for call in calls[:LOOKS]], ["statx"] * LOOKS)
        self.assertLess({"openat", "fcntl", "getrandom", "fsync", "fdatasync", "pread64"}, {call.name for call in calls})
        for place, call in enumerate(calls):
            if call.name in NEVER_FAILING:
                continue
            with self.subTest(command=command, error=error, call=call):
                database = self.make_folder()
                inject = f"inject={call.name}:error={error}:when={call.number}"
                check(place, self.run_command(command, *self.strace("-e", inject)))
                self.assertIn("(INJECTED)", self.trace_path().read_text())
                self.assertEqual(database.read_bytes(), self.good.read_bytes())
                self.expect_empty_log()

    def test_the_disk_fails(self) -> None:
        for command in (READING, WRITING):
            self.fail_each(command, "EIO", lambda _, told: self.assertEqual(told, STORE))

    def test_the_system_has_no_memory(self) -> None:
        """The program itself says so. What the database asks for may be a Store."""
        def check(place: int, told: Outcome) -> None:
            self.assertIn(told, [MEMORY] if place < LOOKS else [MEMORY, STORE])

        self.fail_each(READING, "ENOMEM", check)


class Changing(Traced):
    """The file is changed after the program asked for its length, and before it opens the file."""

    def run_changed(self, command: str, change: Callable[[Path], object]) -> Outcome:
        database = self.make_folder()
        self.trace_path().unlink(missing_ok=True)
        stop = self.strace("-e", f"inject=statx:signal=STOP:when={LOOKS}")
        with subprocess.Popen(self.words_of(command, *stop), cwd=self.folder, stdout=subprocess.PIPE, stderr=subprocess.PIPE,
                              text=True) as process:
            stopped = self.stopped_process()
            change(database)
            os.kill(stopped, signal.SIGCONT)
            output, error = process.communicate(timeout=PATIENCE)
        return Outcome(process.returncode, output, error)

    def stopped_process(self) -> int:
        """Waits until the program is stopped, and returns its number."""
        end = time.monotonic() + PATIENCE
        while time.monotonic() < end:
            trace = self.trace_path().read_text() if self.trace_path().exists() else ""
            if found := re.search(r"^(\d+) +--- stopped by SIGSTOP ---$", trace, re.MULTILINE):
                return int(found[1])
            time.sleep(0.01)
        self.fail("the program was not stopped")

    def expect_fault(self, wanted: Outcome, change: Callable[[Path], object]) -> None:
        """Each command gives this outcome, and leaves what the change made as it is."""
        for command in (READING, WRITING):
            with self.subTest(command=command):
                made: dict[str, object] = {}

                def change_and_look(path: Path) -> None:
                    change(path)
                    made.update(contents(self.folder))

                self.assertEqual(self.run_changed(command, change_and_look), wanted)
                self.expect_empty_log()
                (self.folder / "club.db-wal").unlink(missing_ok=True)
                self.assertEqual(contents(self.folder), made)

    def test_it_is_cut_short(self) -> None:
        for length in (2, 99, 4_096, self.good.stat().st_size // 2):
            with self.subTest(length=length):
                self.expect_fault(STORE, lambda path: os.truncate(path, length))

    def test_it_is_longer_by_other_bytes(self) -> None:
        self.expect_fault(STORE, lambda path: os.truncate(path, 100_000_000))

    def test_a_folder_takes_its_place(self) -> None:
        self.expect_fault(STORE, put_folder)

    def test_a_pipe_takes_its_place(self) -> None:
        self.expect_fault(STORE, put_pipe)

    def expect_nothing_is_founded(self, change: Callable[[Path], object]) -> None:
        """Each command gives NotACampaign. It leaves nothing, or a database without tables."""
        for command in (READING, WRITING):
            with self.subTest(command=command):
                self.assertEqual(self.run_changed(command, change), NOT_A_CAMPAIGN)
                self.expect_empty_log()
                self.assertEqual(rows_of(self.folder / "club.db"), ["BEGIN TRANSACTION;", "COMMIT;"])

    def test_it_vanishes(self) -> None:
        self.expect_nothing_is_founded(lambda path: path.unlink())

    def test_it_is_emptied(self) -> None:
        self.expect_nothing_is_founded(lambda path: os.truncate(path, 0))

    def test_it_is_cut_to_one_byte(self) -> None:
        """That is what a stopped `found` may leave."""
        self.expect_nothing_is_founded(lambda path: os.truncate(path, 1))

    def test_it_grows(self) -> None:
        """Others join, and a club makes a table of its own, until the file has far more pages than the program keeps."""
        def grow(database: Path) -> None:
            self.call("join --name Bree --pass pw --seed 0", database)
            with closing(sqlite3.connect(database)) as connection, connection:
                connection.execute("CREATE TABLE picture (bytes BLOB)")
                connection.execute("INSERT INTO picture VALUES (zeroblob(2000000))")

        with self.subTest(command=READING):
            self.assertEqual(self.run_changed(READING, grow), REPORT)
        with self.subTest(command=WRITING):
            self.assertEqual(self.run_changed(WRITING, grow), Outcome(1, "", "refused: 3 NameTaken\n"))
        with self.subTest(command="close"):
            self.assertEqual(self.run_changed("close", grow), Outcome(0, "month 1 closed\n", ""))
            self.expect_empty_log()
            self.assertEqual(sqlite_value(self.folder / "club.db", "SELECT month || count(*) FROM campaign, faction"), "12")

    def test_another_file_takes_its_place(self) -> None:
        """It is a campaign with more factions."""
        other = Path(shutil.copy(self.good, self.top / "other.db"))
        for number in range(2, 9):
            self.call(f"join --name Faction{number} --pass pw --seed 0", other)
        told = self.run_changed(WRITING, lambda path: shutil.copy(other, path))
        self.assertEqual(told, Outcome(0, "faction 9, unit 9\n", ""))


def sqlite_value(database: Path, query: str) -> object:
    with closing(sqlite3.connect(database)) as connection:
        return connection.execute(query).fetchone()[0]


if __name__ == "__main__":
    sys.dont_write_bytecode = True
    unittest.main()
