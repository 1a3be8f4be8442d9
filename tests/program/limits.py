#!/usr/bin/env python3
"""Runs the program under limits on its stack and its address space, over texts that nest as deep as their readers allow.

Under each limit the program gives the answer that docs/FORMATS.md names, or answers `fault: Memory` before it has made or
changed a file. Once it has begun, no limit has it ended by a signal. Called without arguments, it takes about a
minute, and ends with 'OK'."""
import json
import os
import resource
import shutil
import socket
import sqlite3
import subprocess
import sys
import tempfile
import time
import unittest
from contextlib import closing
from dataclasses import dataclass
from pathlib import Path
from typing import NamedTuple

sys.path.insert(0, str(Path(__file__).resolve().parents[2]))

from tests.program.calls import PROGRAM, SMALL_FILE  # noqa: E402
from tests.tools.ports import HOST, free_port  # noqa: E402

SMALL = SMALL_FILE.read_text(encoding="utf-8")
UNLIMITED = resource.RLIM_INFINITY
KB = 1024
# Limits on the stack in kB: those that an earlier program passed at its start and then broke, and those around the least one.
STACKS = (*range(160, 1_025, 96), 1_600, 2_048, 2_400, 3_072, 4_092, 4_096, 5_120, 8_192)
# docs/FORMATS.md, "The program": from this limit on every command is carried out.
ENOUGH = 4_096
# What the dynamic loader of glibc says where it finds no room.
NOT_LOADED = (b"shared libraries", b"cannot allocate TLS data structures")
# How deep toml nests values, and how many parts a key may have.
DEEP = 80
LONG_KEY = ".".join("a" * DEEP)
MEMORY = (1, b"", b"fault: Memory\n")


class Outcome(NamedTuple):
    status: int
    output: bytes
    error: bytes


@dataclass
class Case:
    """A command on a copy of the files, and what it answers where nothing is refused."""

    name: str
    files: dict[str, str | Path]
    words: tuple[str, ...]
    wanted: Outcome


def nested_tables() -> str:
    """A world with some 6,500 tables in one another: a header, dotted keys and inline tables, each as long as it may be."""
    return f"{SMALL}\n[{LONG_KEY}]\n{LONG_KEY} = {('{' + LONG_KEY + ' = ') * DEEP}1{'}' * DEEP}\n"


def nested_arrays() -> str:
    return f"a = {'[' * DEEP}{']' * DEEP}\n{SMALL}"


def founding(name: str, world: str, error: str = "") -> Case:
    words = ("found", "--world", "world.toml", "--db", "club.db", "--pass", "gm")
    wanted = Outcome(1, b"", error.encode()) if error else Outcome(0, b"founded, 1 regions\n", b"")
    return Case(name, {"world.toml": world}, words, wanted)


def make_campaign(folder: Path, world: str = SMALL) -> Path:
    (folder / "world.toml").write_text(world, encoding="utf-8")
    file = folder / "club.db"
    subprocess.run([PROGRAM, "found", "--world", folder / "world.toml", "--db", file, "--pass", "gm"],
                   check=True, capture_output=True)
    return file


def add_to_schema(file: Path, kind: str, name: str, text: str) -> None:
    """Adds a row to the list of tables and views, whatever sqlite3 itself would say of its text."""
    with closing(sqlite3.connect(file)) as connection, connection:
        connection.execute("CREATE TABLE note (a)")
        root = connection.execute("SELECT rootpage FROM sqlite_master WHERE name = 'note'").fetchone()[0]
        connection.execute("PRAGMA writable_schema = 1")
        connection.execute("UPDATE sqlite_master SET type = ?, name = ?, tbl_name = ?, rootpage = ?, sql = ? WHERE name = 'note'",
                           (kind, name, name, root if kind == "table" else 0, text))


BOOKS = b"""money founding 500
money total 500
people founding 1000
people total 1000
"""


def showing_books(name: str, file: Path, wanted: Outcome) -> Case:
    return Case(name, {"club.db": file}, ("books", "--db", "club.db"), wanted)


def schema_cases(folder: Path) -> list[Case]:
    """A view of a thousand queries in one another, in two forms, and a table of the club's own."""
    store = Outcome(1, b"", b"fault: Store\n")
    cases = []
    for name, before, after, wanted in (
        ("view", "CREATE VIEW note AS SELECT " + "1 IN (SELECT " * 1_000, ")" * 1_000, store),
        ("from", "CREATE VIEW note AS SELECT " + "1 IN (SELECT 1 FROM (SELECT " * 1_000, "))" * 1_000, store),
        ("table", "CREATE TABLE note (a CHECK (" + "1 BETWEEN 1 AND (" * 25, ")" * 27, Outcome(0, BOOKS, b"")),
    ):
        (folder / name).mkdir()
        file = make_campaign(folder / name)
        add_to_schema(file, "table" if name == "table" else "view", "note", f"{before}1{after}")
        cases.append(showing_books(f"a {name} of nested parts", file, wanted))
    return cases


def world_cases(folder: Path) -> list[Case]:
    deep = nested_tables()
    return [
        founding("a dotted key", f"{LONG_KEY} = 1\n{SMALL}"),
        founding("nested arrays", nested_arrays()),
        founding("nested tables", deep),
        founding("nested tables, then a fault", f"{deep}b = = c\n", "world: 1 NotToml\n"),
        showing_books("nested tables in the file", make_campaign(folder, deep), Outcome(0, BOOKS, b"")),
    ]


def start(words: tuple[str, ...], folder: Path, kind: int, limit: int, more: dict[str, str] | None = None) -> subprocess.Popen[bytes]:
    def set_limit() -> None:
        resource.setrlimit(kind, (limit, limit))

    environment = {"PATH": os.defpath, **(more or {})}
    return subprocess.Popen([PROGRAM, *words], cwd=folder, env=environment, stdin=subprocess.DEVNULL,
                            stdout=subprocess.PIPE, stderr=subprocess.PIPE, preexec_fn=set_limit)


def outcome_of(process: subprocess.Popen[bytes]) -> Outcome:
    output, error = process.communicate(timeout=60)
    return Outcome(process.returncode, output, error)


def contents(folder: Path) -> dict[str, bytes]:
    return {path.name: path.read_bytes() for path in folder.iterdir()}


def request(port: int, process: subprocess.Popen[bytes], sent: bytes) -> bytes:
    """What comes back over a connection; nothing where the program ended before it listened."""
    for _ in range(600):
        try:
            with socket.create_connection((HOST, port), timeout=60) as connection:
                connection.sendall(sent)
                return b"".join(iter(lambda: connection.recv(65_536), b""))
        except ConnectionRefusedError:
            if process.poll() is not None:
                return b""
            time.sleep(0.05)
        except ConnectionResetError:
            return b""
    raise TimeoutError("serve doesn't listen")


def deep_joining() -> bytes:
    """A request to join, with an ignored key whose value makes the whole as deep as JSON may be."""
    body = json.dumps({"name": "Avalon", "pass": "pw"})[:-1] + f', "x": {"[" * 126}{"]" * 126}}}'
    return f"POST /join HTTP/1.1\r\nHost: club\r\nContent-Length: {len(body)}\r\n\r\n{body}".encode()


class Limits(unittest.TestCase):
    def setUp(self) -> None:
        self.folder = Path(self.enterContext(tempfile.TemporaryDirectory()))
        self.made = self.folder / "made"
        self.made.mkdir()

    def copy_of(self, files: dict[str, str | Path]) -> Path:
        """A fresh folder with these files."""
        folder = self.folder / "run"
        shutil.rmtree(folder, ignore_errors=True)
        folder.mkdir()
        for name, content in files.items():
            if isinstance(content, Path):
                shutil.copy(content, folder / name)
            else:
                (folder / name).write_text(content, encoding="utf-8")
        return folder

    def run_case(self, case: Case, kind: int, limit: int, more: dict[str, str] | None = None) -> Outcome:
        """Runs a case under a limit; its outcome is the wanted one, or Memory with all files as before."""
        folder = self.copy_of(case.files)
        before = contents(folder)
        told = outcome_of(start(case.words, folder, kind, limit, more))
        if told != case.wanted:
            self.assertEqual(told, MEMORY)
            self.assertEqual(contents(folder), before)
        return told

    def try_stacks(self, cases: list[Case]) -> None:
        for case in cases:
            for limit in STACKS:
                with self.subTest(case=case.name, stack=f"{limit} kB"):
                    told = self.run_case(case, resource.RLIMIT_STACK, limit * KB)
                    if limit >= ENOUGH:
                        self.assertEqual(told, case.wanted)

    def test_worlds_under_small_stacks(self) -> None:
        self.try_stacks(world_cases(self.made))

    def test_schemas_under_small_stacks(self) -> None:
        self.try_stacks(schema_cases(self.made))

    def test_a_deep_request_under_small_stacks(self) -> None:
        file = make_campaign(self.made)
        for limit in STACKS:
            with self.subTest(stack=f"{limit} kB"):
                self.try_request(file, limit)

    def try_request(self, file: Path, limit: int) -> None:
        folder, port = self.copy_of({"club.db": file}), free_port()
        words = ("serve", "--db", "club.db", "--port", str(port), "--count", "1", "--seed", "0")
        process = start(words, folder, resource.RLIMIT_STACK, limit * KB)
        reply = request(port, process, deep_joining())
        told = outcome_of(process)
        if told == MEMORY and limit < ENOUGH:
            self.assertEqual(contents(folder), {"club.db": file.read_bytes()})
        else:
            self.assertEqual(told, (0, b"", b""))
            self.assertEqual(reply.split(b"\r\n\r\n")[-1], b'{"faction":1,"unit":1}')

    def test_a_large_environment(self) -> None:
        """The environment lies on the stack too. The system lets it have a quarter of the limit."""
        more = {f"LONG_{number}": "x" * 100_000 for number in range(9)}
        for case in world_cases(self.made):
            with self.subTest(case=case.name):
                self.assertEqual(self.run_case(case, resource.RLIMIT_STACK, ENOUGH * KB, more), case.wanted)

    def test_no_limit(self) -> None:
        for case in world_cases(self.made):
            with self.subTest(case=case.name):
                self.assertEqual(self.run_case(case, resource.RLIMIT_STACK, UNLIMITED), case.wanted)

    def test_small_address_spaces(self) -> None:
        """From small to large: the system can't start the program, its libraries find no room, Memory, the answer."""
        file = make_campaign(self.made, f"{LONG_KEY} = 1\n{SMALL}")
        case = showing_books("a dotted key in the file", file, Outcome(0, BOOKS, b""))
        stages: list[int | None] = []
        for limit in range(3_072, 10_241, 16):
            with self.subTest(space=f"{limit} kB"):
                folder = self.copy_of(case.files)
                told = outcome_of(start(case.words, folder, resource.RLIMIT_AS, limit * KB))
                stages.append(stage_of(told, case.wanted, any(stages)))
                self.assertIsNotNone(stages[-1], told)
                self.assertEqual(contents(folder)["club.db"], file.read_bytes())
        self.assertEqual((2 in stages, stages[-1]), (True, 3))


def stage_of(told: Outcome, wanted: Outcome, has_started: bool) -> int | None:
    """How far the program came: 0 not started, 1 not loaded, 2 Memory, 3 the answer; None for any other outcome."""
    if told.status < 0 and not has_started:
        return 0
    if told.status == 127 and any(reason in told.error for reason in NOT_LOADED):
        return 1
    return {Outcome(*MEMORY): 2, wanted: 3}.get(told)


if __name__ == "__main__":
    sys.dont_write_bytecode = True
    unittest.main()
