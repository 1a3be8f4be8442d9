#!/usr/bin/env python3
"""Measures the program over campaigns that grew, since it keeps as many pages in memory as the file needs.

A report of 90 units takes 6 MB of memory at most. A `serve` whose campaign grew by joins from nothing to 3,000 units
is as fast as one that is started over the same file. Called without arguments, it takes some seconds, prints the
figures, and ends with 'OK'."""
import fcntl
import os
import re
import shutil
import socket
import subprocess
import sys
import tempfile
import unittest
from collections.abc import Callable, Iterator
from contextlib import closing, contextmanager
from pathlib import Path
from typing import NamedTuple

TOP = Path(__file__).resolve().parents[2]
PROGRAM = subprocess.run([TOP / "gm", "path"], check=True, capture_output=True, text=True).stdout.strip()
SMALL, COAST = (TOP / "worlds" / name for name in ("small.toml", "coast.toml"))
# Where files lie in memory, so that nothing waits for a disk.
SHARED_MEMORY = "/dev/shm"
MB = 1_000_000
PATIENCE = 60

FACTIONS, UNITS = 5, 90
MONTHS = 3
MOST_MEMORY = 6 * MB

# The pages of 4,096 bytes that the program keeps of a large file.
MOST_PAGES = 2_000
GROWN_UNITS = 3_000
# How much longer the grown `serve` may take than the other one. What else runs may slow one of them for a while: then
# they are measured again, this often at most. A page that isn't kept slows a server each time.
MOST_TIMES = 1.3
ATTEMPTS = 4
ROUNDS, REPORTS, JOINS = 40, 100, 10


def tell(name: str, database: Path, *words: str) -> str:
    """What a command prints."""
    called = [PROGRAM, name, "--db", str(database), *words]
    return subprocess.run(called, check=True, capture_output=True, text=True, timeout=PATIENCE).stdout


def peak_memory(database: Path) -> int:
    """The most bytes of memory that a report takes. They are read while the program waits for a reader of its output."""
    pipe, output = os.pipe()
    room = fcntl.fcntl(output, fcntl.F_SETPIPE_SZ, 4_096)
    words = [PROGRAM, "report", "--db", str(database), "--faction", "1", "--pass", "pw"]
    with subprocess.Popen(words, stdout=output) as process, open(pipe, "rb", buffering=0) as report:
        os.close(output)
        begun = report.read(1)
        kilobytes = status_of(process.pid)["VmHWM"].split()[0]
        length = len(begun + report.readall())
    assert process.returncode == 0 and room + 1 < length
    return int(kilobytes) * 1_024


def status_of(number: int) -> dict[str, str]:
    lines = Path(f"/proc/{number}/status").read_text(encoding="ascii").splitlines()
    return dict(line.split(":", 1) for line in lines)


class Server:
    """The program while it serves a campaign."""

    def __init__(self, process: subprocess.Popen[str]) -> None:
        assert process.stderr
        self.process = process
        self.port = int(process.stderr.readline().removeprefix("port: "))

    def ask(self, method: str, target: str, body: str = "") -> bytes:
        """The body of the reply."""
        head = f"{method} {target} HTTP/1.1\r\nHost: club\r\nAtlantis-Pass: pw\r\nContent-Length: {len(body)}\r\n\r\n"
        with socket.create_connection(("127.0.0.1", self.port), PATIENCE) as connection:
            connection.sendall((head + body).encode())
            reply = b"".join(iter(lambda: connection.recv(65_536), b""))
        assert reply.startswith(b"HTTP/1.1 200 "), reply
        return reply.partition(b"\r\n\r\n")[2]

    def join(self, first: int, count: int) -> None:
        """Factions with these numbers join, each with one unit."""
        for number in range(first, first + count):
            told = self.ask("POST", "/join", f'{{"name":"Faction {number}","pass":"pw"}}')
            assert told == f'{{"faction":{number},"unit":{number}}}'.encode()

    def nanoseconds(self) -> int:
        """The processor time that the server took up to now."""
        return int(Path(f"/proc/{self.process.pid}/schedstat").read_text(encoding="ascii").split()[0])

    def time_of(self, act: Callable[[], object]) -> int:
        begin = self.nanoseconds()
        act()
        return self.nanoseconds() - begin


@contextmanager
def serving(database: Path) -> Iterator[Server]:
    """A server that is killed at the end, since nobody knows how many requests there will be."""
    words = [PROGRAM, "serve", "--db", str(database), "--port", "0", "--count", "1000000", "--seed", "1"]
    with subprocess.Popen(words, stderr=subprocess.PIPE, text=True) as process:
        try:
            yield Server(process)
        finally:
            process.kill()


class Times(NamedTuple):
    """The least processor time of each sort of request in a server, in nanoseconds for a round."""

    report: int
    join: int


def least_times(servers: list[Server], units: int) -> list[Times]:
    """The times of servers over equal campaigns. Requests go to each in turn, and in the next round the other way round,
    so that what else runs slows all of them."""
    rounds: list[list[Times]] = [[] for _ in servers]
    for turn in range(ROUNDS):
        for server, times in sorted(zip(servers, rounds), key=lambda pair: pair[0].port, reverse=turn % 2 == 1):
            reports = server.time_of(lambda: [server.ask("GET", f"/report/{units}") for _ in range(REPORTS)])
            joins = server.time_of(lambda: server.join(units + 1 + turn * JOINS, JOINS))
            times.append(Times(reports, joins))
    return [Times(min(each.report for each in times), min(each.join for each in times)) for times in rounds]


def forming(faction: int) -> str:
    """A mailing by which a faction of one unit gets its share of the units, each of one man."""
    lines = [f"#ATLANTIS {faction}", f"UNIT {faction}"]
    for number in range(1, UNITS // FACTIONS):
        lines += [f"FORM {number}", "RECRUIT 1", "END", f"PAY NEW {number} 50"]
    return "\n".join(lines) + "\n"


class Grown(unittest.TestCase):
    def setUp(self) -> None:
        place = SHARED_MEMORY if os.access(SHARED_MEMORY, os.W_OK) else None
        self.folder = Path(self.enterContext(tempfile.TemporaryDirectory(dir=place)))
        self.database = self.folder / "club.db"

    def found(self, world: Path) -> None:
        tell("found", self.database, "--world", str(world), "--pass", "gm")

    def found_small(self) -> None:
        """A campaign of 90 units in one region, so that each report has all of them."""
        self.found(SMALL)
        with serving(self.database) as server:
            server.join(1, FACTIONS)
            for faction in range(1, FACTIONS + 1):
                told = server.ask("POST", f"/orders/{faction}", forming(faction))
                self.assertTrue(told.startswith(b'{"faults":[],'), told)
        for month in range(1, MONTHS + 1):
            closed = tell("close", self.database, "--month", str(month), "--pass", "gm", "--seed", "1")
            self.assertEqual(closed, f"month {month} closed\n")

    def test_the_memory_of_a_small_report(self) -> None:
        self.found_small()
        report = tell("report", self.database, "--faction", "1", "--pass", "pw")
        self.assertEqual(len(re.findall("^[*-] Unit ", report, re.MULTILINE)), UNITS)
        memory = peak_memory(self.database)
        print(f"a report of {UNITS} units: {memory / MB:.1f} MB")
        self.assertLessEqual(memory, MOST_MEMORY)

    def test_a_served_campaign_that_grows(self) -> None:
        """It is as fast as in a server that was started over the grown file."""
        copy = self.folder / "copy.db"
        self.found(COAST)
        with serving(self.database) as grown:
            grown.join(1, GROWN_UNITS)
            for end in ("", "-wal"):
                shutil.copy(f"{self.database}{end}", f"{copy}{end}")
            tell("books", copy)
            self.assertGreater(copy.stat().st_size, MOST_PAGES * 4_096)
            for attempt in range(ATTEMPTS):
                with serving(copy) as started:
                    in_grown, in_started = least_times([grown, started], GROWN_UNITS + attempt * ROUNDS * JOINS)
                times = [one / other for one, other in zip(in_grown, in_started)]
                print(f"a serve that grew, beside one that was started: a report {times[0]:.2f} times, a join {times[1]:.2f} "
                      f"times, of {in_started.report // REPORTS // 1_000} and {in_started.join // JOINS // 1_000} µs")
                if max(times) <= MOST_TIMES:
                    return
        self.fail(f"more than {MOST_TIMES} times, {ATTEMPTS} times over")


if __name__ == "__main__":
    sys.dont_write_bytecode = True
    unittest.main()
