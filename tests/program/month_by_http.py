#!/usr/bin/env python3
"""Plays a month with curl against the program's `serve`, and the same month by its other subcommands, and compares all
replies, reports and outputs, and the rows of both databases. It takes some seconds, and wants curl."""
import re
import sqlite3
import subprocess
import sys
import tempfile
import unittest
from contextlib import closing
from pathlib import Path

sys.path.insert(0, str(Path(__file__).resolve().parents[2]))

from tests.program.calls import SEED, TOP, gm, serving  # noqa: E402
from tests.tools.ports import HOST, free_port  # noqa: E402

AVALON = "#ATLANTIS 1\nUNIT 1\nATTACK 2\nWORK\n"
BREE = "#ATLANTIS 2\nUNIT 2\nFORM 1\nRECRUIT 2\nEND\nPAY NEW 1 150\n"
CURL = ("curl", "-s", "--retry", "50", "--retry-connrefused", "--retry-delay", "0", "--max-time", "20")


def ask(*words: str) -> str:
    """The body of the reply to a request by curl, and its status after a space."""
    return subprocess.run([*CURL, "-w", " %{http_code}", *words], check=True, capture_output=True, text=True).stdout


def rows(database: Path) -> list[str]:
    with closing(sqlite3.connect(database)) as connection:
        return list(connection.iterdump())


class MonthByHttp(unittest.TestCase):
    def setUp(self) -> None:
        folder = tempfile.TemporaryDirectory()
        self.addCleanup(folder.cleanup)
        self.folder = Path(folder.name)
        self.avalon, self.bree = self.file("avalon", AVALON), self.file("bree", BREE)
        self.line, self.net = self.found("line.db"), self.found("net.db")

    def file(self, name: str, text: str) -> Path:
        (self.folder / name).write_text(text, encoding="utf-8")
        return self.folder / name

    def found(self, name: str) -> Path:
        gm("found", "--world", TOP / "worlds/isle.toml", "--db", self.folder / name, "--pass", "gm")
        return self.folder / name

    def assert_each(self, played: tuple[tuple[str, str], ...]) -> None:
        for told, wanted in played:
            self.assertEqual(told, wanted)

    def play_by_line(self) -> tuple[str, str]:
        """The reports of both factions."""
        at = ("--db", self.line)
        self.assert_each((
            (gm("join", *at, "--name", "Avalon", "--pass", "pw", "--seed", SEED), "faction 1, unit 1\n"),
            (gm("join", *at, "--name", "Bree", "--pass", "pb", "--seed", SEED), "faction 2, unit 2\n"),
            (gm("mail", *at, "--faction", "1", "--pass", "pw", "--file", self.avalon),
             "1 orders, 1 faults\nline 3: 2 UnknownOrder\n"),
            (gm("mail", *at, "--faction", "2", "--pass", "pb", "--file", self.bree), "3 orders, 0 faults\n"),
            (gm("close", *at, "--month", "1", "--pass", "gm", "--seed", SEED), "month 1 closed\n"),
        ))
        return gm("report", *at, "--faction", "1", "--pass", "pw"), gm("report", *at, "--faction", "2", "--pass", "pb")

    def play_by_http(self, site: str, reports: tuple[str, str]) -> None:
        first, second, moderator = (("-H", f"Atlantis-Pass: {text}") for text in ("pw", "pb", "gm"))
        self.assert_each((
            (ask("-d", '{"name":"Avalon","pass":"pw"}', f"{site}/join"), '{"faction":1,"unit":1} 200'),
            (ask("-d", '{"name":"Bree","pass":"pb"}', f"{site}/join"), '{"faction":2,"unit":2} 200'),
            (ask("-d", '{"name":"Bree","pass":"pb"}', f"{site}/join"), '{"error":"NameTaken","number":3} 409'),
            (ask(*first, "--data-binary", f"@{self.avalon}", f"{site}/orders/1"), '{"faults":[[3,2]],"orders":1} 200'),
            (ask(*second, "--data-binary", f"@{self.bree}", f"{site}/orders/2"), '{"faults":[],"orders":3} 200'),
            (ask("-X", "POST", *moderator, f"{site}/close/1"), '{"month":1} 200'),
            (ask("-X", "POST", *moderator, f"{site}/close/1"), '{"error":"WrongMonth","number":12} 409'),
            (ask(*first, f"{site}/report/1"), f"{reports[0]} 200"),
            (ask(*second, f"{site}/report/2"), f"{reports[1]} 200"),
        ))

    def test_the_same_month(self) -> None:
        reports, port = self.play_by_line(), free_port()
        with serving(self.net, port, 9):
            self.play_by_http(f"http://{HOST}:{port}", reports)
        self.assertEqual(rows(self.net), rows(self.line))

    def test_at_a_port_that_the_system_chooses(self) -> None:
        reports = self.play_by_line()
        with serving(self.line, 0, 1) as server:
            assert server.stdout
            said = server.stdout.readline()
            self.assertRegex(said, r"^port: [1-9]\d*\n$")
            port = re.findall(r"\d+", said)[0]
            told = ask("-H", "Atlantis-Pass: pw", f"http://{HOST}:{port}/report/1")
        self.assertEqual(told, f"{reports[0]} 200")


if __name__ == "__main__":
    unittest.main()
