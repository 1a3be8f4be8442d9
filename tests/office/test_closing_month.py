"""Months that are closed: a year of four factions, closings that are refused, stopped and called again, what is asked
before, and kills at each step."""

from __future__ import annotations

import json
import re
import shutil
import sqlite3
import subprocess
import tempfile
import time
import unittest
import urllib.error
import urllib.request
from contextlib import closing
from datetime import timedelta
from pathlib import Path

from office.closing.month import close_month, questions, unfinished
from office.closing.replay import replay
from office.club.campaign import read_campaign, set_pass_text
from office.club.club import Club, seed_checksum
from office.club.deadline import Closings
from office.errors import OfficeError
from tests.office.closing_tools import (ALL_CALLS, FULL, KILL, PROGRAM, SEED, StopEverywhere, TemporaryFolder,
                                        TestedClub, contents, fork, needs_program, needs_strace, say_nothing,
                                        words)
from tests.office.closing_year import Year
from tests.tools.ports import free_port

COMES_OUT = "every report and the books come out again, byte for byte"
# one system call of this many is stopped, so that the test takes a minute
EACH = 1 if ALL_CALLS else 7


def folder_said(month: int) -> str:
    return f"months/{month} has the reports to send, and before-{month}.db is the copy to go back to"


@needs_program
class AYear(TemporaryFolder):
    """The year of closing_year.py, which compares each month with what the program says."""

    def test_year(self) -> None:
        year = Year(self.work / "year", self)
        year.play()
        self.assertEqual(self._open_to_others(year.club.root), [])
        kept = b"".join(path.read_bytes() for path in (year.club.root / "months").rglob("*") if path.is_file())
        self.assertNotIn(b"pass-1", kept)
        self.assertNotIn(b"moderator", kept)
        months = year.club.root / "months"
        self.assertEqual(replay(months, None, None, say_nothing), f"months 1 to 12: {COMES_OUT}")
        copy = year.club.root / "before-10.db"
        self.assertEqual(replay(months, copy, None, say_nothing), f"months 10 to 12: {COMES_OUT}")

    @staticmethod
    def _open_to_others(root: Path) -> list[Path]:
        kept = [*root.glob("before-*.db"), *(root / "months").rglob("*")]
        return [path for path in kept if path.stat().st_mode & 0o077]


class ClubOfTwo(TemporaryFolder):
    """Avalon, which has mailed for month 1, and Bree, which has not."""

    def setUp(self) -> None:
        super().setUp()
        self.club = TestedClub(self.work / "club")
        self.club.join(1, 1, "Avalon")
        self.club.join(2, 2, "Bree")
        self.club.mail(1, "UNIT 1", "STUDY lumberjack")

    def close(self, month: int | None = None) -> list[str]:
        self.club.close(month)
        return self.club.said

    def refuse(self, text: str, month: int | None = None) -> None:
        """The closing is refused in these words, and changes nothing."""
        before = contents(self.club.root)
        with self.assertRaises(OfficeError) as caught:
            self.club.close(month)
        self.assertEqual(caught.exception.text, text)
        self.assertEqual(contents(self.club.root), before)


def _join_by_http(port: int, name: str, pass_text: str) -> object:
    """What a `serve` that is about to start answers."""
    request = urllib.request.Request(f"http://127.0.0.1:{port}/join", method="POST",
                                     data=json.dumps({"name": name, "pass": pass_text}).encode())
    for _ in range(200):
        try:
            with urllib.request.build_opener(urllib.request.ProxyHandler({})).open(request, timeout=20) as reply:
                return json.loads(reply.read())
        except urllib.error.URLError:
            time.sleep(0.1)
    raise AssertionError("serve doesn't answer")


def unchanged(month: int, why: str) -> str:
    return f"month {month} is not closed, and club.db is as it was: {why}"


@needs_program
class Refused(ClubOfTwo):
    """Closings that are refused."""

    def test_files_that_are_missing(self) -> None:
        (self.club.root / "seed").rename(self.work / "seed")
        self.refuse(unchanged(1, "there is no file seed in the club's folder"))
        (self.work / "seed").rename(self.club.root / "seed")
        (self.club.root / "pass").rename(self.work / "pass")
        self.refuse(unchanged(1, "there is no file pass in the club's folder"))

    def test_wrong_pass_text(self) -> None:
        (self.club.root / "pass").write_text("wrong\n")
        (self.club.root / "before-1.db").write_bytes(b"")
        with self.assertRaises(OfficeError) as caught:
            self.club.close()
        self.assertTrue(caught.exception.text.startswith(unchanged(1, "the program refuses: 6 WrongPass")))
        self.assertEqual(self.club.said, ["no mail from 2 Bree"])
        self.assertEqual(list((self.club.root / "months").iterdir()), [])

    def test_seed_that_is_no_number(self) -> None:
        for seed in ("one\n", "", "-1\n", "18446744073709551616\n", "1 2\n", "15\n16\n"):
            (self.club.root / "seed").write_text(seed)
            self.refuse(unchanged(1, "the file seed must have one number from 0 to 18,446,744,073,709,551,615, and "
                                     "nothing else"))

    def test_seed_of_another_system(self) -> None:
        (self.club.root / "seed").write_bytes(b"15\r\n")
        self.close()
        self.assertEqual((self.club.root / "months" / "1" / "seed").read_text(), "15\n")

    def test_killed_serve(self) -> None:
        """While somebody's `gm serve` runs nothing is closed. What a killed one leaves in its log is in the copy."""
        port = free_port()
        server = subprocess.Popen([str(PROGRAM), "serve", "--db", "club.db", "--port", str(port), "--count", "10",
                                   "--seed", SEED], cwd=self.club.root)
        self.addCleanup(server.wait)
        self.addCleanup(server.kill)
        self.assertEqual(_join_by_http(port, "Cork", "pass-3"), {"faction": 3, "unit": 3})
        before = (self.club.root / "club.db").read_bytes()
        with self.assertRaises(OfficeError) as caught:
            self.club.close()
        self.assertIn("`fault: Store`", caught.exception.text)
        self.assertEqual((self.club.root / "club.db").read_bytes(), before)
        self.assertFalse((self.club.root / "before-1.db").exists())
        server.kill()
        server.wait()
        alone = self.work / "alone.db"
        shutil.copyfile(self.club.root / "club.db", alone)
        self.assertEqual(len(read_campaign(alone).factions), 2, "the killed serve left nothing in its log")
        self.assertEqual(self.close(), ["no mail from 2 Bree", "no mail from 3 Cork", "month 1 closed", folder_said(1)])
        self.assertEqual(read_campaign(self.club.root / "before-1.db").faction(3).joined_as, "Cork")
        self.assertEqual((self.club.root / "months" / "1" / "factions.txt").read_text(),
                         "1 mail Avalon\n2 silent Bree\n3 silent Cork\n")

    def test_months(self) -> None:
        self.assertEqual(self.close(), ["no mail from 2 Bree", "month 1 closed", folder_said(1)])
        self.assertEqual([path.name for path in self.club.root.glob("before-*")], ["before-1.db"])
        self.refuse("nobody sent mail for month 2. To close it all the same, say its number: close 2")
        self.refuse("month 1 is not the next one, which is 2", 1)
        self.refuse("month 3 is not the next one, which is 2", 3)
        self.assertEqual(self.close(2),
                         ["no mail from 1 Avalon", "no mail from 2 Bree", "month 2 closed", folder_said(2)])

    def test_back_by_hand(self) -> None:
        """The folder of the month that was undone is not written over, and neither is a copy made by hand."""
        self.close()
        self.club.mail(2, "UNIT 2", "WORK")
        self.close()
        root = self.club.root
        shutil.copyfile(root / "before-2.db", root / "club.db")
        (root / "club.db-wal").unlink(missing_ok=True)
        self.refuse("months/2 is there, so month 2 was closed before. If you went back to a copy, move this folder and "
                    "the later ones away")
        (root / "months" / "2").rename(root / "undone-2")
        (root / "before-2.db").write_bytes(b"made by hand")
        (root / "before-2.db.~3~").write_bytes(b"older")
        self.club.mail(1, "UNIT 1", "STUDY stealth")
        self.close()
        self.assertEqual((root / "before-2.db.~4~").read_bytes(), b"made by hand")
        self.assertEqual((root / "before-2.db.~3~").read_bytes(), b"older")
        self.assertEqual(replay(root / "months", None, None, say_nothing), f"months 1 to 2: {COMES_OUT}")


@needs_program
class StoppedProgram(ClubOfTwo):
    """The program is killed as it closes the month in club.db, which it has done or not."""

    def setUp(self) -> None:
        super().setUp()
        self.close()

    def close_by(self, done: bool, month: int | None = None) -> str:
        """What is said where a stand-in for the program is killed in the closing of club.db."""
        # not in a folder whose programs the system may refuse to start, as that of a disk in memory
        folder = tempfile.mkdtemp(prefix="closing-")
        self.addCleanup(shutil.rmtree, folder)
        stand_in = Path(folder) / "stand_in"
        stand_in.write_text(f"""#!/bin/sh
case "$*" in 'close --db club.db '*) {f'"{PROGRAM}" "$@" >/dev/null; ' if done else ''}kill -KILL $$ ;; esac
exec "{PROGRAM}" "$@"
""")
        stand_in.chmod(0o700)
        ended = fork(lambda: self._close(month), GM=str(stand_in))
        self.assertEqual(ended.status, 1, ended.printed)
        return ended.printed

    def _close(self, month: int | None) -> None:
        club = Club(self.club.root)
        with club.locked():
            close_month(club, month, print)

    def test_not_closed(self) -> None:
        """What is mailed after that counts."""
        self.club.mail(1, "UNIT 1", "PRODUCE wood")
        self.club.mail(2, "UNIT 2", "PRODUCE wood")
        said = self.close_by(done=False)
        self.assertTrue(said.startswith("months/2.part is not finished: the program answers"), said)
        self.assertIn("Call the same command again: it sees whether the month is closed", said)
        self.assertTrue((self.club.root / "months" / "2.part").is_dir())
        self.assertIsNone(self._unfinished())
        text = self.club.mail(1, "UNIT 1", "WORK")
        with closing(sqlite3.connect(self.club.root / "club.db")) as database:
            database.execute("DELETE FROM mail WHERE faction = 2")
            database.commit()
        self.assertEqual(self.close(), ["no mail from 2 Bree", "month 2 closed", folder_said(2)])
        self.assertEqual((self.club.root / "months" / "2" / "mail-1.txt").read_bytes(), text)
        self.assertFalse((self.club.root / "months" / "2" / "mail-2.txt").exists())

    def _unfinished(self) -> int | None:
        with self.club.club.locked():
            return unfinished(self.club.club)

    def test_closed(self) -> None:
        """Who joins after that is not in the folder."""
        text = self.club.mail(2, "UNIT 2", "WORK")
        self.close_by(done=True)
        self.club.join(3, 3, "Cork")
        self.assertEqual(self._unfinished(), 2)
        with self.club.club.locked(), self.club.club.with_campaign() as campaign:
            self.assertEqual(questions(self.club.club, campaign, None, 1, self.club.club.now()), [])
        self.assertEqual(self.close(), ["month 2 is closed already, and its folder was not finished", folder_said(2)])
        self.assertEqual((self.club.root / "months" / "2" / "mail-2.txt").read_bytes(), text)
        self.assertFalse((self.club.root / "months" / "2" / "report-3.txt").exists())
        self.assertEqual(sorted(path.name for path in (self.club.root / "months").iterdir()), ["1", "2"])
        self.assertEqual(replay(self.club.root / "months", None, None, say_nothing), f"months 1 to 2: {COMES_OUT}")

    def close_by_hand(self) -> None:
        self.club.club.program.close(2, "moderator", SEED)
        before = contents(self.club.root)
        with self.assertRaises(OfficeError) as caught:
            self.club.close()
        self.assertEqual(caught.exception.text, "month 2 was closed with other mail, or another seed, than "
                                                "months/2.part has. Move that folder away")
        self.assertEqual(contents(self.club.root), before)

    def test_closed_by_hand(self) -> None:
        """The month is closed by hand, and with other mail than was kept as the closing was stopped."""
        self.club.mail(1, "UNIT 1", "STUDY stealth")
        self.close_by(done=False)
        self.club.mail(1, "UNIT 1", "RECRUIT 1")
        self.close_by_hand()

    def test_closed_by_hand_with_half_a_folder(self) -> None:
        self.club.mail(1, "UNIT 1", "STUDY stealth")
        self.close_by(done=False)
        (self.club.root / "months" / "2.part" / "factions.txt").unlink()
        self.close_by_hand()


@needs_program
class Asked(ClubOfTwo):
    """What is asked before a closing."""

    def ask(self, month: int | None = None, held: int = 0, days: int = 0) -> list[str]:
        club = self.club.club
        with club.locked(), club.with_campaign() as campaign:
            return questions(club, campaign, month, held, club.now() + timedelta(days=days))

    def test_nothing(self) -> None:
        self.assertEqual(self.ask(), [])

    def test_mail(self) -> None:
        self.assertEqual(len(self.ask(held=1)), 1)
        self.assertTrue(self.ask(held=1)[0].startswith("1 message is held"))
        self.assertTrue(self.ask(held=12)[0].startswith("12 messages are held"))
        self.club.join(3, 3, "Cork")
        self.assertEqual(self.ask(), ["2 of 3 factions sent no mailing for month 1: 2, 3."])
        self.assertEqual(self.ask(1), ["2 of 3 factions sent no mailing for month 1: 2, 3."])
        self.close()
        self.assertEqual(self.ask(days=2), ["Nobody sent mail for month 2."])
        self.assertEqual(self.ask(2), ["3 of 3 factions sent no mailing for month 2: 1, 2, 3."])

    def test_the_deadline_is_to_come(self) -> None:
        club = self.club.club
        Closings(club).note(0, club.now())
        with club.places.settings.open("a", encoding="utf-8") as file:
            file.write("\n[month]\nnext_deadline = 2999-01-01T20:00:00\n")
        self.club.club = Club(self.club.root)
        self.assertEqual(self.ask(1), ["Players may mail their orders for month 1 until Tue 2999-01-01 20:00."])
        self.assertEqual(self.ask(1, days=400_000), [])

    def test_haste(self) -> None:
        self.close()
        self.club.mail(1, "UNIT 1", "WORK")
        self.club.mail(2, "UNIT 2", "WORK")
        [asked] = self.ask()
        self.assertRegex(asked, r"^Month 1 was closed on \d{4}-\d\d-\d\d at \d\d:\d\d, less than a day ago, and now "
                                r"it is month 2\. \(`kiwirudder close 2` doesn't ask this\.\)$")
        self.assertEqual(self.ask(2), [])
        self.assertEqual(self.ask(days=1), [])
        Closings(self.club.club).note(1, self.club.club.now() + timedelta(days=3))
        self.assertEqual(len(self.ask(days=3)), 1)
        self.assertEqual(self.ask(days=5), [])

    def test_seed(self) -> None:
        (self.club.root / "seed.sha256").write_text(f"{seed_checksum(SEED)}  seed\n")
        self.assertEqual(self.ask(), [])
        self.close()
        self.club.mail(1, "UNIT 1", "WORK")
        self.assertEqual(self.ask(2), [])
        (self.club.root / "seed").write_text("16\n")
        self.assertEqual(self.ask(2), [
            "The file seed isn't the seed whose checksum was published at the founding (seed.sha256).",
            "The file seed has another number than the one with which month 1 was closed (months/1/seed)."])
        (self.club.root / "seed.sha256").write_text("nothing\n")
        with self.assertRaises(OfficeError):
            self.ask(2)

    def test_pass_texts(self) -> None:
        self.club.join(3, 3, "Cork")
        self.close()
        for faction in (1, 2, 3):
            self.club.mail(faction, f"UNIT {faction}", "WORK")
        set_pass_text(self.club.root / "club.db", 2, "pear")
        self.assertEqual(self.ask(2), [])
        set_pass_text(self.club.root / "club.db", 3, "pear")
        self.assertEqual(self.ask(2),
                         ["Factions 2, 3 have one pass text, which they didn't have when month 1 was closed."])
        set_pass_text(self.club.root / "club.db", 3, "pass-3")
        set_pass_text(self.club.root / "club.db", 0, "other")
        self.assertEqual(self.ask(2), [
            "The file pass isn't the campaign's pass text, so the program will refuse to close month 2. "
            "`kiwirudder set-pass 0` makes a new one for both.",
            "Your pass text is another than when month 1 was closed."])

    def test_world(self) -> None:
        self.close()
        self.club.mail(1, "UNIT 1", "WORK")
        world = self.club.root / "months" / "1" / "world.toml"
        world.write_bytes(world.read_bytes() + b"\n")
        self.assertEqual(self.ask(2), ["The world in club.db is another than the one with which month 1 was closed "
                                       "(months/1/world.toml)."])


@needs_program
class Stopped(ClubOfTwo):
    """A closing that is stopped anywhere and called again leaves what an undisturbed one leaves."""

    def make(self, folder: Path) -> None:
        shutil.copytree(self.club.root, folder)

    @staticmethod
    def call(folder: Path) -> None:
        club = Club(folder)
        with club.locked():
            close_month(club, None, print)

    def test_kill(self) -> None:
        StopEverywhere(self, self.make, self.call, contents).stop_at_each(KILL)

    def test_full_disk(self) -> None:
        StopEverywhere(self, self.make, self.call, contents).stop_at_each(FULL)

    def test_kill_where_a_copy_is_there(self) -> None:
        shutil.copyfile(self.club.root / "club.db", self.club.root / "before-1.db")
        self.club.mail(1, "UNIT 1", "WORK")
        StopEverywhere(self, self.make, self.call, contents).stop_at_each(KILL)

    def test_two_at_once(self) -> None:
        calls = [subprocess.Popen(words([str(self.club.root), "close"]), stdout=subprocess.PIPE, stderr=subprocess.PIPE,
                                  text=True) for _ in range(2)]
        printed = [call.communicate() for call in calls]
        self.assertEqual(sorted(call.returncode for call in calls), [0, 1], printed)
        self.assertEqual(sorted(path.name for path in (self.club.root / "months").iterdir()), ["1"])

    @needs_strace
    def test_kill_at_each_call(self) -> None:
        """Each call of the system by which the office or the program writes is the last one, in turn."""
        whole = self.work / "whole"
        self.make(whole)
        trace = self.work / "trace"
        subprocess.run(["strace", "-f", "-o", str(trace), "-e", f"trace={','.join(WRITING)}",
                        *words([str(whole), "close"])], check=True, capture_output=True)
        expected = contents(whole)
        stops = list(_calls(trace.read_text()))
        self.assertGreater(len(stops), 100)
        for call, number in stops[::EACH]:
            self._kill_at(call, number, expected)

    def _kill_at(self, call: str, number: int, expected: dict[str, object]) -> None:
        folder = self.work / "stopped"
        shutil.rmtree(folder, ignore_errors=True)
        self.make(folder)
        subprocess.run(["strace", "-f", "-o", "/dev/null", "-e", f"trace={call}", "-e",
                        f"inject={call}:signal=KILL:when={number}", *words([str(folder), "close"])],
                       check=False, capture_output=True)
        again = subprocess.run(words([str(folder), "close"]), check=False, capture_output=True, text=True)
        self.assertNotIn("Traceback", again.stderr)
        self.assertEqual(contents(folder), expected, f"{call} {number}: {again.stdout}{again.stderr}")


WRITING = ("write", "pwrite64", "fsync", "fdatasync", "ftruncate", "rename", "unlink", "unlinkat", "rmdir", "mkdir",
           "chmod", "fchmod", "sendfile", "copy_file_range", "link")


def _calls(trace: str) -> list[tuple[str, int]]:
    """Each sort of call with each of its numbers in one process."""
    counts: dict[tuple[str, str], int] = {}
    for process, call in re.findall(r"^(\d+) +([a-z_0-9]+)\(", trace, re.MULTILINE):
        counts[process, call] = counts.get((process, call), 0) + 1
    most = {call: max(count for (_, name), count in counts.items() if name == call) for _, call in counts}
    return [(call, number) for call in sorted(most) for number in range(1, most[call] + 1)]


if __name__ == "__main__":
    unittest.main()
