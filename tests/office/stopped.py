#!/usr/bin/env python3
"""Stops commands of the office at each of their points, once by a kill and once by a full disk, and calls them again:
the folder, the rows of the database and the letters are then those of a call that nobody stopped. `take` is also killed
at system calls that write, and called on a disk that is really full, and beside another `take`. Called as

    tests/office/stopped.py [UNITTEST OPTIONS]

Status 77 where there is no program, with the reason on the last line."""

from __future__ import annotations

import os
import re
import shutil
import subprocess
import sys
import tempfile
import unittest
from collections.abc import Callable, Sequence
from pathlib import Path

sys.dont_write_bytecode = True
sys.path.insert(0, str(Path(__file__).resolve().parents[2]))

from office.command import main  # noqa: E402
from office.errors import OfficeError  # noqa: E402
from tests.office.closing_tools import FULL, KILL, Ended, fork, rows  # noqa: E402
from tests.office.clubs import TOP, ClubFolder, find_program  # noqa: E402
from tests.office.mailhouse import make_certificate  # noqa: E402
from tests.office.scripted import Delivered, ImapScript, ScriptedImap, ScriptedSmtp, SmtpScript  # noqa: E402
from tests.tools.ports import HOST  # noqa: E402

SKIPPED = 77
KILLED = -9
SEED = "15"
PLAYERS = 3
MOST_POINTS = 400
MOST_KILLS_BY_STRACE = 24
WRITING_CALLS = ("write", "pwrite64", "rename", "fsync", "fdatasync", "ftruncate", "unlink", "mkdir", "utimensat")
SIZES_OF_A_FULL_DISK = (16, 40, 72, 120)  # KiB that are free
# What a second call can't make the same: times, the borders of attachments, and logs.
CHANGING = ((rb"(?m)^Date: .*$", b"Date: then"), (rb"={15}\d+==", b"border"),
            (rb"-20\d{12}\b", b"-time"), (rb"\d{4}-\d\d-\d\dT\d\d:\d\d:\d\d(\.\d+)?[+-]\d\d:\d\d", b"time"))
# A mailbox file that was split in part is split again: what was taken of it is dropped, and kept under such a name.
CAME_AGAIN = "-again."
NOT_COMPARED = ("office/log", "office/replies.json", "office/office.lock", "office/serve.lock")


def mail(sender: str, number: int, text: str, *fields: str) -> bytes:
    """A mail as the club's own server hands it over: it came in May, one minute after the one before."""
    head = [f"Received: from there by here; Sun, 3 May 2026 20:{number:02}:00 +0000", f"From: {sender}@club.test",
            "To: club@club.test", f"Subject: number {number}", f"Message-ID: <{number}@club.test>", *fields]
    return ("\n".join(head) + "\n\n" + text).encode()


def orders(faction: int, *lines: str) -> str:
    return "\n".join([f"#ATLANTIS {faction}", f"UNIT {faction}", *lines, "#END", ""])


def mailbox_file(*mails: bytes) -> bytes:
    return b"".join(b"From club Sun May  3 20:00:00 2026\n" + each + b"\n" for each in mails)


def see(folder: Path) -> dict[str, object]:
    """What has to be the same: each file, each row, with pass texts told by whose they are."""
    club = ClubFolder(folder)
    campaign = folder / "club.db"
    secrets: dict[bytes, bytes] = {}
    if campaign.exists():
        secrets = {str(secret).encode(): f"pass of {number}".encode() for number, secret in
                   [*club.ask("SELECT number, pass FROM faction"), *club.ask("SELECT 0, pass FROM campaign")]}
    found: dict[str, object] = {}
    for path in sorted(folder.rglob("*")):
        name = _without(secrets, str(path.relative_to(folder)).encode()).decode()
        if path.is_dir() or name in NOT_COMPARED or name.endswith((".db-wal", ".db-shm")) or CAME_AGAIN in name:
            continue
        if path.suffix == ".db":
            found[name] = [_without(secrets, row.encode()) for row in rows(path)]
        else:
            found[name] = _without(secrets, path.read_bytes())
    return found


def _without(secrets: dict[bytes, bytes], data: bytes) -> bytes:
    for secret, whose in secrets.items():
        data = data.replace(secret, whose)
    for pattern, name in CHANGING:
        data = re.sub(pattern, name, data)
    return data


def office(folder: Path, *words: str) -> Callable[[], None]:
    """A call of the command line, as `fork` wants it."""
    def call() -> None:
        status = main(["--club", str(folder), *words])
        if status:
            raise OfficeError("", status)
    return call


class StoppedCommand(unittest.TestCase):
    """A club of three factions, made once; each stop begins with a copy of it."""

    template: Path
    work: Path

    @classmethod
    def setUpClass(cls) -> None:
        os.environ["GM"] = str(find_program())
        cls.work = Path(tempfile.mkdtemp(prefix="stopped-"))
        cls.addClassCleanup(shutil.rmtree, cls.work)
        cls.template = cls.work / "template"
        club = ClubFolder(cls.template)
        club.found(TOP / "worlds" / "isle.toml", "--seed", SEED)
        for number in range(1, PLAYERS + 1):
            club.call("join", f"Faction {number}", f"player{number}@club.test")
        for letter in club.letters():
            letter.unlink()

    def setUp(self) -> None:
        self.made = self.work / "made"
        self.folder = self.work / "club"
        shutil.rmtree(self.made, ignore_errors=True)
        shutil.copytree(self.template, self.made)
        # before each call, stopped or not
        self.refresh: Callable[[], None] = lambda: None

    def put_in(self, name: str, data: bytes) -> None:
        path = self.made / "mail" / "in" / name
        path.write_bytes(data)
        os.utime(path, (1_777_838_400, 1_777_838_400))

    def put_mail(self) -> None:
        """Mail of all sorts: taken with a fault and a warning, held, dropped, a mailbox file, refused, and replaced."""
        self.put_in("a.eml", mail("player1", 1, orders(1, "WORK", "FLY", "STUDY observation")))
        self.put_in("b.eml", mail("player2", 2, "A letter."))
        self.put_in("c.eml", mail("player2", 3, orders(2, "TAX"), "Auto-Submitted: auto-replied"))
        self.put_in("d.mbox", mailbox_file(mail("player1", 4, orders(1, "WORK")),
                                           mail("player1", 5, orders(3, "WORK"))))

    def fresh(self) -> Path:
        shutil.rmtree(self.folder, ignore_errors=True)
        if self.made.exists():
            shutil.copytree(self.made, self.folder)
        self.refresh()
        return self.folder

    def whole(self, *words: str, status: int = 0) -> dict[str, object]:
        """What a call that nobody stops leaves."""
        ended = fork(office(self.fresh(), *words))
        self.assertEqual(status, ended.status, ended.printed)
        self.points = ended.points
        self.assertGreater(self.points, 1)
        return see(self.folder)

    def stop_everywhere(self, *words: str, status: int = 0, variables: Sequence[str] = (KILL, FULL)) -> None:
        expected = self.whole(*words, status=status)
        for variable in variables:
            for point in range(1, MOST_POINTS):
                ended = self.stop_at(variable, point, expected, *words)
                if variable == KILL and ended.status != KILLED or variable == FULL and point > self.points:
                    break
            self.assertGreaterEqual(point, self.points, "each point was reached")

    def stop_at(self, variable: str, point: int, expected: dict[str, object], *words: str) -> Ended:
        ended = fork(office(self.fresh(), *words), **{variable: str(point)})
        where = f"{' '.join(words)}, {variable}={point}: {ended.printed}"
        self.assertIn(ended.status, (KILLED, 0, 3) if variable == KILL else (0, 1, 3), where)
        self.assertNotIn("Traceback", ended.printed, where)
        again = fork(office(self.folder, *words))
        self.assertIn(again.status, (0, 1, 3), where + again.printed)
        self.assertNotIn("Traceback", again.printed, where)
        self.assert_same(expected, where + again.printed)
        return ended

    def assert_same(self, expected: dict[str, object], where: str) -> None:
        seen = see(self.folder)
        self.assertEqual(sorted(expected), sorted(seen), where)
        for name, value in expected.items():
            self.assertEqual(value, seen[name], f"{name}: {where}")


class Stopped(StoppedCommand):
    """Each command by itself."""

    def test_take(self) -> None:
        self.put_mail()
        self.stop_everywhere("take", status=3)

    def test_accept(self) -> None:
        self.put_in("b.eml", mail("player2", 2, orders(2, "WORK") + orders(2, "TAX")))
        fork(office(self.made, "take"))
        id_ = next((self.made / "mail" / "held").glob("*.eml")).stem
        self.stop_everywhere("accept", id_, "--block", "2")

    def test_refuse(self) -> None:
        self.put_in("b.eml", mail("player2", 2, orders(2, "WORK") + orders(2, "TAX")))
        fork(office(self.made, "take"))
        id_ = next((self.made / "mail" / "held").glob("*.eml")).stem
        self.stop_everywhere("refuse", id_, "Say which.")

    def test_withdraw(self) -> None:
        self.put_in("a.eml", mail("player1", 1, orders(1, "WORK")))
        fork(office(self.made, "take"))
        self.stop_everywhere("withdraw", "1")

    def test_remind(self) -> None:
        self.put_in("a.eml", mail("player1", 1, orders(1, "FLY")))
        fork(office(self.made, "take"))
        self.stop_everywhere("remind")

    def test_close(self) -> None:
        """The whole of it: mail is taken, the month is closed, and letters are written."""
        self.put_in("1.txt", orders(1, "WORK").encode())
        self.stop_everywhere("close", "1", "--yes", variables=(KILL,))

    def test_join(self) -> None:
        self.stop_everywhere("join", "The last", "last@club.test")

    def test_init(self) -> None:
        shutil.rmtree(self.made)
        self.stop_everywhere("init", str(self.folder), "--world", str(TOP / "worlds" / "isle.toml"), "--seed", SEED,
                             "--moderator", "club@club.test")

    def test_handing_over(self) -> None:
        """`fetch --stdin`: what was killed is handed over again by the mail server, and `take` takes it once."""
        raw = mail("player1", 1, orders(1, "WORK"))
        message = self.work / "message"
        message.write_bytes(raw)

        def hand_over() -> None:
            os.dup2(os.open(message, os.O_RDONLY), 0)
            sys.stdin = open(0, encoding="utf-8")  # noqa: SIM115
            office(self.folder, "fetch", "--stdin")()

        for variable, left in ((KILL, KILLED), (FULL, 75)):
            for point in range(1, MOST_POINTS):
                self.fresh()
                ended = fork(hand_over, **{variable: str(point)})
                if ended.status == 0:
                    break
                self.assertEqual(left, ended.status, ended.printed)
                self.assertEqual(0, fork(hand_over).status)
                fork(office(self.folder, "take"))
                self.assertEqual(1, len(list((self.folder / "mail" / "taken" / "1").glob("*.eml"))))
                self.assertEqual(1, len(ClubFolder(self.folder).letters()))
            self.assertGreater(point, 2)


class StoppedOnTheLine(StoppedCommand):
    """`fetch` and `send`, with a mail server of the test."""

    def setUp(self) -> None:
        super().setUp()
        self.certificate, self.key = make_certificate(self.work)
        (self.made / "password").write_text("secret\n")

    def set_port(self, table: str, port: int) -> None:
        path = self.made / "club.toml"
        path.write_text(path.read_text().replace("replies_a_day = 10", f'certificates = "{self.certificate}"')
                        + f'\n[{table}]\nhost = "{HOST}"\nport = {port}\nuser = "club"\npassword_file = "password"\n')

    def test_fetch(self) -> None:
        script = ImapScript({uid: mail("player1", uid, orders(1, "WORK")) for uid in (3, 4, 8)})
        with ScriptedImap(script, self.certificate, self.key) as port:
            self.set_port("imap", port)
            self.stop_everywhere("fetch")

    def test_send(self) -> None:
        """Where the office is killed behind a letter, this one comes twice, the same byte for byte."""
        for name in "abc":
            (self.made / "out" / f"{name}.eml").write_bytes(mail("club", 1, "Hello", f"To: {name}@club.test"))
        script = SmtpScript()

        def refresh() -> None:
            self.assert_sent(script.delivered)
            script.delivered.clear()

        with ScriptedSmtp(script, self.certificate, self.key) as port:
            self.set_port("smtp", port)
            self.refresh = refresh
            self.stop_everywhere("send")
            self.assert_sent(script.delivered)

    def assert_sent(self, delivered: list[Delivered]) -> None:
        if delivered:
            self.assertEqual(3, len({letter.data for letter in delivered}))
            self.assertLessEqual(len(delivered), 4)


class StoppedForReal(StoppedCommand):
    """`take` as a process: killed by strace, on a full disk, and twice at once."""

    def setUp(self) -> None:
        super().setUp()
        self.put_mail()

    def run_take(self, *before: str) -> subprocess.CompletedProcess[str]:
        club = ClubFolder(self.folder)
        return subprocess.run([*before, *club.words("take")], env=club.environment(), capture_output=True, text=True,
                              check=False, timeout=120)

    def calls(self) -> list[tuple[str, int]]:
        """The system calls that write, as one whole `take` makes them: each name with each of its numbers."""
        trace = self.work / "trace"
        self.fresh()
        self.run_take("strace", "-f", "-o", str(trace), "-e", f"trace={','.join(WRITING_CALLS)}")
        made = re.findall(r"^(\d+) +(\w+)\(", trace.read_text(), re.MULTILINE)
        count: dict[tuple[str, str], int] = {}
        for process, name in made:
            count[process, name] = count.get((process, name), 0) + 1
        most = {name: max(number for (_, called), number in count.items() if called == name) for _, name in count}
        return [(name, number) for name, last in sorted(most.items()) for number in range(1, last + 1)]

    @unittest.skipUnless(shutil.which("strace"), "strace is missing: apt-get install strace")
    def test_killed_at_system_calls(self) -> None:
        expected = self.whole("take", status=3)
        calls = self.calls()
        for name, number in calls[::max(1, len(calls) // MOST_KILLS_BY_STRACE)]:
            self.fresh()
            self.run_take("strace", "-f", "-o", "/dev/null", "-e", f"inject={name}:signal=KILL:when={number}")
            again = self.run_take()
            self.assertIn(again.returncode, (0, 3), again.stderr)
            self.assert_same(expected, f"killed at call {number} of {name}: {again.stderr}")

    def test_full_disk(self) -> None:
        """A file system of its own with little room, which is then made larger."""
        if os.geteuid() != 0:
            self.skipTest("a file system is mounted by root alone")
        expected = self.whole("take", status=3)
        disk = self.work / "disk"
        disk.mkdir()
        used = 1 + sum((path.stat().st_size + 4095) // 4096 * 4 for path in self.fresh().rglob("*") if path.is_file())
        if subprocess.run(["mount", "-t", "tmpfs", "-o", "size=64m", "none", str(disk)], check=False).returncode:
            self.skipTest("no file system can be mounted here")
        self.addCleanup(lambda: subprocess.run(["umount", str(disk)], check=True))
        self.folder = disk / "club"
        for free in SIZES_OF_A_FULL_DISK:
            subprocess.run(["mount", "-o", "remount,size=64m", str(disk)], check=True)
            self.fresh()
            subprocess.run(["mount", "-o", f"remount,size={used + free}k", str(disk)], check=True)
            full = self.run_take()
            self.assertNotIn("Traceback", full.stderr)
            if full.returncode == 1:
                self.assertRegex(full.stderr, "(?m)^kiwirudder: .*(call it again|disk is full|says what to do)")
            subprocess.run(["mount", "-o", "remount,size=64m", str(disk)], check=True)
            again = self.run_take()
            self.assert_same(expected, f"{free} KiB were free: {full.stderr}{again.stderr}")

    def test_two_at_once(self) -> None:
        expected = self.whole("take", status=3)
        club = ClubFolder(self.fresh())
        both = [subprocess.Popen(club.words("take"), env=club.environment(), stdout=subprocess.PIPE,
                                 stderr=subprocess.PIPE, text=True) for _ in range(3)]
        ended = [(*each.communicate(timeout=120), each.returncode) for each in both]
        self.assertEqual([3, 3, 3], [status for _, _, status in ended], ended)
        self.assertEqual(2, sum("mail/in is empty" in output for output, _, _ in ended), ended)
        self.assert_same(expected, "three at once")


del StoppedCommand

if __name__ == "__main__":
    if find_program() is None:
        print("the program isn't there: GM names it")
        sys.exit(SKIPPED)
    unittest.main()
