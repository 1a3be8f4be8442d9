#!/usr/bin/env python3
"""Commands of the office while `kiwirudder serve` runs: `take` goes through it, other commands pause it, and it goes
on; the keeper or the program is killed at moments of all sorts. Called as

    tests/office/served.py [UNITTEST OPTIONS]

Status 77 where there is no program, with the reason on the last line."""

from __future__ import annotations

import json
import os
import random
import shutil
import signal
import subprocess
import sys
import tempfile
import threading
import time
import unittest
import urllib.error
import urllib.request
from functools import partial
from pathlib import Path

sys.dont_write_bytecode = True
sys.path.insert(0, str(Path(__file__).resolve().parents[2]))

from tests.office.clubs import TOP, ClubFolder, find_program  # noqa: E402
from tests.office.mailhouse import end_process, wait_until  # noqa: E402
from tests.tools.ports import HOST, free_port  # noqa: E402

SKIPPED = 77
SECONDS_TO_ANSWER = 60.0
KILLS = 6
MOST_POINTS = 40
POINT = "KIWIRUDDER_KILL_AT"


def orders(faction: int, *lines: str, pass_text: str = "") -> str:
    return "\n".join([f"#ATLANTIS {faction} {pass_text}".rstrip(), f"UNIT {faction}", *lines, "#END", ""])


class Watch:
    """Looks at the words of all processes as long as the `with` lasts, and notes those that have one of some texts."""

    def __init__(self, *texts: str) -> None:
        self.texts = [text.encode() for text in texts]
        self.seen: set[bytes] = set()
        self.looks = 0
        self._done = threading.Event()
        self._thread = threading.Thread(target=self._watch, daemon=True)

    def __enter__(self) -> Watch:
        self._thread.start()
        return self

    def __exit__(self, *_: object) -> None:
        self._done.set()
        self._thread.join()

    def _watch(self) -> None:
        while not self._done.is_set():
            self.looks += 1
            for process in Path("/proc").glob("[0-9]*"):
                self._look(process)

    def _look(self, process: Path) -> None:
        for name in ("cmdline", "environ"):
            try:
                words = (process / name).read_bytes()
            except OSError:
                continue
            self.seen |= {text for text in self.texts if text in words}


class Served(unittest.TestCase):
    """A club of two factions whose page is served."""

    def setUp(self) -> None:
        self.work = Path(tempfile.mkdtemp(prefix="served-"))
        self.addCleanup(shutil.rmtree, self.work)
        self.club = ClubFolder(self.work / "club")
        self.club.found(TOP / "worlds" / "isle.toml", "--seed", "15")
        for number in (1, 2):
            self.club.call("join", f"Faction {number}", f"player{number}@club.test")
        self.port = free_port()
        self.addCleanup(self.end_all)
        self.keepers: list[subprocess.Popen[bytes]] = []

    def start(self, **environment: str) -> subprocess.Popen[bytes]:
        keeper = subprocess.Popen(self.club.words("serve", "--port", str(self.port)),
                                  env=self.club.environment(environment), stdout=subprocess.DEVNULL,
                                  stderr=subprocess.DEVNULL)
        self.keepers.append(keeper)
        return keeper

    def end_all(self) -> None:
        """Ends what this test started: the keepers, and a program whose keeper was killed."""
        for keeper in self.keepers:
            end_process(keeper)
        self.keepers.clear()
        program = self.program()
        if program:
            os.kill(program, signal.SIGKILL)

    def program(self) -> int:
        """The process of the program that serves this club, 0 where none does."""
        words = f"\0--port\0{self.port}\0".encode()
        for process in Path("/proc").glob("[0-9]*"):
            try:
                known = (process / "cmdline").read_bytes()
            except OSError:
                continue
            if words in known and b"\0--db\0" in known:
                return int(process.name)
        return 0

    def answers(self) -> bool:
        """Whether a faction gets its report."""
        asked = urllib.request.Request(f"http://{HOST}:{self.port}/report/1",
                                       headers={"Atlantis-Pass": self.secret})
        try:
            with urllib.request.urlopen(asked, timeout=5) as reply:
                return bool(reply.read().startswith(b"Atlantis report"))
        except OSError:
            return False

    def has_ended_or_answers(self, keeper: subprocess.Popen[bytes]) -> bool:
        return keeper.poll() is not None or self.answers()

    def serve(self) -> subprocess.Popen[bytes]:
        self.secret = self.club.pass_text(1)
        keeper = self.start()
        self.wait_for_answer()
        return keeper

    def wait_for_answer(self) -> None:
        wait_until(self.answers, SECONDS_TO_ANSWER, "serve doesn't answer")

    def put_in(self, name: str, text: str) -> None:
        (self.club.folder / "mail" / "in" / name).write_text(text)

    def kept(self) -> bytes:
        """The mailing of faction 1, read when nobody serves any more."""
        self.end_all()
        wait_until(lambda: self.program() == 0, SECONDS_TO_ANSWER, "the program doesn't end")
        rows = self.club.ask("SELECT text FROM mail WHERE faction = 1")
        return bytes(rows[0][0]) if rows else b""  # type: ignore[call-overload,no-any-return]

    def test_take_goes_through_serve(self) -> None:
        """No pass text is in the list of processes, and `serve` isn't paused."""
        secrets = [self.club.pass_text(1), self.club.pass_text(2)]
        self.serve()
        before = self.program()
        self.put_in("a.txt", orders(1, "STUDY observation", pass_text=secrets[0]))
        self.put_in("2.txt", orders(2, "WORK"))
        with Watch(*secrets) as watch:
            self.club.call("take")
        self.assertEqual(set(), watch.seen)
        self.assertGreater(watch.looks, 2)
        self.assertEqual(before, self.program())
        self.club.call("status")
        self.assertIn(b"STUDY", self.kept())
        self.assertEqual(2, len([path for path in self.club.letters() if path.name.startswith("reply")]))

    def test_strange_pass_texts(self) -> None:
        """What can't be handed over as a word or a field of HTTP is a wrong pass text, and stops nothing."""
        strange = ["\x01\x02", "\u00e9", "x" * 200_000, '"a b"', "--help", "a\x00b", "a\u0085b"]
        for served in (False, True):
            with self.subTest(served=served):
                if served:
                    self.serve()
                for number, text in enumerate(strange):
                    self.put_in(f"{served}-{number}.txt", orders(1, "TAX", f"; {served}", pass_text=text))
                self.put_in("1.txt", orders(1, "WORK", f"; {served}"))
                said = self.club.call("take")
                self.assertIn(f"1 taken, 0 held, {len(strange)} refused", said)
                self.assertFalse(list((self.club.folder / "mail" / "in").iterdir()))

    def test_commands_pause_it(self) -> None:
        self.serve()
        for words in (("status",), ("join", "The third", "player3@club.test"), ("close", "--yes"), ("set-pass", "2"),
                      ("backup", str(self.work / "copies"))):
            with self.subTest(words[0]):
                before = self.program()
                done = self.club.try_call(*words)
                self.assertEqual(0, done.status, done)
                self.assertIn("serve is paused", done.errors)
                self.wait_for_answer()
                self.assertNotEqual(before, self.program())

    def test_program_is_killed(self) -> None:
        """It is started again, and a `take` in between waits for it."""
        self.serve()
        before = self.program()
        os.kill(before, signal.SIGKILL)
        self.put_in("1.txt", orders(1, "WORK"))
        self.club.call("take")
        self.wait_for_answer()
        self.assertNotEqual(before, self.program())
        self.club.call("status")
        self.assertIn(b"WORK", self.kept())

    def test_keeper_is_killed(self) -> None:
        """The program answers on. A command ends it, and a new `serve` takes its place."""
        keeper = self.serve()
        keeper.kill()
        keeper.wait()
        self.assertTrue(self.answers())
        self.put_in("1.txt", orders(1, "WORK"))
        self.club.call("take")
        self.club.call("status")
        self.serve()
        self.assertIn(b"WORK", self.kept())

    def test_new_keeper_while_the_program_of_a_killed_one_answers(self) -> None:
        """As systemd starts it again: it waits, and comes in when a command has ended the old program."""
        keeper = self.serve()
        keeper.kill()
        keeper.wait()
        self.start()
        time.sleep(1)
        for _ in range(3):
            self.club.call("status")
        self.wait_for_answer()

    def test_killed_at_moments_of_all_sorts(self) -> None:
        """Keeper or program, while commands run."""
        chance = random.Random(7)
        self.secret = self.club.pass_text(1)
        for number in range(KILLS):
            keeper = self.start()
            if chance.random() < 0.7:
                self.wait_for_answer()
            self.put_in("1.txt", orders(1, f"STUDY observation ; {number}"))
            command = subprocess.Popen(self.club.words(chance.choice(["take", "status"])), env=self.club.environment(),
                                       stdout=subprocess.DEVNULL, stderr=subprocess.DEVNULL)
            time.sleep(chance.random())
            for process in (self.program(), keeper.pid) if chance.random() < 0.5 else (keeper.pid,):
                if process:
                    os.kill(process, signal.SIGKILL)
            keeper.wait()
            command.wait(120)
            self.assertIn(command.returncode, (0, 1))
            self.club.call("take")
            self.club.call("status")
            self.assertEqual([("ok",)], self.club.ask("PRAGMA integrity_check"))
            self.assertIn(f"; {number}".encode(), self.kept())

    def test_killed_at_its_points(self) -> None:
        """`serve` itself, wherever it is killed, leaves a club that commands and a new `serve` can use."""
        self.secret = self.club.pass_text(1)
        for point in range(1, MOST_POINTS):
            keeper = self.start(**{POINT: str(point)})
            wait_until(partial(self.has_ended_or_answers, keeper), SECONDS_TO_ANSWER, "serve neither answers nor ends")
            ended = keeper.poll() is not None
            self.club.call("status")
            end_process(keeper)
            if not ended and self.program() == 0:
                break
        self.serve()

    def test_second_serve(self) -> None:
        self.serve()
        second = self.club.try_call("serve", "--port", str(free_port()))
        self.assertEqual(1, second.status)
        self.assertTrue(self.answers())

    def test_stopped(self) -> None:
        keeper = self.serve()
        keeper.terminate()
        self.assertEqual(0, keeper.wait(30))
        self.assertEqual(0, self.program())
        lock = (self.club.folder / "office" / "serve.lock").read_text()
        self.assertFalse(lock and json.loads(lock), "nobody is noted as serving")

    def test_many_commands_at_once(self) -> None:
        self.serve()
        for number in range(4):
            self.put_in(f"{number}.txt", orders(1, f"STUDY observation ; {number}", pass_text=self.secret))
        commands = [subprocess.Popen(self.club.words(name), env=self.club.environment(), stdout=subprocess.DEVNULL,
                                     stderr=subprocess.DEVNULL) for name in ("take", "status", "take", "remind")]
        self.assertEqual([0] * 4, [command.wait(120) for command in commands])
        self.assertEqual(4, len(list((self.club.folder / "mail" / "taken" / "1").glob("*.txt"))))
        self.wait_for_answer()


if __name__ == "__main__":
    if find_program() is None:
        print("the program isn't there: GM names it")
        sys.exit(SKIPPED)
    unittest.main()
