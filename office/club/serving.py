"""`kiwirudder serve`: keeps `gm serve` running for the players' page, and lets go of the campaign's file while another
command of the office needs it."""

from __future__ import annotations

import fcntl
import json
import os
import signal
import subprocess
import time
from functools import partial
from types import FrameType
from typing import IO

from office.club.club import Club
from office.club.files import reach_point
from office.club.locks import PAUSE_SIGNAL, open_lock, say, try_lock
from office.errors import OfficeError

MOST_CONNECTIONS = 4_294_967_295
SECONDS_BEFORE_A_NEW_START = 5
SECONDS_TO_END = 20


class Keeper:
    """Starts the program again whenever it ends, until it is stopped by SIGTERM or SIGINT."""

    def __init__(self, club: Club, port: int) -> None:
        self.club = club
        self.port = port
        self.stopped = False
        self.paused = False
        self.child: subprocess.Popen[bytes] | None = None

    def _stop(self, _number: int, _frame: FrameType | None) -> None:
        self.stopped = True
        self._end_child()

    def _pause(self, _number: int, _frame: FrameType | None) -> None:
        self.paused = True
        self._end_child()

    def _end_child(self) -> None:
        if self.child and self.child.poll() is None:
            self.child.terminate()

    def run(self) -> int:
        """0 when it was stopped; 1 where another `serve` runs."""
        for number in (signal.SIGTERM, signal.SIGINT):
            signal.signal(number, self._stop)
        signal.signal(PAUSE_SIGNAL, self._pause)
        while not self.stopped:
            with open_lock(self.club.places.serve_lock) as lock:
                self._wait_for(lock)
                if not self.stopped:
                    self._serve(lock)
            if not self.stopped and not self.paused:
                say(f"serve ended; it starts again in {SECONDS_BEFORE_A_NEW_START} s")
                self._sleep(SECONDS_BEFORE_A_NEW_START)
            # A command that asked for a pause waits in short turns: let it come first.
            if self.paused:
                self._sleep(0.5)
            self.paused = False
        return 0

    def _sleep(self, seconds: float) -> None:
        until = time.monotonic() + seconds
        while not self.stopped and time.monotonic() < until:
            time.sleep(0.05)

    def _wait_for(self, lock: IO[str]) -> None:
        while not self.stopped and not try_lock(lock):
            time.sleep(0.05)

    def _serve(self, lock: IO[str]) -> None:
        """Runs the program once, to its end. The lock is its own too, so that it lasts as long as the program."""
        seed = self.club.seed()
        program = self.club.program.path
        words = [str(program), "serve", "--db", self.club.places.campaign.name, "--port", str(self.port),
                 "--count", str(MOST_CONNECTIONS), "--seed", seed]
        self.child = subprocess.Popen(words, cwd=self.club.places.root, stdin=subprocess.DEVNULL,
                                      pass_fds=(lock.fileno(),),
                                      preexec_fn=partial(self._note, lock.fileno(), os.getpid()))
        reach_point()
        if self.stopped or self.paused:
            self._end_child()
        self._wait_for_child()
        lock.seek(0)
        lock.truncate()
        fcntl.flock(lock, fcntl.LOCK_UN)

    def _note(self, lock: int, keeper: int) -> None:
        """Writes who serves into the lock's file. The new process does it, so none holds the lock without being known
        there, also if the keeper is killed at this moment."""
        server = {"keeper": keeper, "program": os.getpid(), "port": self.port}
        os.ftruncate(lock, 0)
        os.pwrite(lock, json.dumps(server).encode(), 0)

    def _wait_for_child(self) -> None:
        child = self.child
        if child is None:
            return
        asked_at: float | None = None
        while child.poll() is None:
            time.sleep(0.02)
            if self.stopped or self.paused:
                asked_at = asked_at or time.monotonic()
                if time.monotonic() - asked_at > SECONDS_TO_END:
                    child.kill()
        self.child = None


def serve(club: Club, port: int) -> int:
    """Serves until it is stopped. OfficeError where another `serve` of the office runs on this club."""
    with open_lock(club.places.state / "keeper.lock") as keeper:
        if not try_lock(keeper):
            raise OfficeError("serve runs already on this club")
        with club.locked(), club.with_campaign():
            pass  # the campaign can be read, and `take` knows its factions while serve has the file
        say(f"serve answers at http://127.0.0.1:{port}/ (Ctrl-C ends it)")
        return Keeper(club, port).run()
