"""One command after another, and the campaign's file for one program at a time.

Two locks of the system lie on files of office/, and are free again when their holder ends, however it ends. Commands of
the office hold `office.lock`. Whoever uses the campaign's file holds `serve.lock`: a command, or `serve` as long as it
answers the page. A command that needs the file asks `serve` to pause, and `serve` goes on when the file is free."""

from __future__ import annotations

import fcntl
import json
import os
import signal
import sys
import time
from collections.abc import Iterator
from contextlib import contextmanager
from dataclasses import dataclass
from pathlib import Path
from typing import IO

from office.club.files import PRIVATE_FILE, make_folder
from office.errors import OfficeError

SECONDS_TO_PAUSE = 30
SECONDS_BETWEEN_LOOKS = 0.05
PAUSE_SIGNAL = signal.SIGUSR1


@dataclass(frozen=True)
class Server:
    """A `serve` that answers: the process that keeps it running, the program's own process, and its port."""

    keeper: int
    program: int
    port: int


def open_lock(path: Path) -> IO[str]:
    make_folder(path.parent)
    return os.fdopen(os.open(path, os.O_RDWR | os.O_CREAT, PRIVATE_FILE), "r+", encoding="utf-8")


def try_lock(file: IO[str]) -> bool:
    try:
        fcntl.flock(file, fcntl.LOCK_EX | fcntl.LOCK_NB)
    except BlockingIOError:
        return False
    return True


def say(text: str) -> None:
    """A line about what goes on, on standard error."""
    print(f"kiwirudder: {text}", file=sys.stderr, flush=True)


@contextmanager
def office_lock(path: Path) -> Iterator[None]:
    """Waits until no other command of the office runs on this club."""
    with open_lock(path) as file:
        if not try_lock(file):
            file.seek(0)
            say(f"another command runs ({file.read().strip() or 'unknown'}): waiting for it")
            fcntl.flock(file, fcntl.LOCK_EX)
        file.seek(0)
        file.truncate()
        file.write(f"process {os.getpid()}\n")
        file.flush()
        yield


def read_server(file: IO[str]) -> Server | None:
    """Who serves, as the lock's file says. None where a command holds the lock."""
    file.seek(0)
    try:
        value = json.loads(file.read())
        return Server(int(value["keeper"]), int(value["program"]), int(value["port"]))
    except (ValueError, KeyError, TypeError):
        return None


def running_server(path: Path) -> Server | None:
    """The `serve` that answers at this moment, if there is one."""
    with open_lock(path) as file:
        if try_lock(file):
            return None
        return read_server(file)


def _ask_to_pause(server: Server) -> None:
    for process, number in ((server.keeper, PAUSE_SIGNAL), (server.program, signal.SIGTERM)):
        try:
            os.kill(process, number)
            return
        except ProcessLookupError:
            continue
        except PermissionError:
            raise OfficeError("serve runs under another user's name: call this command as that user") from None


@contextmanager
def campaign_lock(path: Path) -> Iterator[None]:
    """Holds the campaign's file. A `serve` that uses it is paused, and goes on afterwards by itself."""
    with open_lock(path) as file:
        until = time.monotonic() + SECONDS_TO_PAUSE
        asked: Server | None = None
        while not try_lock(file):
            server = read_server(file)
            # Where a keeper was killed, the next one may come first: it is asked too.
            if server and server != asked:
                if asked is None:
                    say("serve is paused for this command")
                _ask_to_pause(server)
                asked = server
            if time.monotonic() > until:
                raise OfficeError("serve didn't pause: stop it, and call this command again")
            time.sleep(SECONDS_BETWEEN_LOOKS)
        file.seek(0)
        file.truncate()
        file.flush()
        yield
    if asked:
        say("serve goes on")
