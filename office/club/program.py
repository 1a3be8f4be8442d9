"""The proved program: its commands as calls, its refusals and faults as errors."""

from __future__ import annotations

import http.client
import json
import os
import re
import shutil
import subprocess
import sys
import time
import urllib.error
import urllib.request
from dataclasses import dataclass
from functools import cache
from pathlib import Path
from tempfile import NamedTemporaryFile
from typing import NoReturn, Protocol

from office.club.files import effect
from office.errors import OfficeError

SECONDS_FOR_A_REPLY = 120
SECONDS_TO_BE_BACK = 15.0  # a `serve` that ended is started again in this time
SECONDS_BETWEEN_TRIES = 0.2
WRONG_PASS = 6
_PASS_TEXT = re.compile(r"[!-~]{1,40}")
_REFUSAL = re.compile(r"refused: (\d+) (\w+)")
_MAIL = re.compile(r"(\d+) orders, (\d+) faults")
_LINE = re.compile(r"line (\d+): (\d+) \w+")


class Refusal(OfficeError):
    """The program refused the command, and nothing was changed."""

    def __init__(self, number: int, name: str) -> None:
        super().__init__(f"the program refuses: {number} {name} (docs/MODERATOR.md, \"Refusals\", says what to do)")
        self.number = number
        self.name = name


class Fault(OfficeError):
    """The program could not carry out the command. `line` is what it printed."""

    def __init__(self, line: str) -> None:
        super().__init__(f"the program answers `{line}` (docs/MODERATOR.md, \"Faults\", says what to do)")
        self.line = line


@dataclass(frozen=True)
class MailAnswer:
    """How many orders a mailing gives, and its faulty lines with the numbers of their faults."""

    orders: int
    faults: tuple[tuple[int, int], ...]


def check_pass_text(pass_text: str) -> None:
    """Refusal of a pass text that none can be, by its signs or its length: it can't be handed over as a word either."""
    if not _PASS_TEXT.fullmatch(pass_text):
        raise Refusal(WRONG_PASS, "WrongPass")


class Desk(Protocol):
    """Where mailings are handed in."""

    def hand_in(self, faction: int, pass_text: str, mailing: bytes) -> MailAnswer:
        """Refusal or Fault where the program doesn't take it."""


@cache
def _path_of(script: Path) -> Path:
    """The program that the script `gm` would run: it is asked once, and not at each call."""
    done = subprocess.run([str(script), "path"], capture_output=True, text=True, check=False, stdin=subprocess.DEVNULL)
    if done.returncode:
        raise OfficeError(done.stderr.strip() or f"{script} doesn't say where the program is")
    if done.stderr:
        print(done.stderr, end="", file=sys.stderr)
    return Path(done.stdout.strip())


def find_program() -> Path:
    """The program: $GM, or what the `gm` beside the office's folder runs, or `atl_gm` of the package."""
    named = os.environ.get("GM")
    if named:
        # It is called from other folders, so a path from this one would not do.
        return Path(shutil.which(named) or named).absolute()
    beside = Path(__file__).resolve().parents[2] / "gm"
    if os.access(beside, os.X_OK):
        return _path_of(beside)
    found = shutil.which("atl_gm")
    if found:
        return Path(found)
    raise OfficeError("the program isn't here: install the package kiwirudder, or keep this folder beside the script gm")


def _raise(line: str) -> NoReturn:
    refusal = _REFUSAL.match(line)
    if refusal:
        raise Refusal(int(refusal[1]), refusal[2])
    raise Fault(line)


class Program:
    """The program's commands on one campaign file, in `folder`."""

    def __init__(self, folder: Path, file: str = "club.db") -> None:
        self.path = find_program()
        self.folder = folder
        self.file = file

    def run(self, *words: str) -> str:
        """What the program prints. Refusal or Fault where its status isn't 0."""
        try:
            # The signals stay as they are: past a limit of the size of files the program then reports a fault, and
            # isn't ended by SIGXFSZ.
            done = subprocess.run([str(self.path), *words], cwd=self.folder, capture_output=True, check=False,
                                  stdin=subprocess.DEVNULL, restore_signals=False)
        except OSError as error:
            raise OfficeError(f"{self.path} can't be started: {error.strerror}") from None
        if done.returncode == 0:
            return done.stdout.decode("utf-8", "replace")
        lines = done.stderr.decode("utf-8", "replace").strip().splitlines() or [f"status {done.returncode}"]
        _raise(lines[-1] if done.returncode == 1 else "\n".join(lines))

    def on(self, file: str) -> Program:
        """The same program over another file of the folder."""
        return Program(self.folder, file)

    def found(self, world: Path, pass_text: str) -> str:
        with effect():
            return self.run("found", "--world", str(world), "--db", self.file, f"--pass={pass_text}")

    def join(self, name: str, pass_text: str, seed: str) -> tuple[int, int]:
        """The numbers of the faction and of its first unit."""
        with effect():
            answer = self.run("join", "--db", self.file, f"--name={name}", f"--pass={pass_text}", f"--seed={seed}")
        numbers = re.findall(r"\d+", answer)
        return int(numbers[0]), int(numbers[1])

    def close(self, month: int, pass_text: str, seed: str) -> str:
        with effect():
            return self.run("close", "--db", self.file, "--month", str(month), f"--pass={pass_text}", f"--seed={seed}")

    def report(self, faction: int, pass_text: str) -> str:
        return self.run("report", "--db", self.file, "--faction", str(faction), f"--pass={pass_text}")

    def books(self) -> str:
        """The books. It also brings all changes of a log into the file."""
        return self.run("books", "--db", self.file)

    def hand_in(self, faction: int, pass_text: str, mailing: bytes) -> MailAnswer:
        check_pass_text(pass_text)
        with effect(), NamedTemporaryFile(prefix="mailing-", suffix=".txt") as file:
            file.write(mailing)
            file.flush()
            answer = self.run("mail", "--db", self.file, "--faction", str(faction), f"--pass={pass_text}",
                              "--file", file.name)
        head = _MAIL.match(answer)
        if not head:
            raise OfficeError(f"the program answers {answer!r} to a mailing")
        return MailAnswer(int(head[1]), tuple((int(line), int(fault)) for line, fault in _LINE.findall(answer)))


class ServedCampaign:
    """Mailings go to a `serve` that runs, so that no pass text is in the list of processes."""

    def __init__(self, port: int) -> None:
        self.address = f"http://127.0.0.1:{port}"

    def hand_in(self, faction: int, pass_text: str, mailing: bytes) -> MailAnswer:
        """A `serve` that doesn't answer is asked again for some seconds, since it may be started again: the same mailing
        twice is one mailing."""
        check_pass_text(pass_text)
        request = urllib.request.Request(f"{self.address}/orders/{faction}", data=mailing, method="POST",
                                         headers={"Atlantis-Pass": pass_text, "Content-Type": "text/plain"})
        until = time.monotonic() + SECONDS_TO_BE_BACK
        with effect():
            while True:
                try:
                    return self._ask(request)
                except (OSError, ValueError, KeyError, TypeError, http.client.HTTPException) as error:
                    if time.monotonic() > until:
                        raise Fault(f"serve gives no answer: {error}") from None
                time.sleep(SECONDS_BETWEEN_TRIES)

    def _ask(self, request: urllib.request.Request) -> MailAnswer:
        opener = urllib.request.build_opener(urllib.request.ProxyHandler({}))
        try:
            with opener.open(request, timeout=SECONDS_FOR_A_REPLY) as reply:
                answer = json.loads(reply.read())
        except urllib.error.HTTPError as error:
            self._raise_for(error)
        return MailAnswer(int(answer["orders"]), tuple((int(line), int(fault)) for line, fault in answer["faults"]))

    @staticmethod
    def _raise_for(error: urllib.error.HTTPError) -> NoReturn:
        try:
            answer = json.loads(error.read())
            name, number = str(answer["error"]), int(answer["number"])
        except (OSError, ValueError, KeyError, TypeError):
            raise Fault(f"serve answers status {error.code}") from None
        if name == "BodyTooLong":
            raise Refusal(8, "TooLong") from None
        if number:
            raise Refusal(number, name) from None
        raise Fault(f"fault: {name}") from None
