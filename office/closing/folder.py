"""The folder of a closed month, as `close` leaves it and `replay` reads it: months/M.

`factions.txt` has a line for each faction that had joined: its number, `mail`, `silent` or `gone`, and the name that it
joined under. `mail-F.txt` and `report-F.txt` are the mailing and the report of faction F, byte for byte. `world.toml`,
`seed` and `books.txt` are what their names say."""

from __future__ import annotations

import re
from dataclasses import dataclass
from enum import Enum
from pathlib import Path

from office.club.campaign import Faction
from office.errors import OfficeError

_MONTH = re.compile(r"[1-9][0-9]{0,3}")
_LINE = re.compile(r"([0-9]{1,4}) (mail|silent|gone) ([ -~]+)")


class Sent(Enum):
    """What a faction sent for the month. One that is gone can send nothing."""

    MAIL = "mail"
    SILENT = "silent"
    GONE = "gone"


@dataclass(frozen=True)
class Listed:
    """A line of factions.txt."""

    number: int
    sent: Sent
    name: str

    @property
    def line(self) -> str:
        return f"{self.number} {self.sent.value} {self.name}\n"


def list_faction(faction: Faction) -> Listed:
    if faction.gone:
        return Listed(faction.number, Sent.GONE, faction.joined_as)
    return Listed(faction.number, Sent.SILENT if faction.mailing is None else Sent.MAIL, faction.joined_as)


@dataclass(frozen=True)
class MonthFolder:
    """The paths of a month's folder."""

    root: Path

    @property
    def factions(self) -> Path:
        return self.root / "factions.txt"

    @property
    def world(self) -> Path:
        return self.root / "world.toml"

    @property
    def seed(self) -> Path:
        return self.root / "seed"

    @property
    def books(self) -> Path:
        return self.root / "books.txt"

    def mail(self, faction: int) -> Path:
        return self.root / f"mail-{faction}.txt"

    def report(self, faction: int) -> Path:
        return self.root / f"report-{faction}.txt"

    def mails_and_reports(self) -> list[Path]:
        """Those that are there, whatever factions.txt says."""
        return sorted([*self.root.glob("mail-*.txt"), *self.root.glob("report-*.txt")])

    def read_factions(self) -> list[Listed]:
        """OfficeError where the list is missing, a line has another form, or the numbers don't count from 1."""
        lines = read_bytes(self.factions).decode("latin-1").split("\n")
        if lines[-1] == "":
            lines.pop()
        return [self._listed(number, line) for number, line in enumerate(lines, 1)]

    def _listed(self, number: int, line: str) -> Listed:
        found = _LINE.fullmatch(line)
        if not found:
            raise OfficeError(f"{self.factions}: line {number} isn't a number, `mail`, `silent` or `gone`, and a name")
        if found[1] != str(number):
            raise OfficeError(f"{self.factions}: line {number} has faction {found[1]}")
        return Listed(number, Sent(found[2]), found[3])


def read_bytes(path: Path) -> bytes:
    """OfficeError where the file is missing or can't be read."""
    if not path.is_file():
        raise OfficeError(f"{path} is missing")
    try:
        return path.read_bytes()
    except OSError as error:
        raise OfficeError(f"{path} can't be read: {error.strerror}") from None


def months_in(folder: Path) -> list[int]:
    """The months that have an entry in the folder, in their order."""
    if not folder.is_dir():
        return []
    return sorted(int(entry.name) for entry in folder.iterdir() if _MONTH.fullmatch(entry.name))


def explain(error: OfficeError | OSError) -> str:
    """What went wrong, as a part of a sentence."""
    if isinstance(error, OfficeError):
        return error.text
    where = f" ({error.filename})" if error.filename else ""
    return f"{error.strerror or error}{where}"
