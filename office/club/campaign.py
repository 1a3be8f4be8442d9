"""The campaign as the office reads it: a look into the database, which is closed again at once, since the program can't
use a file that somebody else has open."""

from __future__ import annotations

import sqlite3
from contextlib import closing
from dataclasses import dataclass
from pathlib import Path

from office.club.files import effect, read_json, write_json
from office.club.places import Places
from office.errors import OfficeError


@dataclass(frozen=True)
class Faction:
    """A faction's row. `mailing` is what it sent for the open month, None where it sent nothing."""

    number: int
    joined_as: str
    name: str
    pass_text: str
    gone: bool
    mailing: bytes | None
    report: str


@dataclass(frozen=True)
class Campaign:
    """`month` is the month last closed."""

    month: int
    pass_text: str
    world: str
    factions: tuple[Faction, ...]

    def faction(self, number: int) -> Faction:
        """OfficeError where no faction has the number."""
        if 1 <= number <= len(self.factions):
            return self.factions[number - 1]
        raise OfficeError(f"no faction has the number {number}")

    @property
    def active(self) -> list[Faction]:
        """The factions that aren't gone."""
        return [faction for faction in self.factions if not faction.gone]

    @property
    def open_month(self) -> int:
        return self.month + 1


_FACTIONS = """SELECT number, joined_as, name, pass, gone, mail.text, report.text FROM faction
  LEFT JOIN mail ON mail.faction = number LEFT JOIN report ON report.faction = number ORDER BY number"""


def _open(path: Path) -> sqlite3.Connection:
    if not path.is_file():
        raise OfficeError(f"there is no {path.name} here: go to the club's folder, or name it by --club; "
                          "`kiwirudder init` makes one")
    return sqlite3.connect(path, timeout=0)


def read_campaign(path: Path) -> Campaign:
    """OfficeError where the file is no campaign, or another program uses it."""
    try:
        with closing(_open(path)) as database:
            month, pass_text, world = database.execute("SELECT month, pass, world FROM campaign").fetchone()
            rows = database.execute(_FACTIONS).fetchall()
    except (sqlite3.Error, TypeError) as error:
        raise OfficeError(f"{path.name} can't be read: {error}. See whether the disk is full, or another program uses "
                          "the file, and call it again") from None
    return Campaign(month, pass_text, world, tuple(
        Faction(number, joined_as, name, secret, bool(gone), None if text is None else bytes(text), report or "")
        for number, joined_as, name, secret, gone, text, report in rows))


def write_snapshot(places: Places, campaign: Campaign) -> None:
    """Notes what `take` has to know of the campaign while `serve` has the file."""
    value = {"month": campaign.month, "factions": [
        {"number": each.number, "joined_as": each.joined_as, "name": each.name, "pass_text": each.pass_text,
         "gone": each.gone} for each in campaign.factions]}
    path = places.record("campaign")
    if read_json(path, None) != value:
        write_json(path, value)


def read_snapshot(places: Places) -> Campaign | None:
    """The campaign as it was noted last, without mailings, reports and the world; None where it wasn't noted."""
    value = read_json(places.record("campaign"), None)
    if value is None:
        return None
    return Campaign(value["month"], "", "", tuple(
        Faction(each["number"], each["joined_as"], each["name"], each["pass_text"], each["gone"], None, "")
        for each in value["factions"]))


def set_pass_text(path: Path, faction: int, pass_text: str) -> None:
    """Changes the pass text of one faction; that of the moderator where `faction` is 0. Exactly one row changes, or none
    and OfficeError."""
    with effect(), closing(_open(path)) as database:
        try:
            if faction:
                done = database.execute("UPDATE faction SET pass = ? WHERE number = ?", (pass_text, faction))
            else:
                done = database.execute("UPDATE campaign SET pass = ?", (pass_text,))
            if done.rowcount != 1:
                raise OfficeError(f"no faction has the number {faction}")
            database.commit()
        except sqlite3.Error as error:
            raise OfficeError(f"{path.name} can't be written: {error}") from None
