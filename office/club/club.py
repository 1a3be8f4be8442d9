"""A club: its folder, its settings, its players and its campaign, as a command sees them."""

from __future__ import annotations

import hashlib
import os
import re
from collections.abc import Iterator
from contextlib import contextmanager
from datetime import datetime
from functools import cached_property
from pathlib import Path

from office.club.campaign import Campaign, read_campaign, write_snapshot
from office.club.files import clear_parts, clear_records, make_folder, read_json
from office.club.locks import campaign_lock, office_lock
from office.club.log import log
from office.club.places import Places
from office.club.players import Player, read_players
from office.club.program import Program
from office.club.settings import Settings, read_settings
from office.errors import OfficeError

MOST_SEED = 2**64 - 1


def seed_checksum(seed: str) -> str:
    """The SHA-256 of the seed's digits alone, in hex: `printf SEED | sha256sum` gives it too."""
    return hashlib.sha256(seed.encode()).hexdigest()


def parse_seed(text: str, where: str) -> str:
    """The seed's digits. OfficeError where the file has anything else but blanks and line ends around them."""
    digits = text.strip()
    if re.fullmatch(r"[0-9]+", digits) and int(digits) <= MOST_SEED:
        return digits
    raise OfficeError(f"{where} must have one number from 0 to {MOST_SEED:,}, and nothing else")


class Club:
    """A club's folder. Read it under `locked`, and use the campaign's file under `with_campaign`."""

    def __init__(self, root: Path) -> None:
        self.places = Places(root)
        self._has_campaign = False

    @cached_property
    def settings(self) -> Settings:
        return read_settings(self.places.settings)

    @property
    def players(self) -> dict[int, Player]:
        return read_players(self.places.players)

    @cached_property
    def program(self) -> Program:
        return Program(self.places.root)

    @contextmanager
    def locked(self, goes_back: bool = False) -> Iterator[None]:
        """Waits for other commands of the office on this club. OfficeError where a going back was stopped on its way,
        since the club is between two months then: only that command may go on, which says so by `goes_back`."""
        if not self.places.root.is_dir():
            raise OfficeError(f"there is no folder {self.places.root}")
        self.settings  # a folder that is no club is left as it is
        for folder in self.places.folders():
            make_folder(folder)
        with office_lock(self.places.office_lock):
            for folder in (self.places.root, self.places.out, *self.places.folders(), *self.places.taken_folders()):
                clear_parts(folder)
            clear_records(self.places.held)
            stopped = read_json(self.places.record("back"), None)
            if stopped and not goes_back:
                raise OfficeError(f"going back to before month {stopped['month']} was stopped on its way: call "
                                  f"`kiwirudder back {stopped['month']}` again first")
            yield

    @contextmanager
    def with_campaign(self) -> Iterator[Campaign]:
        """The campaign, with its file for this command alone. A running `serve` is paused. It may be called again within."""
        if self._has_campaign:
            yield self.look()
            return
        with campaign_lock(self.places.serve_lock):
            self._has_campaign = True
            try:
                yield self.look()
            finally:
                self._has_campaign = False

    def look(self) -> Campaign:
        """The campaign at this moment. It brings what a killed `serve` left in a log into the file before."""
        if self.places.campaign.exists():
            self.program.books()
        campaign = read_campaign(self.places.campaign)
        write_snapshot(self.places, campaign)
        return campaign

    def seed(self) -> str:
        return parse_seed(self._line(self.places.seed), "the file seed")

    def pass_text(self) -> str:
        return self._line(self.places.pass_text)

    def log(self, what: str) -> None:
        log(self.places.log, what)

    def now(self) -> datetime:
        """The time of this machine; a test sets another by KIWIRUDDER_NOW."""
        named = os.environ.get("KIWIRUDDER_NOW")
        return (datetime.fromisoformat(named) if named else datetime.now()).astimezone()

    @staticmethod
    def _line(path: Path) -> str:
        try:
            return path.read_text("utf-8").strip("\r\n")
        except FileNotFoundError:
            raise OfficeError(f"there is no file {path.name} in the club's folder") from None
        except (OSError, UnicodeDecodeError) as error:
            raise OfficeError(f"the file {path.name} can't be read: {error}") from None
