"""Closes a month, and keeps what it was closed with.

Two things stay. `before-M.db` is the copy to go back to; it has all pass texts. The folder `months/M` has what a replay
needs (office/closing/folder.py). The month is closed in a copy first, and all of this is written and on the disk before
it is closed in club.db. So a failure changes nothing, and a closing that was stopped on its way is called again."""

from __future__ import annotations

import filecmp
import os
import re
from collections.abc import Callable, Iterator
from contextlib import contextmanager, suppress
from datetime import datetime, timedelta
from pathlib import Path

from office.closing.folder import MonthFolder, explain, list_faction, read_bytes
from office.club.campaign import Campaign, Faction, read_campaign
from office.club.club import Club, parse_seed, seed_checksum
from office.club.deadline import Closings, in_words, open_deadline
from office.club.files import (PRIVATE_FILE, copy_file, effect, make_folder, move_file, remove_file, remove_folder,
                               sync_file, sync_folder)
from office.club.program import Fault, Refusal
from office.errors import OfficeError

Say = Callable[[str], None]

SECOND_CALL = timedelta(days=1)
MOST_NAMED = 20
# what the program keeps beside a campaign's file
LOGS = ("-wal", "-shm", "-journal")


def unfinished(club: Club) -> int | None:
    """The month that is closed in club.db, but whose folder wasn't finished. `close_month` finishes it."""
    if not any(club.places.months.glob("*.part")):
        return None
    with club.with_campaign() as campaign:
        return _unfinished_month(club, campaign)


def questions(club: Club, campaign: Campaign, month: int | None, held: int, now: datetime) -> list[str]:
    """What to ask before month `month` is closed (None: it wasn't said), each a sentence. `held` is how many messages
    wait for the moderator. After a yes the caller hands the month's number to `close_month`. A closing that was stopped
    raises no question, since it is only finished."""
    if _unfinished_month(club, campaign) is not None:
        return []
    return [*_ask_about_deadline(club, campaign, now), *_ask_about_mail(campaign, month, held),
            *_ask_about_seed(club, campaign), *_ask_about_pass_texts(club, campaign),
            *_ask_about_world(club, campaign), *_ask_about_haste(club, campaign, month, now)]


def close_month(club: Club, month: int | None, say: Say) -> int:
    """Closes the next month and gives its number; or finishes the folder of a month that was closed before. OfficeError
    says whether the month is closed. Without `month` nothing is closed where nobody sent mail."""
    with club.with_campaign() as campaign:
        left = _unfinished_month(club, campaign)
        if left is not None:
            say(f"month {left} is closed already, and its folder was not finished")
            with _undecided(left):
                _finish(club, left, say)
            return left
        _check_month(club, campaign, month)
        _close(club, campaign, say)
        return campaign.open_month


def _unfinished_month(club: Club, campaign: Campaign) -> int | None:
    return campaign.month if club.places.unfinished_month(campaign.month).exists() else None


def _check_month(club: Club, campaign: Campaign, month: int | None) -> None:
    opened = campaign.open_month
    if month not in (None, opened):
        raise OfficeError(f"month {month} is not the next one, which is {opened}")
    if club.places.month(opened).exists():
        raise OfficeError(f"months/{opened} is there, so month {opened} was closed before. If you went back to a copy, "
                          "move this folder and the later ones away")
    if month is None and all(faction.mailing is None for faction in campaign.factions):
        raise OfficeError(f"nobody sent mail for month {opened}. To close it all the same, say its number: "
                          f"close {opened}")


def _close(club: Club, campaign: Campaign, say: Say) -> None:
    month = campaign.open_month
    with _unchanged(club, month):
        seed, pass_text = club.seed(), club.pass_text()
        _copy_campaign(club, month)
        part = MonthFolder(club.places.unfinished_month(month))
        remove_folder(part.root)
        make_folder(part.root)
        _keep(part, campaign, seed)
        for faction in campaign.active:
            if faction.mailing is None:
                say(f"no mail from {faction.number} {faction.name}")
        _rehearse(club, part, month, seed, pass_text)
        _sync(part.root)
    with _undecided(month):
        club.program.close(month, pass_text, seed)
        say(f"month {month} closed")
        _finish(club, month, say)


@contextmanager
def _unchanged(club: Club, month: int) -> Iterator[None]:
    """A failure in here leaves club.db as it was, and no folder."""
    try:
        yield
    except (OfficeError, OSError) as error:
        with suppress(OSError):
            remove_folder(club.places.unfinished_month(month))
        raise OfficeError(f"month {month} is not closed, and club.db is as it was: {explain(error)}") from None


@contextmanager
def _undecided(month: int) -> Iterator[None]:
    """A failure in here may come before or after the closing."""
    try:
        yield
    except (Refusal, Fault, OSError) as error:
        raise OfficeError(f"months/{month}.part is not finished: {explain(error)}. Call the same command again: it "
                          "sees whether the month is closed") from None


def _copy_campaign(club: Club, month: int) -> None:
    """before-M.db. Another file of this name, as one that was made by hand, gets a number as `mv --backup` gives it."""
    copy = club.places.copy_before(month)
    if copy.exists() and filecmp.cmp(copy, club.places.campaign, shallow=False):
        return
    if copy.exists():
        move_file(copy, numbered(copy))
    copy_file(club.places.campaign, copy)


def numbered(path: Path) -> Path:
    """The first name of the form NAME.~N~ above all that are taken."""
    names = [re.fullmatch(re.escape(path.name) + r"\.~(\d+)~", entry.name) for entry in path.parent.iterdir()]
    last = max((int(found[1]) for found in names if found), default=0)
    return path.with_name(f"{path.name}.~{last + 1}~")


def put(path: Path, data: bytes) -> None:
    """Writes a file of a folder that counts only once it is whole. It isn't on the disk yet."""
    with effect():
        handle = os.open(path, os.O_WRONLY | os.O_CREAT | os.O_TRUNC, PRIVATE_FILE)
        with os.fdopen(handle, "wb") as file:
            file.write(data)


def _keep(part: MonthFolder, campaign: Campaign, seed: str) -> None:
    put(part.seed, f"{seed}\n".encode())
    put(part.world, campaign.world.encode())
    for faction in campaign.factions:
        if faction.mailing is not None:
            put(part.mail(faction.number), faction.mailing)
    put(part.factions, "".join(list_faction(faction).line for faction in campaign.factions).encode())


def _rehearse(club: Club, part: MonthFolder, month: int, seed: str, pass_text: str) -> None:
    """Closes the month in a copy, and writes what comes of it."""
    closed = part.root / "closed.db"
    copy_file(club.places.copy_before(month), closed)
    program = club.program.on(str(closed.relative_to(club.places.root)))
    program.close(month, pass_text, seed)
    put(part.books, program.books().encode())
    for faction in read_campaign(closed).factions:
        put(part.report(faction.number), faction.report.encode())
    for path in (closed, *logs_of(closed)):
        remove_file(path)


def logs_of(campaign: Path) -> list[Path]:
    return [campaign.with_name(campaign.name + log) for log in LOGS]


def _sync(part: Path) -> None:
    """All is on the disk before the mail is taken out of the campaign."""
    with effect():
        for path in part.iterdir():
            sync_file(path)
        for folder in (part, part.parent, part.parent.parent):
            sync_folder(folder)


def _finish(club: Club, month: int, say: Say) -> None:
    """Gives the folder of the month that was closed last its final name."""
    part = MonthFolder(club.places.unfinished_month(month))
    if not _has_reports(part, club.look()):
        raise OfficeError(f"month {month} was closed with other mail, or another seed, than months/{month}.part has. "
                          "Move that folder away")
    move_file(part.root, club.places.month(month))
    say(f"months/{month} has the reports to send, and before-{month}.db is the copy to go back to")


def _has_reports(part: MonthFolder, campaign: Campaign) -> bool:
    """Whether the folder is whole, and has the campaign's reports. Who joined after the closing is not in it."""
    try:
        listed = part.read_factions()
        read_bytes(part.books)
        return len(listed) <= len(campaign.factions) and all(
            read_bytes(part.report(faction.number)) == faction.report.encode()
            for faction in campaign.factions[:len(listed)])
    except OfficeError:
        return False


def _ask_about_deadline(club: Club, campaign: Campaign, now: datetime) -> list[str]:
    deadline = open_deadline(club, campaign.month)
    if deadline is None or now >= deadline:
        return []
    return [f"Players may mail their orders for month {campaign.open_month} until {in_words(deadline)}."]


def _ask_about_mail(campaign: Campaign, month: int | None, held: int) -> list[str]:
    opened, active = campaign.open_month, campaign.active
    silent = [faction for faction in active if faction.mailing is None]
    asked = []
    if held == 1:
        asked.append("1 message is held, and counts only if you accept it before you close (`kiwirudder status` shows "
                     "it).")
    elif held:
        asked.append(f"{held} messages are held, and count only if you accept them before you close "
                     "(`kiwirudder status` shows them).")
    if month is None and len(silent) == len(active):
        asked.append(f"Nobody sent mail for month {opened}.")
    elif 2 * len(silent) > len(active):
        asked.append(f"{len(silent)} of {len(active)} factions sent no mailing for month {opened}: {_numbers(silent)}.")
    return asked


def _numbers(factions: list[Faction]) -> str:
    named = ", ".join(str(faction.number) for faction in factions[:MOST_NAMED])
    return named if len(factions) <= MOST_NAMED else f"{named} and {len(factions) - MOST_NAMED} more"


def _ask_about_seed(club: Club, campaign: Campaign) -> list[str]:
    seed, last, asked = club.seed(), campaign.month, []
    checksum = read_checksum(club.places.seed_checksum)
    if checksum is not None and seed_checksum(seed) != checksum:
        asked.append("The file seed isn't the seed whose checksum was published at the founding (seed.sha256).")
    kept = MonthFolder(club.places.month(last)).seed
    if kept.is_file() and parse_seed(read_bytes(kept).decode("latin-1"), str(kept)) != seed:
        asked.append(f"The file seed has another number than the one with which month {last} was closed "
                     f"(months/{last}/seed).")
    return asked


def read_checksum(path: Path) -> str | None:
    """The checksum in the file's first word, as `sha256sum` writes it; None where there is no file."""
    if not path.exists():
        return None
    words = read_bytes(path).decode("latin-1").split()
    if words and re.fullmatch(r"[0-9a-fA-F]{64}", words[0]):
        return words[0].lower()
    raise OfficeError(f"{path} must begin with the 64 digits of a SHA-256")


def _ask_about_pass_texts(club: Club, campaign: Campaign) -> list[str]:
    """By the campaign, and by the copy from before the last closing, where it is there and can be read."""
    last, asked = campaign.month, []
    if club.pass_text() != campaign.pass_text:
        asked.append("The file pass isn't the campaign's pass text, so the program will refuse to close month "
                     f"{last + 1}. `kiwirudder set-pass 0` makes a new one for both.")
    try:
        before = read_campaign(club.places.copy_before(last))
    except OfficeError:
        return asked
    if before.pass_text != campaign.pass_text:
        asked.append(f"Your pass text is another than when month {last} was closed.")
    changed = [new for old, new in zip(before.factions, campaign.factions) if old.pass_text != new.pass_text]
    if len(changed) > 1 and len({faction.pass_text for faction in changed}) == 1:
        asked.append(f"Factions {_numbers(changed)} have one pass text, which they didn't have when month {last} was "
                     "closed.")
    return asked


def _ask_about_world(club: Club, campaign: Campaign) -> list[str]:
    last = campaign.month
    kept = MonthFolder(club.places.month(last)).world
    if not kept.is_file() or read_bytes(kept) == campaign.world.encode():
        return []
    return [f"The world in club.db is another than the one with which month {last} was closed "
            f"(months/{last}/world.toml)."]


def _ask_about_haste(club: Club, campaign: Campaign, month: int | None, now: datetime) -> list[str]:
    closed = _closed_at(club, campaign.month)
    if month is not None or closed is None or now - closed >= SECOND_CALL:
        return []
    return [f"Month {campaign.month} was closed on {closed:%Y-%m-%d at %H:%M}, less than a day ago, and now it is "
            f"month {campaign.open_month}. (`kiwirudder close {campaign.open_month}` doesn't ask this.)"]


def _closed_at(club: Club, month: int) -> datetime | None:
    """As the office noted it, or else by the time of the month's last file. None for the founding."""
    books = MonthFolder(club.places.month(month)).books
    if not books.is_file():
        return None
    return Closings(club).when(month) or datetime.fromtimestamp(books.stat().st_mtime).astimezone()
