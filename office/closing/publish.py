"""What outsiders need to play the months again, without what is private.

Of a mailing all lines outside `#ATLANTIS` to `#END` become empty, so that the numbers of the lines stay, and the header
keeps its number alone. Pass texts in comments, and in lines that the program can't read, become `...`. The result is
played again before it gets its name."""

from __future__ import annotations

import os
import re
import shutil
from collections.abc import Callable
from pathlib import Path

from office.closing.check import try_mailing
from office.closing.folder import MonthFolder, Sent, explain, months_in, read_bytes
from office.closing.lines import find_end, find_header, split_lines
from office.closing.month import put
from office.closing.replay import replay
from office.club.campaign import read_campaign
from office.club.club import Club
from office.club.files import effect, make_folder, remove_folder, sync_file, sync_folder
from office.club.program import Fault, Refusal
from office.errors import OfficeError
from office.orders.words import comment_of, words_of

Say = Callable[[str], None]

HIDDEN = "..."
_FAULT = re.compile(r"line (\d+): ")


def publish(club: Club, target: Path, through: int | None, say: Say, with_seed: bool = False) -> Path:
    """Makes the folder `target` with the months up to `through`, or all, and the published checksum of the seed. It
    must not be there yet. OfficeError where the months don't come out again, or `target` is taken; then nothing is
    left. Without `with_seed` the seed is left out, and outsiders can't play the months again until it is published."""
    root = club.places.root.resolve()
    if target.exists() and (not target.is_dir() or any(target.iterdir())):
        raise OfficeError(f"{target} is there: name a folder that isn't, so that nothing is overwritten")
    if root == target.resolve() or root in target.resolve().parents:
        raise OfficeError("name a folder outside the club's folder, which is private")
    with club.with_campaign() as campaign:
        last = campaign.month if through is None else through
        if not 1 <= last <= campaign.month:
            raise OfficeError(f"there are months from 1 to {campaign.month}")
        secrets = _pass_texts(club)
    try:
        _remove_parts(target)
        _write(club, target, last, secrets, with_seed, say)
    except OSError as error:
        raise OfficeError(f"nothing is published: {explain(error)}") from None
    if not with_seed:
        say("the seed is left out, so outsiders can't play the months again yet. When the campaign is over, publish "
            "again with the seed")
    return target


def _pass_texts(club: Club) -> re.Pattern[str]:
    """All that anybody has, or had when a month was closed."""
    found: set[str] = set()
    for file in (club.places.campaign, *sorted(club.places.root.glob("before-*.db"))):
        try:
            campaign = read_campaign(file)
        except OfficeError:
            continue
        found |= {campaign.pass_text, *(faction.pass_text for faction in campaign.factions)}
    return any_of(found)


def any_of(pass_texts: set[str]) -> re.Pattern[str]:
    """Finds each of the texts where it is a word by itself, in whatever capitals. There is at least one text."""
    texts = "|".join(re.escape(text) for text in sorted(pass_texts, key=len, reverse=True))
    return re.compile(f"(?<![A-Za-z0-9])(?:{texts})(?![A-Za-z0-9])", re.IGNORECASE)


def _write(club: Club, target: Path, last: int, secrets: re.Pattern[str], with_seed: bool, say: Say) -> None:
    make_folder(target.parent)
    part = target.with_name(f".{target.name}.{os.getpid()}.part")
    try:
        months = part / "months"
        for month in range(1, last + 1):
            _write_month(MonthFolder(club.places.month(month)), MonthFolder(months / str(month)), secrets, say)
        say(replay(months, None, None, say))
        if not with_seed:
            for month in months_in(months):
                MonthFolder(months / str(month)).seed.unlink()
        if club.places.seed_checksum.is_file():
            put(part / "seed.sha256", read_bytes(club.places.seed_checksum))
        _sync(part)
        with effect():
            os.replace(part, target)
            sync_folder(target.parent)
    except BaseException:
        shutil.rmtree(part, ignore_errors=True)
        raise


def _write_month(source: MonthFolder, target: MonthFolder, secrets: re.Pattern[str], say: Say) -> None:
    make_folder(target.root)
    for name in ("factions", "world", "seed", "books"):
        put(getattr(target, name), read_bytes(getattr(source, name)))
    for listed in source.read_factions():
        put(target.report(listed.number), read_bytes(source.report(listed.number)))
        if listed.sent is Sent.MAIL:
            where = f"month {source.root.name}, faction {listed.number}"
            put(target.mail(listed.number), _clean(source, listed.number, secrets, where, say))


def _clean(source: MonthFolder, number: int, secrets: re.Pattern[str], where: str, say: Say) -> bytes:
    """The mailing without what is private. What may be a pass text in an order that counts is said, and stays."""
    text = read_bytes(source.mail(number))
    cleaned = without_letters(text, secrets)
    suspects = [at for at, line in enumerate(split_lines(cleaned), 1) if secrets.search(line)]
    if not suspects:
        return cleaned
    faulty = _faulty_lines(source.world, text)
    lines = cleaned.split(b"\n")
    for at in suspects:
        if at in faulty:
            lines[at - 1] = secrets.sub(HIDDEN, lines[at - 1].decode("latin-1")).encode("latin-1")
        else:
            say(f"{where}, line {at}: an order has a word that is a pass text too. It stays, since it counts")
    return b"\n".join(lines)


def without_letters(text: bytes, secrets: re.Pattern[str]) -> bytes:
    """Only the block, at the same lines: a bare header, and orders without comments that have one of `secrets`."""
    lines = split_lines(text)
    header = find_header(lines)
    if header is None:
        return text
    end = find_end(lines, header)
    kept = [""] * len(lines)
    kept[header] = " ".join(word.text for word in words_of(lines[header])[:2])
    kept[header + 1:end] = [_without_secret_comment(line, secrets) for line in lines[header + 1:end]]
    if end < len(lines):
        kept[end] = words_of(lines[end])[0].text
    return "\n".join(kept[:end + 1] + [""] * (end < len(lines))).encode("latin-1")


def _without_secret_comment(line: str, secrets: re.Pattern[str]) -> str:
    """A comment with a sign that isn't allowed stays a fault without its text."""
    comment = comment_of(line)
    if comment is None or not secrets.search(comment):
        return line
    sign = "" if all(" " <= letter <= "~" or letter == "\t" for letter in comment) else "\xff"
    return line[:len(line) - len(comment)] + HIDDEN + sign


def _faulty_lines(world: Path, text: bytes) -> set[int]:
    try:
        return {int(found[1]) for line in try_mailing(world, text) if (found := _FAULT.match(line))}
    except (Refusal, Fault):
        return set()


def _sync(part: Path) -> None:
    with effect():
        for path in part.rglob("*"):
            if path.is_dir():
                sync_folder(path)
            else:
                sync_file(path)
        sync_folder(part)


def _remove_parts(target: Path) -> None:
    """What calls that were killed left beside the target. Those of a process that runs stay."""
    pattern = re.compile(r"\." + re.escape(target.name) + r"\.(\d+)\.part")
    for path in target.parent.glob(".*.part"):
        found = pattern.fullmatch(path.name)
        if found and not Path("/proc", found[1]).exists():
            remove_folder(path)
