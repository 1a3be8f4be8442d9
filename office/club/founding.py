"""A club begins: its folder, its seed with the checksum to publish, its campaign; and factions join."""

from __future__ import annotations

import json
import secrets
import tomllib
from collections.abc import Callable
from datetime import datetime
from pathlib import Path

from office import texts
from office.club.campaign import Campaign, Faction, read_campaign, set_pass_text
from office.club.club import Club, parse_seed, seed_checksum
from office.club.deadline import Closings
from office.club.dice import random_seed, seed_with_factions_apart
from office.club.files import make_folder, write_file
from office.club.players import HEAD, Player, check_address, read_players, write_players
from office.club.program import Fault, Program
from office.club.settings import TEMPLATE
from office.errors import OfficeError
from office.mail.letters import Letter, post

LETTERS_OF_A_PASS_TEXT = "abcdefghjkmnpqrstuvwxyz23456789"  # none that is easily taken for another
LENGTH_OF_A_PASS_TEXT = 12
WORLD = "world.toml"


def make_pass_text() -> str:
    return "".join(secrets.choice(LETTERS_OF_A_PASS_TEXT) for _ in range(LENGTH_OF_A_PASS_TEXT))


def _land_regions(world: Path) -> int:
    """How many regions of the world file are land; 0 where it can't be read, which the program will say."""
    try:
        whole = tomllib.loads(world.read_text("utf-8"))
        land = {terrain["name"].lower() for terrain in whole["terrain"] if terrain["land"]}
        return sum(1 for region in whole["region"] if region["terrain"].lower() in land)
    except (OSError, ValueError, KeyError, TypeError, AttributeError):
        return 0


def _choose_seed(world: Path, apart: int) -> str:
    land = _land_regions(world)
    if not apart:
        return str(random_seed())
    if apart > land:
        raise OfficeError(f"{apart} factions can't begin apart: the world has {land} regions of land")
    seed = seed_with_factions_apart(apart, land)
    if seed is None:
        raise OfficeError(f"no seed was found with which {apart} factions begin apart in {land} regions of land: "
                          "name a smaller number")
    return str(seed)


def _write_once(path: Path, text: bytes) -> None:
    """What is there stays: the moderator, or a call that was stopped, wrote it."""
    if not path.exists():
        write_file(path, text)


def found_club(folder: Path, world: Path | None, name: str, moderator: str, apart: int, seed: str | None,
               now: datetime) -> str:
    """Makes the club, and returns the checksum of its seed. A campaign that is in the folder stays, with its pass text, its
    seed and its world. A call that was stopped is called again, with the same words. OfficeError where the folder is a
    club, or its files aren't those of its campaign."""
    check_address(moderator)
    club = Club(folder)
    campaign = _check_folder(club, world, seed)
    _make_files(club, name, moderator)
    text = campaign.world.encode() if campaign else world.read_bytes() if world else b""
    _write_once(club.places.root / WORLD, text)
    with club.locked():
        if campaign is None:
            _found_campaign(club, folder)
        # It comes last, so that a world with a fault has no seed yet.
        if not club.places.seed.exists():
            number = parse_seed(seed, "--seed") if seed else _choose_seed(folder / WORLD, apart)
            write_file(club.places.seed, f"{number}\n".encode())
        return _note_founding(club, campaign.month if campaign else 0, now)


def _check_folder(club: Club, world: Path | None, seed: str | None) -> Campaign | None:
    """The campaign that is in the folder, if there is one. OfficeError where no club can be made there."""
    places = club.places
    if places.seed_checksum.exists() and Closings(club).times:
        raise OfficeError(f"{places.root} is a club already")
    if (places.state / "command.py").exists():
        raise OfficeError(f"{places.root} is the folder of the program: name another one for the club")
    campaign = _campaign_there(club)
    if campaign:
        _check_files(club, campaign, world, seed)
    elif world is None or not world.is_file():
        raise OfficeError(f"there is no world file {world}" if world else "name the world file by --world")
    return campaign


def _make_files(club: Club, name: str, moderator: str) -> None:
    """The folder, with its settings, its list of players and the moderator's pass text."""
    places = club.places
    make_folder(places.root)
    _write_once(places.settings, TEMPLATE.format(name=json.dumps(name), moderator=json.dumps(moderator)).encode())
    for each in places.folders():
        make_folder(each)
    _write_once(places.players, HEAD.encode())
    _write_once(places.pass_text, f"{make_pass_text()}\n".encode())


def _note_founding(club: Club, month: int, now: datetime) -> str:
    """Writes the checksum of the seed, and when the month that is closed last was closed."""
    checksum = seed_checksum(club.seed())
    write_file(club.places.seed_checksum, (checksum + "\n").encode())
    books = club.places.month(month) / "books.txt"
    Closings(club).note(month, datetime.fromtimestamp(books.stat().st_mtime).astimezone() if books.is_file() else now)
    club.log(f"founded, seed checksum {checksum}")
    return checksum


def _campaign_there(club: Club) -> Campaign | None:
    """The campaign that is in the folder; None where there is none, as after a founding that failed."""
    path = club.places.campaign
    if not path.is_file():
        return None
    try:
        club.program.books()
    except Fault as fault:
        if fault.line == "fault: NotACampaign":
            return None
        raise
    return read_campaign(path)


def _check_files(club: Club, campaign: Campaign, world: Path | None, seed: str | None) -> None:
    """OfficeError where the folder's pass text, seed or world isn't the one of its campaign."""
    places = club.places
    is_used = bool(campaign.month or campaign.factions)
    for path, what, is_needed in ((places.pass_text, "your pass text", True), (places.seed, "the seed", is_used)):
        if is_needed and not path.exists():
            raise OfficeError(f"the folder has a campaign, and no file {path.name}: write {what} of this campaign into it")
    if club.pass_text() != campaign.pass_text:
        raise OfficeError("the file pass has another pass text than the campaign: write yours into it")
    if places.seed.exists():
        _check_own_seed(club, campaign.month, seed)
    if world and world.read_bytes() != campaign.world.encode():
        raise OfficeError(f"the folder has a campaign with another world than {world}: leave out --world")


def _check_own_seed(club: Club, month: int, seed: str | None) -> None:
    """`month` is the month last closed, `seed` what the command line names."""
    kept = club.places.month(month) / "seed"
    if kept.is_file() and parse_seed(kept.read_text("latin-1"), str(kept)) != club.seed():
        raise OfficeError(f"the file seed has another number than the one with which month {month} was closed ({kept}): "
                          "write the right one into it")
    if seed and seed != club.seed():
        raise OfficeError("the folder has a seed already: leave out --seed")


def _found_campaign(club: Club, folder: Path) -> None:
    program = Program(folder)
    try:
        program.found(folder / WORLD, club.pass_text())
    except Fault as fault:
        if fault.line != "fault: NotEmpty" and not fault.line.startswith("world:"):
            raise
        if fault.line.startswith("world:"):
            (folder / WORLD).unlink(missing_ok=True)
            raise


def check_seed(club: Club) -> str:
    """The seed, which must be the one whose checksum was published at the founding."""
    seed = club.seed()
    try:
        published = club.places.seed_checksum.read_text("ascii").strip()
    except FileNotFoundError:
        return seed
    if seed_checksum(seed) != published:
        raise OfficeError("the file seed has another seed than the one whose checksum was published (seed.sha256): "
                          "put the right seed back")
    return seed


def join_faction(club: Club, name: str, address: str, handbook: list[Path], now: datetime,
                 say: Callable[[str], None]) -> Faction:
    """The faction joins, its player is written down, and a letter with all that the player needs goes to out/. A call that
    was stopped is called again."""
    check_address(address)
    seed = check_seed(club)
    with club.with_campaign() as campaign:
        faction = next((known for known in campaign.factions if known.joined_as == name), None)
        players = read_players(club.places.players)
        if faction is None:
            number, _ = club.program.join(name, make_pass_text(), seed)
            campaign = club.look()
            faction = campaign.faction(number)
        elif faction.number in players and players[faction.number].addresses != (address,):
            raise OfficeError(f"faction {faction.number} has joined as {name!r} before")
        write_players(club.places.players, {**players, faction.number: Player(faction.number, (address,))})
        unit = _first_unit(faction)
        attached = [(path.name, path.read_text("utf-8")) for path in handbook if path.is_file()]
        attached.append(("world.toml", campaign.world))
        text = texts.welcome(club.settings.name, faction.number, unit, faction.name, faction.pass_text,
                             club.settings.moderator, faction.report)
        letter = Letter(f"welcome-{faction.number}", (address,),
                        f"{club.settings.name}: faction {faction.number} {faction.name!r}", text, "", tuple(attached))
        post(club, letter, now)
    club.log(f"faction {faction.number} joined")
    say(f"faction {faction.number}, unit {unit}; its letter is out/welcome-{faction.number}.eml")
    return faction


def _first_unit(faction: Faction) -> int:
    for line in faction.report.split("\n"):
        if line.startswith("* Unit "):
            return int(line.split()[2])
    return 0


def set_own_pass_text(club: Club, pass_text: str) -> None:
    """Changes the moderator's pass text, in the campaign and in the file pass. A call that was stopped is called again."""
    set_pass_text(club.places.campaign, 0, pass_text)
    write_file(club.places.pass_text, (pass_text + "\n").encode())
    club.look()
    club.log("new pass text of the moderator")
