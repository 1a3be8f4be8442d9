"""Commands on the club and its players: init, join, set-pass, address, substitute."""

from __future__ import annotations

import argparse
from pathlib import Path

from office import texts
from office.club import founding, players
from office.club.campaign import set_pass_text
from office.club.club import Club
from office.commands.common import DONE, Command, club_of, faction_option, say
from office.errors import OfficeError
from office.mail.letters import Letter, post


def _init_options(parser: argparse.ArgumentParser) -> None:
    parser.add_argument("folder", type=Path, help="the club's folder. It is made, or has a campaign with the files club.db, pass "
                        "and seed")
    parser.add_argument("--world", type=Path, help="the world file; a campaign that is in the folder keeps its own")
    parser.add_argument("--name", default="The club", help="the club's name, as letters have it")
    parser.add_argument("--moderator", required=True, metavar="ADDRESS", help="your address, from which letters come")
    parser.add_argument("--apart", type=int, default=0, metavar="N", help="the first N factions begin in different regions")
    parser.add_argument("--seed", help="a seed of your own; without it one is drawn at random")


def _init(words: argparse.Namespace) -> int:
    club = Club(words.folder.resolve())
    checksum = founding.found_club(club.places.root, words.world and words.world.resolve(), words.name, words.moderator, words.apart,
                                   words.seed, club.now())
    say("the club's folder is ready. Set the deadline and the mail servers in its file club.toml")
    say("Publish the checksum of the seed. It binds you to this seed, which stays secret until the campaign is over:")
    say(checksum)
    return DONE


def _join_options(parser: argparse.ArgumentParser) -> None:
    parser.add_argument("name", help="the faction's name")
    parser.add_argument("address", help="the player's e-mail address")


def handbook() -> list[Path]:
    """The pages that go to a player who joins."""
    docs = Path(__file__).resolve().parents[2] / "docs"
    return [docs / "QUICKSTART.md", docs / "PLAYER.md"]


def _join(words: argparse.Namespace) -> int:
    club = club_of(words)
    with club.locked():
        founding.join_faction(club, words.name, words.address, handbook(), club.now(), say)
    return DONE


def _set_pass_options(parser: argparse.ArgumentParser) -> None:
    faction_option(parser)
    parser.add_argument("--moderator", action="store_true", help="your own pass text; write 0 for the faction")


def _set_pass(words: argparse.Namespace) -> int:
    club = club_of(words)
    with club.locked(), club.with_campaign() as campaign:
        secret = founding.make_pass_text()
        if words.moderator or words.faction == 0:
            founding.set_own_pass_text(club, secret)
            say("your pass text is changed, and is in the file pass")
            return DONE
        campaign.faction(words.faction)
        set_pass_text(club.places.campaign, words.faction, secret)
        club.look()
        player = club.players.get(words.faction)
        name = f"pass-{words.faction}-{club.now():%Y%m%d%H%M%S}"
        if player and post(club, Letter(name, player.addresses[:1], f"Faction {words.faction}: a new pass text",
                                        texts.new_pass_text(words.faction, secret)), club.now()):
            say(f"faction {words.faction} has a new pass text; the letter is out/{name}.eml")
        else:
            say(f"faction {words.faction} has the new pass text {secret}")
        club.log(f"new pass text for faction {words.faction}")
    return DONE


def _address_options(parser: argparse.ArgumentParser) -> None:
    faction_option(parser)
    parser.add_argument("addresses", nargs="+", metavar="address", help="the player's addresses; letters go to the first")


def _address(words: argparse.Namespace) -> int:
    club = club_of(words)
    addresses = tuple(players.check_address(address) for address in words.addresses)
    with club.locked(), club.with_campaign() as campaign:
        campaign.faction(words.faction)
        known = players.with_addresses(club.players, words.faction, addresses)
        players.write_players(club.places.players, known)
        club.log(f"addresses of faction {words.faction}: {' '.join(addresses)}")
    say(f"faction {words.faction}: {' '.join(addresses)}")
    return DONE


def _substitute_options(parser: argparse.ArgumentParser) -> None:
    faction_option(parser)
    parser.add_argument("address", help="who plays in the player's place; 'none' ends it")
    parser.add_argument("until", type=int, nargs="?", default=0, help="the last month for which they do")


def _substitute(words: argparse.Namespace) -> int:
    club = club_of(words)
    with club.locked(), club.with_campaign() as campaign:
        campaign.faction(words.faction)
        known = club.players
        player = known.get(words.faction, players.Player(words.faction, ()))
        if words.address == "none":
            player = players.Player(player.faction, player.addresses)
        elif words.until < campaign.open_month:
            raise OfficeError(f"say the last month, which is {campaign.open_month} or later")
        else:
            player = players.Player(player.faction, player.addresses, players.check_address(words.address), words.until)
        players.write_players(club.places.players, {**known, words.faction: player})
        club.log(f"substitute of faction {words.faction}: {words.address} until {words.until}")
    say(f"faction {words.faction}: {words.address}" + (f" until month {words.until}" if words.until else ""))
    return DONE


COMMANDS = (
    Command("init", "make a club: its folder, its seed and its campaign", _init_options, _init),
    Command("join", "let a faction join, and write the player's first letter", _join_options, _join),
    Command("set-pass", "give a faction a new pass text", _set_pass_options, _set_pass),
    Command("address", "set the addresses of a faction's player", _address_options, _address),
    Command("substitute", "let somebody else play for a faction for some months", _substitute_options, _substitute),
)
