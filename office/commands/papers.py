"""Commands on the club's papers: chronicle, map, handout, page-world."""

from __future__ import annotations

import argparse
from pathlib import Path

from office.commands.common import DONE, Command, club_of, say
from office.errors import OfficeError
from office.papers import command as papers
from office.papers.months import month_numbers


def _month_options(parser: argparse.ArgumentParser) -> None:
    parser.add_argument("month", type=int, nargs="?", help="the month; the last one where none is said")
    parser.add_argument("--out", type=Path, metavar="FILE", help="the file to write")


def _last_month(months: Path) -> int:
    numbers = month_numbers(months)
    if not numbers:
        raise OfficeError("no month is closed, so there is nothing to tell")
    return numbers[-1]


def _chronicle_options(parser: argparse.ArgumentParser) -> None:
    _month_options(parser)
    parser.add_argument("--open", action="store_true", help="show also what each faction has, as papers.open of club.toml does")


def _chronicle(words: argparse.Namespace) -> int:
    club = club_of(words)
    month = words.month or _last_month(club.places.months)
    out = words.out or club.places.root / f"chronicle-{month}.html"
    public = not (words.open or club.settings.papers_open)
    papers.chronicle(club.places.root, month, public, out, club.settings.name)
    say(str(out))
    return DONE


def _map(words: argparse.Namespace) -> int:
    club = club_of(words)
    month = words.month or _last_month(club.places.months)
    out = words.out or club.places.root / f"map-{month}.html"
    with club.locked(), club.with_campaign():
        papers.map(club.places.root, month, out)
    say(str(out))
    return DONE


def _handout_options(parser: argparse.ArgumentParser) -> None:
    parser.add_argument("--out", type=Path, metavar="FILE", help="the file to write")
    parser.add_argument("--no-regions", action="store_true", help="leave out the regions and their markets")


def _handout(words: argparse.Namespace) -> int:
    club = club_of(words)
    out = words.out or club.places.root / "handout.html"
    papers.handout(club.places.root / "world.toml", out, not words.no_regions, club=club.settings.name)
    say(str(out))
    return DONE


def _page_world(words: argparse.Namespace) -> int:
    club = club_of(words)
    out = words.out or club.places.root / "world.json"
    papers.page_world(club.places.root / "world.toml", out, not words.no_regions)
    say(str(out))
    return DONE


COMMANDS = (
    Command("chronicle", "write the club's chronicle of a month, as a page to show or print", _chronicle_options, _chronicle,
            False),
    Command("map", "write a map of the whole world for you, as a page or (FILE.svg) as a picture", _month_options, _map, False),
    Command("handout", "write guide, rules and prices for players, as a page", _handout_options, _handout, False),
    Command("page-world", "write world.json, which lies beside the players' page", _handout_options, _page_world, False),
)
