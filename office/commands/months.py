"""Commands on months: close, serve, replay, back, backup, publish, check."""

from __future__ import annotations

import argparse
import sys
from pathlib import Path

from office.closing.back import back, take_again
from office.closing.backup import backup
from office.closing.check import check
from office.closing.month import close_month, questions, unfinished
from office.closing.publish import publish
from office.closing.replay import replay
from office.club import founding
from office.club.club import Club
from office.club.serving import serve
from office.commands.common import DONE, FAILED, Command, club_of, done_or_waits, say
from office.errors import OfficeError
from office.mail import deciding
from office.mail.fetching import fetch_mailbox
from office.mail.taking import Taker, held_messages


def _close_options(parser: argparse.ArgumentParser) -> None:
    parser.add_argument("month", type=int, nargs="?", help="the month to close; the next one where none is said")
    parser.add_argument("--yes", action="store_true", help="answer yes to whatever it asks")
    parser.add_argument("--no-fetch", action="store_true", help="don't fetch mail from the mailbox first")


def _is_agreed(questions: list[str], yes: bool) -> bool:
    for question in questions:
        say(question)
    if not questions or yes:
        return True
    if not sys.stdin.isatty():
        raise OfficeError("nothing was closed. With --yes it is closed all the same")
    return input("Close the month all the same? Type yes: ").strip().lower() == "yes"


def _take_before(club: Club, words: argparse.Namespace) -> int | None:
    """Takes all mail, asks what is to be asked, and gives the month that is to be closed then: None where none was said,
    and there was nothing to ask."""
    with club.with_campaign() as campaign:
        deciding.finish_closing(club, campaign, club.now(), say)
        take_again(club, say)
        campaign = club.look()
        Taker(club, campaign.month, campaign.factions, club.program, club.now(), say).take_all()
        campaign = club.look()
        asked = questions(club, campaign, words.month, len(held_messages(club)), club.now())
        if not _is_agreed(asked, words.yes):
            raise OfficeError("nothing was closed")
        month: int | None = words.month
        return campaign.open_month if asked and month is None else month


def _close(words: argparse.Namespace) -> int:
    club = club_of(words)
    with club.locked():
        if club.settings.imap and not words.no_fetch:
            say(f"{fetch_mailbox(club, club.settings.imap, say)} messages fetched")
        with club.with_campaign():
            close_month(club, words.month if unfinished(club) else _take_before(club, words), say)
            deciding.finish_closing(club, club.look(), club.now(), say)
            take_again(club, say)
        say("`kiwirudder send` mails the letters in out/")
        return done_or_waits(club)


def _serve_options(parser: argparse.ArgumentParser) -> None:
    parser.add_argument("--port", type=int, help="the port; that of club.toml where none is said")


def _serve(words: argparse.Namespace) -> int:
    club = club_of(words)
    founding.check_seed(club)
    return serve(club, words.port or club.settings.port)


def _replay_options(parser: argparse.ArgumentParser) -> None:
    parser.add_argument("months", type=Path, nargs="?", help="the folder months; that of the club where none is said")
    parser.add_argument("--from", dest="copy", type=Path, metavar="FILE", help="a file before-M.db to begin with")
    parser.add_argument("--checksum", help="the published checksum of the seed; that of the club where none is said")


def _replay(words: argparse.Namespace) -> int:
    club = club_of(words)
    checksum = words.checksum
    if checksum is None and words.months is None and club.places.seed_checksum.is_file():
        checksum = club.places.seed_checksum.read_text("ascii").strip()
    say(replay(words.months or club.places.months, words.copy, checksum, say))
    return DONE


def _back_options(parser: argparse.ArgumentParser) -> None:
    parser.add_argument("month", type=int, help="the month before which the campaign is to be again")


def _back(words: argparse.Namespace) -> int:
    club = club_of(words)
    with club.locked(goes_back=True):
        back(club, words.month, say)
    return DONE


def _backup_options(parser: argparse.ArgumentParser) -> None:
    parser.add_argument("folder", type=Path, help="where the copy goes, best on another disk")
    parser.add_argument("--keep", type=int, metavar="N", help="keep the newest N copies there, and remove older ones")


def _backup(words: argparse.Namespace) -> int:
    club = club_of(words)
    with club.locked(), club.with_campaign():
        backup(club, words.folder.resolve(), say, words.keep)
    return DONE


def _publish_options(parser: argparse.ArgumentParser) -> None:
    parser.add_argument("folder", type=Path, help="where the months go")
    parser.add_argument("--through", type=int, metavar="M", help="the last month to publish; all where none is said")
    parser.add_argument("--with-seed", action="store_true", help="publish the seed too, when the campaign is over")


def _publish(words: argparse.Namespace) -> int:
    club = club_of(words)
    with club.locked(), club.with_campaign():
        say(f"{publish(club, words.folder.resolve(), words.through, say, words.with_seed)}")
    return DONE


def _check_options(parser: argparse.ArgumentParser) -> None:
    parser.add_argument("world", type=Path, help="the club's world file")
    parser.add_argument("mailing", type=Path, help="the mailing; - is standard input")


def _check(words: argparse.Namespace) -> int:
    return DONE if check(words.world, words.mailing, say) else FAILED


COMMANDS = (
    Command("close", "fetch and take mail, close the month, and write the letters with reports", _close_options, _close),
    Command("serve", "answer the players' page, until it is stopped", _serve_options, _serve, False),
    Command("replay", "play the closed months again, and compare every report and the books", _replay_options, _replay, False),
    Command("back", "go back to before a month", _back_options, _back),
    Command("backup", "make a whole copy of the club's folder, and check it", _backup_options, _backup, False),
    Command("publish", "write what outsiders need to play the months again", _publish_options, _publish, False),
    Command("check", "show what the program can't read in a mailing", _check_options, _check, False),
)
