"""Commands on mail: fetch, take, status, accept, refuse, withdraw, remind, send, resend."""

from __future__ import annotations

import argparse
import sys

from office.closing.back import take_again
from office.club import status
from office.commands.common import DONE, WAITS, Command, club_of, desk_of, done_or_waits, faction_option, no_options, say
from office.errors import OfficeError
from office.mail import deciding
from office.mail.fetching import fetch_mailbox, fetch_one
from office.mail.sending import send_letters, waiting_letters
from office.mail.taking import Fate, Taker


def _fetch_options(parser: argparse.ArgumentParser) -> None:
    parser.add_argument("--stdin", action="store_true",
                        help="take one message from standard input, for .forward and procmail; status 75 says: try later")


def _fetch(words: argparse.Namespace) -> int:
    club = club_of(words)
    if words.stdin:
        fetch_one(club, sys.stdin.buffer)
        return DONE
    if club.settings.imap is None:
        raise OfficeError("club.toml names no mailbox: set [imap] there, or put messages as files into mail/in")
    with club.locked():
        count = fetch_mailbox(club, club.settings.imap, say)
    say(f"{count} messages fetched")
    return DONE


def _take(words: argparse.Namespace) -> int:
    club = club_of(words)
    with club.locked():
        take_again(club, say)
        if not any(club.places.incoming.iterdir()):
            say("mail/in is empty")
            return done_or_waits(club)
        with desk_of(club) as (campaign, desk):
            counts = Taker(club, campaign.month, campaign.factions, desk, club.now(), say).take_all()
        say(", ".join(f"{counts[fate]} {fate.value}" for fate in Fate))
        return done_or_waits(club)


def _status(words: argparse.Namespace) -> int:
    club = club_of(words)
    with club.locked(), club.with_campaign() as campaign:
        for line in status.status_lines(club, campaign):
            say(line)
        return done_or_waits(club)


def _id_option(parser: argparse.ArgumentParser) -> None:
    parser.add_argument("id", help="the message, as `status` lists it; the beginning is enough")


def _accept_options(parser: argparse.ArgumentParser) -> None:
    _id_option(parser)
    parser.add_argument("--block", type=int, metavar="N", help="which of several blocks of orders counts, from 1")


def _accept(words: argparse.Namespace) -> int:
    club = club_of(words)
    with club.locked(), desk_of(club) as (campaign, desk):
        deciding.accept(club, campaign, desk, words.id, words.block, club.now(), say)
    return DONE


def _refuse_options(parser: argparse.ArgumentParser) -> None:
    _id_option(parser)
    parser.add_argument("why", nargs="*", help="what the player reads; without it no letter is written")


def _refuse(words: argparse.Namespace) -> int:
    club = club_of(words)
    with club.locked(), desk_of(club) as (campaign, _):
        deciding.refuse(club, campaign, words.id, " ".join(words.why), club.now(), say)
    return DONE


def _withdraw(words: argparse.Namespace) -> int:
    club = club_of(words)
    with club.locked(), club.with_campaign() as campaign:
        deciding.withdraw(club, campaign, club.program, words.faction, club.now(), say)
    return DONE


def _remind(words: argparse.Namespace) -> int:
    club = club_of(words)
    with club.locked(), club.with_campaign() as campaign:
        deciding.finish_closing(club, campaign, club.now(), say)
        count = deciding.remind(club, campaign, club.now(), say)
    say(f"{count} letters written to out/")
    return DONE


def _send(words: argparse.Namespace) -> int:
    club = club_of(words)
    with club.locked():
        if club.settings.smtp is None:
            say(f"club.toml names no mail server: mail the {len(waiting_letters(club))} letters in out/ by hand, and move "
                "them to out/sent")
            return DONE
        if not waiting_letters(club):
            say("no letter waits")
            return done_or_waits(club)
        sent = send_letters(club, club.settings.smtp, say)
        say(f"{sent.taken} letters sent, {sent.refused} refused, {sent.waiting} wait for the next call")
        return WAITS if sent.waiting else done_or_waits(club)


def _resend_options(parser: argparse.ArgumentParser) -> None:
    faction_option(parser)
    parser.add_argument("month", type=int, nargs="?", help="the month; the last one where none is said")


def _resend(words: argparse.Namespace) -> int:
    club = club_of(words)
    with club.locked(), club.with_campaign() as campaign:
        name = deciding.resend(club, words.faction, campaign.month if words.month is None else words.month, club.now())
    say(f"out/{name}.eml")
    return DONE


COMMANDS = (
    Command("fetch", "bring mail to mail/in, from the mailbox or from standard input", _fetch_options, _fetch),
    Command("take", "hand in the mail of mail/in, and write a reply to each", no_options, _take),
    Command("status", "show who sent what, what is held, and what waits to be sent", no_options, _status, False),
    Command("accept", "take a held message", _accept_options, _accept),
    Command("refuse", "put a held message away", _refuse_options, _refuse),
    Command("withdraw", "take out the mailing of a faction", faction_option, _withdraw),
    Command("remind", "write to those without a mailing, or with faults in it", no_options, _remind),
    Command("send", "mail the letters of out/", no_options, _send),
    Command("resend", "write the letter with a report again", _resend_options, _resend),
)
