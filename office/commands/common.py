"""What all commands of the office share: how a command is described, which club it is for, where mail is handed in."""

from __future__ import annotations

import argparse
import os
from collections.abc import Callable, Iterator
from contextlib import contextmanager
from dataclasses import dataclass
from pathlib import Path

from office.closing.back import take_again
from office.club import status
from office.club.campaign import Campaign, read_snapshot
from office.club.club import Club
from office.club.locks import running_server
from office.club.program import Desk, ServedCampaign
from office.mail import deciding

# 2 is that of a wrong call, which argparse gives.
DONE, FAILED, WAITS = 0, 1, 3


def say(text: str) -> None:
    """A line of a command's answer."""
    print(text, flush=True)


@dataclass(frozen=True)
class Command:
    """A subcommand: what it does in a few words, its options, and the function that does it and returns the status.
    `changes` says that it changes the club, so that it can be tried by --dry-run."""

    name: str
    help: str
    options: Callable[[argparse.ArgumentParser], None]
    run: Callable[[argparse.Namespace], int]
    changes: bool = True


def no_options(_parser: argparse.ArgumentParser) -> None:
    pass


def faction_option(parser: argparse.ArgumentParser) -> None:
    parser.add_argument("faction", type=int, help="the faction's number")


def club_of(words: argparse.Namespace) -> Club:
    """The club in the folder that the command names; --club, $KIWIRUDDER_CLUB, or the folder that it is called in."""
    return Club(Path(words.club or os.environ.get("KIWIRUDDER_CLUB") or ".").resolve())


@contextmanager
def desk_of(club: Club) -> Iterator[tuple[Campaign, Desk]]:
    """Where mail is handed in: a `serve` that runs, or the program itself."""
    server = running_server(club.places.serve_lock)
    snapshot = read_snapshot(club.places) if server else None
    if server and snapshot:
        yield snapshot, ServedCampaign(server.port)
        return
    with club.with_campaign() as campaign:
        deciding.finish_closing(club, campaign, club.now(), say)
        take_again(club, say)
        yield club.look(), club.program


def done_or_waits(club: Club) -> int:
    """The status of a command that is done: whether something waits for the moderator."""
    return WAITS if status.is_waiting_for_moderator(club) else DONE
