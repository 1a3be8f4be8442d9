"""The command line of the office: all commands, how they are tried, and what a person reads when one fails."""

from __future__ import annotations

import argparse
import os
import shutil
import sys
import tempfile
from pathlib import Path

from office.commands import mail, months, papers, players
from office.commands.common import DONE, FAILED, Command, club_of, say
from office.commands.helps import HELPS
from office.errors import OfficeError
from office.mail.sending import waiting_letters

STATUSES = """\
exit status: 0 done; 1 not done, and a line says what to do; 2 a wrong call;
3 done, and something waits for you (messages are held, or letters could not be
sent)"""
COMMANDS = (*players.COMMANDS, *mail.COMMANDS, *months.COMMANDS, *papers.COMMANDS)
# They reach mail servers, so a copy of the folder is no trial.
WITHOUT_TRIAL = {"init", "fetch", "send"}


def _link_or_copy(source: str, target: str) -> object:
    """What is only ever replaced as a whole is linked; what is written in place is copied."""
    name = os.path.basename(source)
    if ".db" in name or os.path.basename(os.path.dirname(source)) == "office":
        return shutil.copy2(source, target)
    try:
        os.link(source, target)
    except OSError:
        shutil.copy2(source, target)
    return target


def _files_of(root: Path) -> dict[str, tuple[int, int, int]]:
    """By its name, whether a file is the same one, as large, and written at the same time: a database is written in
    place, and all else replaced."""
    seen = {path: path.stat() for path in root.rglob("*") if path.is_file() and path.parent.name != "office"}
    return {str(path.relative_to(root)): (at.st_ino, at.st_size, at.st_mtime_ns) for path, at in seen.items()}


def _try(command: Command, words: argparse.Namespace) -> int:
    """Runs the command on a copy of the club's folder, and says which files it would make, change and remove. What it
    would ask is only said."""
    say("dry run: on a copy of the folder, so nothing of what follows is done")
    if hasattr(words, "yes"):
        words.yes = True
    club = club_of(words)
    with tempfile.TemporaryDirectory(prefix="kiwirudder-") as folder:
        copy = Path(folder) / "club"
        with club.locked(), club.with_campaign():
            shutil.copytree(club.places.root, copy, copy_function=_link_or_copy, symlinks=True)
        words.club = str(copy)
        words.no_fetch = True
        before = _files_of(copy)
        done = command.run(words)
        after = _files_of(copy)
    for name in sorted(before.keys() | after.keys()):
        if before.get(name) != after.get(name):
            what = "makes" if name not in before else "removes" if name not in after else "changes"
            say(f"dry run: {what} {name}")
    return done


def _without_server(command: Command, words: argparse.Namespace) -> int:
    """What `fetch` and `send` would do."""
    club = club_of(words)
    if command.name == "send":
        for path in waiting_letters(club):
            say(f"dry run: would send {path.name}")
    else:
        server = club.settings.imap
        say(f"dry run: would ask {server.host}" if server else "dry run: no mailbox is set in club.toml")
    return DONE


def _parser() -> argparse.ArgumentParser:
    parser = argparse.ArgumentParser(prog="kiwirudder", epilog=STATUSES,
                                     formatter_class=argparse.RawDescriptionHelpFormatter,
                                     description="The club's office: from the player's mailbox to the player's mailbox.")
    parser.add_argument("--club", metavar="FOLDER", help="the club's folder; $KIWIRUDDER_CLUB, or this one, where none is said")
    commands = parser.add_subparsers(dest="command", metavar="COMMAND", required=True)
    for command in COMMANDS:
        first = f"{command.help[:1].upper()}{command.help[1:]}."
        each = commands.add_parser(command.name, help=command.help, epilog=STATUSES,
                                   description=f"{first}\n\n{HELPS.get(command.name, '')}".rstrip(),
                                   formatter_class=argparse.RawDescriptionHelpFormatter)
        command.options(each)
        if command.changes and command.name != "init":
            each.add_argument("--dry-run", action="store_true", help="only say what it would do")
        each.set_defaults(chosen=command)
    return parser


def _run(words: argparse.Namespace) -> int:
    command: Command = words.chosen
    if not getattr(words, "dry_run", False):
        return command.run(words)
    return _without_server(command, words) if command.name in WITHOUT_TRIAL else _try(command, words)


def main(arguments: list[str]) -> int:
    """Runs a command, and returns its exit status."""
    os.umask(0o077)
    try:
        return _run(_parser().parse_args(arguments))
    except OfficeError as error:
        print(f"kiwirudder: {error.text}", file=sys.stderr)
        return error.status
    except BrokenPipeError:
        # Whoever reads the answer ended before it did. What was done is kept, and nothing more can be said.
        os.dup2(os.open(os.devnull, os.O_WRONLY), sys.stdout.fileno())
        return FAILED
    except OSError as error:
        print(f"kiwirudder: {error.filename or 'a file'}: {error.strerror or error}. What was done before is kept; "
              "mend the cause, and call it again", file=sys.stderr)
        return FAILED
    except KeyboardInterrupt:
        print("kiwirudder: stopped. Call it again: it goes on where it was", file=sys.stderr)
        return FAILED
