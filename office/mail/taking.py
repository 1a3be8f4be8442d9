"""Takes messages to the program: who sent them, when they came, what they ask, and what the player reads in reply.

A message moves out of mail/in only when what it asks is done and its reply lies in out/. So a `take` that was stopped is
called again: what it hands in twice is the same mailing, and a letter is written once."""

from __future__ import annotations

import hashlib
import os
from collections import Counter
from collections.abc import Callable, Iterator
from dataclasses import asdict, dataclass, replace
from datetime import UTC, datetime, timedelta
from enum import Enum
from pathlib import Path
from typing import Any

from office import texts
from office.club.campaign import Faction
from office.club.club import Club
from office.club.deadline import Closings, in_words, open_deadline
from office.club.files import move_file, read_json, remove_file, write_file, write_json
from office.club.program import WRONG_PASS, Desk, MailAnswer, Refusal
from office.errors import OfficeError
from office.mail.blocks import Block, find_blocks
from office.mail.letters import Letter, one_line, post
from office.mail.message import Automatic, Message, read_body, read_message, split_mbox
from office.mail.notes import Change
from office.orders.answer import Previous, Taken, reply
from office.orders.units import own_units
from office.orders.words import begins

MOST_BYTES = 1_048_576
BYTES_KEPT_ASIDE = 65_536
QUIT = "QUIT"
SECONDS_OF_CLOCKS = 600
LENGTH_OF_ID = 12


class Fate(Enum):
    """What becomes of a message, and the folder that it goes to."""

    TAKEN = "taken"
    HELD = "held"
    REFUSED = "refused"
    DROPPED = "dropped"
    ASIDE = "aside"


class Reason(Enum):
    """Why a block of orders, or a message, wasn't taken."""

    NONE = "taken"
    AUTOMATIC = "automatic mail"
    AGAIN = "came before"
    TOO_LARGE = "over 1 MB"
    MAILBOX = "a file with several messages"
    NO_HEADER = "has no line #ATLANTIS: a letter to you"
    NO_FACTION = "names no faction of the campaign"
    STRANGER = "from an address that isn't the faction's, and without its pass text"
    NOT_REAL = "our mail server doesn't say that the sender's address is real"
    WRONG_PASS = "a wrong pass text"
    QUIT = "QUIT without the pass text"
    CUT = "too long, and its end was not read"
    LATE = "late"
    OLDER = "older than the mailing that is kept"
    TWO_BLOCKS = "two mailings for one faction"
    PROGRAM = "the program refuses it"
    MODERATOR = "refused by you"


HELD_FOR = {Reason.NOT_REAL, Reason.CUT, Reason.LATE, Reason.OLDER, Reason.TWO_BLOCKS, Reason.NO_HEADER}


@dataclass(frozen=True)
class Kept:
    """The mailing of a faction that counts at this moment, as far as the office handed it in."""

    id: str
    received: str
    orders: int
    faults: int
    warnings: int
    previous: dict[str, Any] | None

    def moment(self) -> datetime:
        return datetime.fromisoformat(self.received)


class KeptMailings:
    """The kept mailings of the open month, by faction."""

    def __init__(self, club: Club, month: int) -> None:
        self.path = club.places.record("kept")
        stored = read_json(self.path, {})
        self.month = month
        self.entries: dict[int, Kept] = {}
        if stored.get("month") == month:
            self.entries = {int(key): Kept(**value) for key, value in stored["factions"].items()}

    def put(self, faction: int, kept: Kept | None) -> None:
        self.entries.pop(faction, None)
        if kept:
            self.entries[faction] = kept
        write_json(self.path, {"month": self.month,
                               "factions": {str(key): asdict(value) for key, value in self.entries.items()}})


@dataclass(frozen=True)
class Verdict:
    """What becomes of one block. `faction` is 0 where the header names none of the campaign."""

    fate: Fate
    reason: Reason
    faction: int
    refusal: int = 0
    answer: MailAnswer | None = None
    kept: Kept | None = None


@dataclass(frozen=True)
class Envelope:
    """A message with its file, its identity, and when it came. `vouched` says that the moderator accepts it."""

    path: Path
    id: str
    message: Message
    came: datetime
    named: int = 0
    vouched: bool = False


def identify(message: Message) -> str:
    """The same for the same text of the same sender under the same Message-ID."""
    whole = "\0".join([message.message_id, message.sender, *message.lines])
    return hashlib.sha256(whole.encode("utf-8", "replace")).hexdigest()[:LENGTH_OF_ID]


def _is_cut(message: Message) -> bool:
    """Whether the end of the message was not read, so that a block may have been cut in the middle."""
    return any(note.change in (Change.CUT_BYTES, Change.CUT_LINES, Change.CUT_PARTS) for note in message.notes)


def read_envelope(path: Path, raw: bytes, now: datetime, vouched: bool = False) -> Envelope:
    """A file NUMBER.txt is from the player of that faction: the moderator says so by its name."""
    body = path.suffix == ".txt"
    message = read_body(raw) if body else read_message(raw)
    came = message.received or datetime.fromtimestamp(path.stat().st_mtime, UTC)
    if came > now + timedelta(seconds=SECONDS_OF_CLOCKS):
        came = now
    named = int(path.stem) if body and path.stem.isdigit() else 0
    return Envelope(path, identify(message), message, came, named, vouched)


class Replies:
    """How many letters an address got in answer to its mail in a day."""

    def __init__(self, club: Club, now: datetime) -> None:
        self.path = club.places.record("replies")
        self.most = club.settings.replies_a_day
        self.now = now
        yesterday = (now - timedelta(days=1)).isoformat()
        self.times: dict[str, list[str]] = {
            address: recent for address, times in read_json(self.path, {}).items()
            if (recent := [time for time in times if time > yesterday])}

    def allow(self, address: str) -> bool:
        return len(self.times.get(address, [])) < self.most

    def count(self, address: str) -> None:
        self.times.setdefault(address, []).append(self.now.isoformat())
        write_json(self.path, self.times)


class Taker:
    """Takes messages for the open month. `month` is the month last closed, `factions` are as the campaign has them."""

    def __init__(self, club: Club, month: int, factions: tuple[Faction, ...], desk: Desk, now: datetime,
                 say: Callable[[str], None]) -> None:
        self.club = club
        self.month = month
        self.factions = {faction.number: faction for faction in factions}
        self.desk = desk
        self.now = now
        self.say = say
        self.players = club.players
        self.kept = KeptMailings(club, month + 1)
        self.replies = Replies(club, now)
        self.deadline = open_deadline(club, month)
        self.closed = Closings(club).when(month)
        self.counts: Counter[Fate] = Counter()

    # Messages

    def take_all(self) -> Counter[Fate]:
        """Takes every file of mail/in, oldest name first. OfficeError where the program has a fault: what was not taken
        stays."""
        for path in self._incoming():
            self.take_file(path)
        return self.counts

    def _incoming(self) -> Iterator[Path]:
        for path in sorted(self.club.places.incoming.iterdir()):
            if path.name.startswith("."):
                continue
            if path.is_symlink() or not path.is_file():
                self.say(f"mail/in/{one_line(path.name)} is no file: passed over")
            elif path.suffix not in (".eml", ".txt", ".mbox"):
                self.say(f"mail/in/{one_line(path.name)} ends neither with .eml, .txt nor .mbox: passed over")
            else:
                yield path

    def take_file(self, path: Path) -> None:
        if path.suffix == ".mbox":
            self._split(path)
            return
        if path.stat().st_size > MOST_BYTES:
            self._put_aside(path)
            return
        self.take(read_envelope(path, path.read_bytes(), self.now))

    def _split(self, path: Path) -> None:
        """Each message of a mailbox file becomes a file of its own, and is taken. Only the moderator puts such a file there:
        a message that looks like one is never split, since its sender could forge another's mail in it."""
        parts = split_mbox(path.read_bytes())
        names = [path.with_name(f"{path.stem}-{number:04}.eml") for number in range(1, len(parts) + 1)]
        came = path.stat().st_mtime
        for name, part in zip(names, parts):
            write_file(name, part)
            os.utime(name, (came, came))
        self._file(path, Fate.DROPPED, path.name, {"reason": Reason.MAILBOX.value, "messages": len(parts)})
        for name in names:
            self.take_file(name)

    def _put_aside(self, path: Path) -> None:
        """Only the beginning of what is too large is kept."""
        with path.open("rb") as file:
            head = file.read(BYTES_KEPT_ASIDE)
        size = path.stat().st_size
        write_file(path, head)
        name = hashlib.sha256(head).hexdigest()[:LENGTH_OF_ID] + path.suffix
        self._file(path, Fate.ASIDE, name, {"reason": Reason.TOO_LARGE.value, "bytes": size})

    def take(self, envelope: Envelope) -> None:
        """Judges each block of the message, writes the replies, and moves the message to where it belongs."""
        message = envelope.message
        if message.message_id and self._came_before(envelope):
            self._finish(envelope, Fate.DROPPED, [Verdict(Fate.DROPPED, Reason.AGAIN, 0)], "-again")
            return
        if message.automatic is not Automatic.NO:
            self._finish(envelope, Fate.DROPPED, [Verdict(Fate.DROPPED, Reason.AUTOMATIC, 0)])
            return
        blocks = find_blocks(message.lines)
        if not blocks:
            verdict = Verdict(Fate.HELD, Reason.NO_HEADER, self._faction_of(message.sender))
            self._write_reply(envelope, None, verdict)
            self._finish(envelope, Fate.HELD, [verdict])
            return
        twice = {faction for faction, count in Counter(block.faction for block in blocks).items() if count > 1}
        verdicts = []
        for block in blocks:
            verdict = self._judge(envelope, block, block.faction in twice)
            self._write_reply(envelope, block, verdict)
            verdicts.append(verdict)
        self._finish(envelope, self._fate(verdicts), verdicts)

    def take_block(self, envelope: Envelope, block: Block) -> None:
        """Takes one block of a message for which the moderator vouches. OfficeError where the program refuses it; the
        message then stays where it is."""
        verdict = self._judge(envelope, block, False)
        if verdict.fate is not Fate.TAKEN:
            raise OfficeError(f"it can't be taken: {verdict.reason.value}"
                              + (f" ({texts.refusal_sentence(verdict.refusal)})" if verdict.refusal else ""))
        self._write_reply(envelope, block, verdict)
        self._finish(envelope, Fate.TAKEN, [verdict])

    @staticmethod
    def _fate(verdicts: list[Verdict]) -> Fate:
        fates = {verdict.fate for verdict in verdicts}
        for fate in (Fate.HELD, Fate.TAKEN):
            if fate in fates:
                return fate
        return Fate.REFUSED

    def _came_before(self, envelope: Envelope) -> bool:
        name = envelope.id + envelope.path.suffix
        places = self.club.places
        folders = [places.held, places.refused, places.dropped, *places.taken_folders()]
        return any((folder / name).exists() for folder in folders)

    def _faction_of(self, sender: str) -> int:
        """The first faction whose player has this address, or 0."""
        for faction, player in sorted(self.players.items()):
            if sender and player.may_write_from(sender, self.month + 1):
                return faction
        return 0

    # Blocks

    def _judge(self, envelope: Envelope, block: Block, is_twice: bool) -> Verdict:
        faction = self.factions.get(block.faction or 0)
        if faction is None and not block.pass_text:
            return Verdict(Fate.REFUSED, Reason.NO_FACTION, 0)
        number = block.faction or 0
        reason = self._doubt_sender(envelope, block, number)
        if reason is Reason.NONE and not envelope.vouched:
            reason = Reason.CUT if _is_cut(envelope.message) else self._doubt_time(envelope, number, is_twice)
        if reason is not Reason.NONE:
            return Verdict(Fate.HELD if reason in HELD_FOR else Fate.REFUSED, reason, number)
        secret = block.pass_text or (faction.pass_text if faction else "")
        return self._hand_in(envelope, block, number, secret)

    def _doubt_sender(self, envelope: Envelope, block: Block, number: int) -> Reason:
        """Whether the player of the faction sent this; a pass text on the header is judged by the program."""
        if block.pass_text or envelope.vouched or envelope.named == number:
            return Reason.NONE
        player = self.players.get(number)
        sender = envelope.message.sender
        if player is None or not player.may_write_from(sender, self.month + 1):
            return Reason.STRANGER
        if any(begins(line, QUIT) for line in block.orders):
            return Reason.QUIT
        server = self.club.settings.mail_server
        if server and not envelope.message.is_authentic(server):
            return Reason.NOT_REAL
        return Reason.NONE

    def _doubt_time(self, envelope: Envelope, number: int, is_twice: bool) -> Reason:
        """Late is what came after the deadline, or before the player could have the last report."""
        if is_twice:
            return Reason.TWO_BLOCKS
        report = self._report_went_out(number)
        if report and envelope.came <= report or self.deadline and envelope.came > self.deadline:
            return Reason.LATE
        kept = self.kept.entries.get(number)
        if kept and kept.id != envelope.id and kept.moment() > envelope.came:
            return Reason.OLDER
        return Reason.NONE

    def _report_went_out(self, number: int) -> datetime | None:
        if self.closed is None or self.month == 0:
            return None
        sent = self.club.places.sent / f"report-{self.month}-{number}.eml"
        try:
            return max(self.closed, datetime.fromtimestamp(sent.stat().st_mtime, UTC))
        except FileNotFoundError:
            return self.closed

    def _hand_in(self, envelope: Envelope, block: Block, number: int, secret: str) -> Verdict:
        try:
            answer = self.desk.hand_in(number, secret, block.mailing())
        except Refusal as refusal:
            reason = Reason.WRONG_PASS if refusal.number == WRONG_PASS and block.pass_text else Reason.PROGRAM
            return Verdict(Fate.REFUSED, reason, number, refusal.number)
        kept = self._keep(envelope, number, answer)
        return Verdict(Fate.TAKEN, Reason.NONE, number, 0, answer, kept)

    def _keep(self, envelope: Envelope, number: int, answer: MailAnswer) -> Kept:
        """Notes the mailing as the faction's. If it was noted before, by a call that was stopped, the note stays."""
        before = self.kept.entries.get(number)
        if before and before.id == envelope.id:
            return before
        previous = {**asdict(before), "previous": None} if before else None
        kept = Kept(envelope.id, envelope.came.isoformat(timespec="seconds"), answer.orders, len(answer.faults), 0,
                    previous)
        self.kept.put(number, kept)
        return kept

    # Replies

    def _write_reply(self, envelope: Envelope, block: Block | None, verdict: Verdict) -> None:
        """To the registered address, never to a stranger's. Nobody registered: the log and `status` say so."""
        player = self.players.get(verdict.faction)
        if player is None or not player.letters_to(self.month + 1):
            return
        name = f"reply-{envelope.id}-{verdict.faction}"
        if envelope.vouched:
            name += "-accepted"
        to = player.letters_to(self.month + 1)
        address = to[0].lower()
        if not self.replies.allow(address):
            self.club.log(f"no reply to {address}: it had {self.replies.most} in a day")
            return
        text, warnings = self._reply_text(envelope, block, verdict)
        if verdict.kept and warnings != verdict.kept.warnings:
            self.kept.put(verdict.faction, replace(verdict.kept, warnings=warnings))
        subject = texts.reply_subject(verdict.faction, self.month + 1, verdict.reason.name, envelope.message.subject)
        own = envelope.message.sender and player.may_write_from(envelope.message.sender, self.month + 1)
        answers = envelope.message.message_id if own else ""
        if post(self.club, Letter(name, to, subject, text, answers), self.now):
            self.replies.count(address)

    def _reply_text(self, envelope: Envelope, block: Block | None, verdict: Verdict) -> tuple[str, int]:
        if block is None or verdict.answer is None or verdict.kept is None:
            lines = texts.not_taken(verdict.reason.name, verdict.refusal, verdict.faction,
                                    in_words(envelope.came), one_line(envelope.message.sender),
                                    in_words(self.deadline) if self.deadline else "")
            return lines, 0
        earlier = verdict.kept.previous
        previous = Previous(in_words(datetime.fromisoformat(earlier["received"])), earlier["orders"]) if earlier else None
        taken = Taken(
            month=self.month + 1, faction=verdict.faction, block=block, orders=verdict.answer.orders,
            faults=verdict.answer.faults, notes=envelope.message.notes,
            own_units=self._own_units(verdict.faction), previous=previous,
            deadline=in_words(self.deadline) if self.deadline else None)
        answer = reply(taken)
        return answer.text, answer.warnings

    def _own_units(self, number: int) -> frozenset[int] | None:
        """The units of the faction's last report, None where it isn't at hand."""
        faction = self.factions.get(number)
        if faction and faction.report:
            return own_units(faction.report)
        try:
            return own_units((self.club.places.month(self.month) / f"report-{number}.txt").read_text("ascii"))
        except (OSError, UnicodeDecodeError):
            return None

    # Files

    def _finish(self, envelope: Envelope, fate: Fate, verdicts: list[Verdict], mark: str = "") -> None:
        record = {
            "subject": envelope.message.subject, "sender": envelope.message.sender,
            "came": envelope.came.isoformat(timespec="seconds"), "month": self.month + 1,
            "blocks": [{"faction": verdict.faction, "fate": verdict.fate.value, "reason": verdict.reason.name,
                        "refusal": verdict.refusal} for verdict in verdicts]}
        self._file(envelope.path, fate, envelope.id + mark + envelope.path.suffix, record)
        for line in dict.fromkeys(self._outcome(envelope, verdict) for verdict in verdicts):
            self.say(line)

    @staticmethod
    def _outcome(envelope: Envelope, verdict: Verdict) -> str:
        why = "" if verdict.fate is Fate.TAKEN else f": {verdict.reason.value}"
        who = f"faction {verdict.faction}" if verdict.faction else "no faction"
        sender = one_line(envelope.message.sender) or "a file"
        return f"{envelope.id}  {verdict.fate.value}  {who}, from {sender}{why}"

    def _file(self, path: Path, fate: Fate, name: str, record: dict[str, Any]) -> None:
        """Moves the file to its folder, with a record beside it."""
        places = self.club.places
        folder = places.taken(self.month + 1) if fate is Fate.TAKEN else getattr(places, fate.value)
        target = folder / one_line(name)
        write_json(target.with_suffix(".json"), record)
        move_file(path, target)
        if path.parent == places.held:
            remove_file(path.with_suffix(".json"))
        self.counts[fate] += 1
        blocks = "; ".join(f"faction {block['faction']} {block['reason']}" for block in record.get("blocks", []))
        self.club.log(f"{fate.value} {target.name} from {record.get('sender') or 'a file'}: "
                      f"{blocks or record.get('reason')}")


def held_messages(club: Club) -> list[tuple[str, dict[str, Any]]]:
    """The messages that wait for the moderator, with their records."""
    return [(path.stem, read_json(path.with_suffix(".json"), {})) for path in sorted(club.places.held.iterdir())
            if path.suffix in (".eml", ".txt")]


def find_held(club: Club, id_: str) -> Path:
    """The held message whose name begins so. OfficeError where it is none, or not one alone."""
    if not id_.isalnum():
        raise OfficeError(f"{one_line(id_)!r} is no name of a message: `kiwirudder status` lists them")
    found = [path for path in sorted(club.places.held.iterdir())
             if path.suffix in (".eml", ".txt") and path.stem.startswith(id_)]
    if len(found) != 1:
        raise OfficeError(f"{len(found)} held messages begin with {id_}: `kiwirudder status` lists them")
    return found[0]
