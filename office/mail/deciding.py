"""What the moderator decides: held messages are accepted or refused, a mailing is withdrawn, and players get letters."""

from __future__ import annotations

from collections.abc import Callable
from datetime import datetime

from office import texts
from office.club.campaign import Campaign
from office.club.club import Club
from office.club.deadline import Closings, deadline_after, in_words, open_deadline
from office.club.files import move_file, read_json, write_json
from office.club.program import Desk
from office.errors import OfficeError
from office.mail.blocks import find_blocks
from office.mail.letters import Letter, edition_of, is_written, one_line, post
from office.mail.taking import Kept, KeptMailings, Reason, Taker, find_held, read_envelope


def accept(club: Club, campaign: Campaign, desk: Desk, id_: str, block: int | None, now: datetime,
           say: Callable[[str], None]) -> None:
    """Takes a held message: the moderator vouches for its sender and its time. `block` is which of several, from 1."""
    path = find_held(club, id_)
    envelope = read_envelope(path, path.read_bytes(), now, vouched=True)
    blocks = find_blocks(envelope.message.lines)
    if not blocks:
        raise OfficeError(f"{path.stem} has no line #ATLANTIS, so it is a letter: `kiwirudder refuse` puts it away")
    if len(blocks) > 1 and block is None:
        listed = "; ".join(f"{number}: faction {each.faction}, from line {each.first_line}"
                           for number, each in enumerate(blocks, 1))
        raise OfficeError(f"it has {len(blocks)} blocks of orders. Say which counts, by --block: {listed}")
    if block is not None and not 1 <= block <= len(blocks):
        raise OfficeError(f"it has {len(blocks)} blocks of orders, counted from 1")
    taker = Taker(club, campaign.month, campaign.factions, desk, now, say)
    taker.take_block(envelope, blocks[(block or 1) - 1])


def refuse(club: Club, campaign: Campaign, id_: str, why: str, now: datetime, say: Callable[[str], None]) -> None:
    """Puts a held message away. The player of the faction gets a letter with the reason, if there is one."""
    path = find_held(club, id_)
    record = read_json(path.with_suffix(".json"), {})
    numbers = {block.get("faction", 0) for block in record.get("blocks", [])} - {0}
    players = club.players
    for number in sorted(numbers) if why else []:
        if number in players:
            came = in_words(datetime.fromisoformat(record["came"]))
            text = texts.refused_by_moderator(number, came, one_line(why))
            to = players[number].letters_to(campaign.open_month)
            subject = texts.reply_subject(number, campaign.open_month, "MODERATOR", str(record.get("subject", "")))
            post(club, Letter(f"refusal-{path.stem}-{number}", to, subject, text), now)
    record["blocks"] = [{**block, "reason": Reason.MODERATOR.name, "why": why} for block in record.get("blocks", [])]
    write_json(club.places.refused / f"{path.stem}.json", record)
    move_file(path, club.places.refused / path.name)
    path.with_suffix(".json").unlink(missing_ok=True)
    club.log(f"refused {path.name} by the moderator: {why}")
    say(f"{path.stem} is refused" + ("" if why else ", without a letter"))


def withdraw(club: Club, campaign: Campaign, desk: Desk, number: int, now: datetime,
             say: Callable[[str], None]) -> None:
    """Replaces a faction's mailing by one without orders, which counts as none: its people work. Only the program writes
    to the campaign's tables, so they stay what it proves."""
    faction, month = campaign.faction(number), campaign.open_month
    if faction.mailing is None:
        raise OfficeError(f"faction {number} has no mailing for month {month}")
    kept = KeptMailings(club, month)
    entry = kept.entries.get(number)
    nothing = f"#ATLANTIS {number}\n#END\n".encode()
    if faction.mailing != nothing or entry is None or entry.id:
        desk.hand_in(number, faction.pass_text, nothing)
        entry = Kept("", now.isoformat(timespec="seconds"), 0, 0, 0, None)
        kept.put(number, entry)
    player = club.players.get(number)
    if player:
        # Its name has the noted time, so a call that was stopped before it doesn't write another one when it is called again.
        letter = Letter(f"withdrawn-{month}-{number}-{entry.moment():%Y%m%d%H%M%S}", player.letters_to(month),
                        f"Faction {number}: your mailing for month {month} was taken out", texts.withdrawn(number, month))
        post(club, letter, now)
    club.log(f"withdrew the mailing of faction {number}")
    say(f"the mailing of faction {number} for month {month} is taken out")


def remind(club: Club, campaign: Campaign, now: datetime, say: Callable[[str], None]) -> int:
    """A letter to each active faction that sent no mailing, or whose last one has faults; at most one a day. Returns how
    many were written."""
    kept = KeptMailings(club, campaign.open_month)
    deadline = open_deadline(club, campaign.month)
    until = in_words(deadline) if deadline else ""
    players = club.players
    count = 0
    for faction in campaign.active:
        number, month = faction.number, campaign.open_month
        entry = kept.entries.get(number)
        if faction.mailing is None or entry and not entry.id:
            text = texts.reminder_silent(number, month, until)
            subject = f"Faction {number}: no orders yet for month {month}"
        elif entry and entry.faults:
            text = texts.reminder_faults(number, month, entry.faults, until)
            subject = f"Faction {number}: faults in your orders for month {month}"
        else:
            continue
        if number not in players or not players[number].addresses:
            say(f"faction {number} has no address")
        elif post(club, Letter(f"reminder-{month}-{number}-{now:%Y%m%d}", players[number].letters_to(month), subject,
                               text), now):
            count += 1
    return count


def write_report_letters(club: Club, campaign: Campaign, now: datetime) -> int:
    """The reports of the month closed last go to out/, each once. A faction that was gone before gets none. Returns how
    many letters were written."""
    month = campaign.month
    deadline = deadline_after(club.settings, now)
    until = in_words(deadline) if deadline else ""
    gone_before = _gone_before(club, month)
    count = 0
    for number, player in sorted(club.players.items()):
        path = club.places.month(month) / f"report-{number}.txt"
        if number in gone_before or not path.is_file():
            continue
        report = path.read_text("ascii")
        text = texts.last_report_letter(month, report) if campaign.faction(number).gone else \
            texts.report_letter(month, report, until)
        count += post(club, Letter(f"report-{month}-{number}", player.letters_to(month + 1),
                                   _report_subject(club, number, month), text, edition=edition_of(text)), now)
    return count


def _report_subject(club: Club, number: int, month: int) -> str:
    return f"{club.settings.name}: report of month {month}, faction {number}"


def _gone_before(club: Club, month: int) -> set[int]:
    """The factions that were gone when the month began: their reports are older."""
    lines = (club.places.month(month) / "factions.txt").read_text("utf-8").splitlines()
    return {int(words[0]) for words in (line.split(" ", 2) for line in lines) if words[1] == "gone"}


def finish_closing(club: Club, campaign: Campaign, now: datetime, say: Callable[[str], None]) -> None:
    """Writes the letters of the month closed last, and then notes when it was closed. A call that was stopped is finished
    by the next command."""
    closings = Closings(club)
    if closings.when(campaign.month):
        return
    if (club.places.month(campaign.month) / "factions.txt").is_file():
        count = write_report_letters(club, campaign, now)
        say(f"{count} letters with reports are in out/")
    closings.note(campaign.month, now)
    club.log(f"month {campaign.month} is closed")


def resend(club: Club, number: int, month: int, now: datetime) -> str:
    """Writes the letter with a report again, under a name of its own, and returns the name."""
    path = club.places.month(month) / f"report-{number}.txt"
    player = club.players.get(number)
    if player is None or not player.addresses:
        raise OfficeError(f"faction {number} has no address: `kiwirudder address {number} ADDRESS` sets one")
    if not path.is_file():
        raise OfficeError(f"there is no report of faction {number} for month {month}")
    name = f"report-{month}-{number}-again-{now:%Y%m%d%H%M%S}"
    while is_written(club, name):
        name += "x"
    deadline = open_deadline(club, month)
    text = texts.report_letter(month, path.read_text("ascii"), in_words(deadline) if deadline else "")
    post(club, Letter(name, player.letters_to(month + 1), _report_subject(club, number, month), text), now)
    return name
