"""What the moderator wants to know at any time: who sent what, what is held, what waits to be sent."""

from __future__ import annotations

from collections.abc import Iterator
from datetime import datetime

from office.club.campaign import Campaign, Faction
from office.club.club import Club
from office.club.deadline import Closings, in_words, open_deadline
from office.mail.letters import one_line
from office.mail.sending import waiting_letters
from office.mail.taking import KeptMailings, Reason, held_messages

WIDTH_OF_NAME = 24


def mailing_in_words(faction: Faction, kept: KeptMailings) -> str:
    """When the faction's mailing came, and what it has."""
    if faction.gone:
        return "gone"
    if faction.mailing is None:
        return "silent"
    entry = kept.entries.get(faction.number)
    if entry is None:
        return "sent by the page or by hand"
    came = in_words(datetime.fromisoformat(entry.received))
    if entry.id == "":
        return f"{came}  withdrawn"
    return f"{came}  {entry.orders} orders, {entry.faults} faults, {entry.warnings} warnings"


def _head(club: Club, campaign: Campaign) -> str:
    closed = Closings(club).when(campaign.month)
    when = f", closed {in_words(closed)}" if closed and campaign.month else ""
    deadline = open_deadline(club, campaign.month)
    until = f"; mail must come by {in_words(deadline)}" if deadline else "; no deadline is set in club.toml"
    return f"month {campaign.open_month} is open (the last month is {campaign.month}{when}){until}"


def status_lines(club: Club, campaign: Campaign) -> Iterator[str]:
    """The lines of `status`."""
    yield _head(club, campaign)
    kept = KeptMailings(club, campaign.open_month)
    players = club.players
    for faction in campaign.factions:
        name = one_line(faction.name)[:WIDTH_OF_NAME]
        missing = "" if faction.gone or faction.number in players else "  (no address: kiwirudder address)"
        yield f"{faction.number:>5}  {name:<{WIDTH_OF_NAME}}  {mailing_in_words(faction, kept)}{missing}"
    held = held_messages(club)
    if held:
        yield f"{len(held)} held; `kiwirudder accept ID`, or `kiwirudder refuse ID WHY`:"
    for id_, record in held:
        yield f"  {id_}  {held_in_words(record)}"
    yield _letters(club)


def held_in_words(record: dict[str, object]) -> str:
    """Who sent the message, when, and why it is held."""
    blocks = record.get("blocks")
    reasons = []
    for block in blocks if isinstance(blocks, list) else []:
        name = str(block.get("reason"))
        why = Reason[name].value if name in Reason.__members__ else name
        reasons.append(f"faction {block.get('faction') or 'unknown'}: {why}")
    sender = one_line(str(record.get("sender") or "a file"))
    return f"{str(record.get('came'))[:16]}  {sender}  {'; '.join(dict.fromkeys(reasons))}"


def _letters(club: Club) -> str:
    failed = [path.stem for path in sorted(club.places.failed.glob("*.eml"))]
    text = f"{len(waiting_letters(club))} letters wait in out/"
    return text + (f"; {len(failed)} could not be sent: {', '.join(failed[:10])}" if failed else "")


def is_waiting_for_moderator(club: Club) -> bool:
    """Whether messages are held, or letters could not be sent."""
    return bool(held_messages(club)) or any(club.places.failed.glob("*.eml"))
