"""Goes back to before a month, by the copy before-M.db. Where there are copies with a number behind their names too
(before-M.db.~1~), the one without a number is the newest, and the one that is taken.

What was newer is kept in undone/DATE-before-M: the campaign, the folders of the months, later copies, the office's
state, and letters with reports. The mailings since then lie in mail/again as again-M-F.txt. When a month is open again,
`take_again` joins the factions that joined in it, and hands in its mailings."""

from __future__ import annotations

import filecmp
import re
import shutil
import sqlite3
from collections.abc import Callable, Iterator
from contextlib import closing, contextmanager
from dataclasses import asdict, dataclass
from pathlib import Path
from tempfile import TemporaryDirectory

from office.closing.folder import MonthFolder, Sent, months_in, read_bytes
from office.closing.month import logs_of, numbered
from office.club.campaign import Campaign, Faction, read_campaign, set_pass_text
from office.club.club import Club, parse_seed
from office.club.deadline import Closings
from office.club.files import copy_file, move_file, read_json, remove_file, write_file, write_json
from office.club.locks import campaign_lock
from office.club.program import Fault, Program, Refusal
from office.errors import OfficeError

Say = Callable[[str], None]

_AGAIN = re.compile(r"again-(\d+)-(\d+)\.txt")
_COPY = re.compile(r"before-(\d+)\.db(\.~\d+~)?")
_REPORT_LETTER = re.compile(r"report-(\d+)-\d+.*\.(eml|json)")


@dataclass(frozen=True)
class Joining:
    """A faction that joined while `month` was open. `same_seed` says that it begins where it began before."""

    month: int
    faction: int
    name: str
    pass_text: str
    same_seed: bool


@dataclass(frozen=True)
class Plan:
    """What a going back does, noted before it does anything. `folder` is the name below undone/. `names` are those
    under which the factions of the newer campaign joined, in their order. `pass_texts` are the moderator's and then
    theirs; none where the newer campaign can't be read."""

    month: int
    folder: str
    names: tuple[str, ...]
    joinings: tuple[Joining, ...]
    pass_texts: tuple[str, ...]


def unfinished_back(club: Club) -> int | None:
    """The month to before which a call that was stopped was going back. `back` with this month goes on."""
    plan = _read_plan(club)
    return plan.month if plan else None


def back(club: Club, month: int, say: Say) -> None:
    """Goes back to before `month`. OfficeError where there is no such copy; nothing was changed then. A call that was
    stopped is called again."""
    with _newest(club) as newest:
        plan = _read_plan(club)
        if plan and plan.month != month:
            raise OfficeError(f"going back to before month {plan.month} was stopped on its way: call back {plan.month} "
                              "first")
        if plan is None:
            plan = _make_plan(club, newest, month)
            write_json(club.places.record("back"), asdict(plan))
        _Back(club, plan, say).run(newest)


@contextmanager
def _newest(club: Club) -> Iterator[Campaign | None]:
    """The campaign as it is; None where its file is lost or damaged or has the log of another file next to it, which is
    what one may want to go back from."""
    with campaign_lock(club.places.serve_lock):
        is_broken = _is_broken(club)
        if is_broken:
            yield None
    if not is_broken:
        with club.with_campaign() as campaign:
            yield campaign


def _is_broken(club: Club) -> bool:
    """By a copy of the file and its logs: whoever opens a file brings a log's changes into it, and these may be those of
    another file."""
    file = club.places.campaign
    if not file.is_file() or not file.stat().st_size:
        return True
    with TemporaryDirectory(prefix="kiwirudder-") as folder:
        for path in (file, *logs_of(file)):
            if path.exists():
                shutil.copyfile(path, Path(folder) / path.name)
        return not _is_whole(Path(folder) / file.name)


def _is_whole(copy: Path) -> bool:
    try:
        Program(copy.parent, copy.name).books()
        with closing(sqlite3.connect(copy)) as database:
            return bool(database.execute("PRAGMA quick_check").fetchone() == ("ok",))
    except Fault as fault:
        if fault.line == "fault: Memory":
            raise
        return False
    except sqlite3.DatabaseError:
        return False


def _read_plan(club: Club) -> Plan | None:
    value = read_json(club.places.record("back"), None)
    if value is None:
        return None
    return Plan(value["month"], value["folder"], tuple(value["names"]),
                tuple(Joining(**joining) for joining in value["joinings"]), tuple(value["pass_texts"]))


def _make_plan(club: Club, newest: Campaign | None, month: int) -> Plan:
    copy = club.places.copy_before(month)
    if not copy.is_file():
        raise OfficeError(f"there is no {copy.name} here, the copy from before month {month}")
    before = read_campaign(copy)
    if before.month != month - 1:
        raise OfficeError(f"{copy.name} is the campaign after month {before.month}, and no copy from before month "
                          f"{month}")
    if newest and newest.month < month:
        raise OfficeError(f"month {month} isn't closed: the month closed last is {newest.month}")
    factions = (newest or _newest_copy(club, month)).factions
    joinings = tuple(_joining(club, faction, month) for faction in factions[len(before.factions):])
    pass_texts = (newest.pass_text, *(faction.pass_text for faction in newest.factions)) if newest else ()
    return Plan(month, _free_name(club, month), tuple(faction.joined_as for faction in factions), joinings, pass_texts)


def _newest_copy(club: Club, month: int) -> Campaign:
    """Of a campaign that is lost, what its last copy has."""
    numbers = [int(found[1]) for path in club.places.root.iterdir() if (found := _COPY.fullmatch(path.name))]
    return read_campaign(club.places.copy_before(max(number for number in numbers if number >= month)))


def _joining(club: Club, faction: Faction, month: int) -> Joining:
    """By the first month that lists the faction. One that no month lists joined in the open month."""
    months = months_in(club.places.months)
    seed = club.seed()
    for closed in months:
        folder = MonthFolder(club.places.month(closed))
        if closed >= month and len(folder.read_factions()) >= faction.number:
            same = parse_seed(read_bytes(folder.seed).decode("latin-1"), str(folder.seed)) == seed
            return Joining(closed, faction.number, faction.joined_as, faction.pass_text, same)
    return Joining(max(months, default=month) + 1, faction.number, faction.joined_as, faction.pass_text, True)


def _free_name(club: Club, month: int) -> str:
    name = first = f"{club.now():%Y-%m-%d}-before-{month}"
    number = 1
    while (club.places.undone / name).exists():
        number += 1
        name = f"{first}-{number}"
    return name


class _Back:
    """The steps. Each may be killed, and finds at the next call what it has done already."""

    def __init__(self, club: Club, plan: Plan, say: Say) -> None:
        self.club = club
        self.places = club.places
        self.plan = plan
        self.say = say
        self.kept = club.places.undone / plan.folder

    def run(self, newest: Campaign | None) -> None:
        is_replaced = newest is not None and newest.month < self.plan.month
        if not is_replaced:
            self._keep_campaign(newest)
            self._keep_state()
            self._lay_mailings(newest)
            self._move_newer()
            self._replace_campaign()
        self._keep_pass_texts()
        Closings(self.club).forget_from(self.plan.month)
        self._note_again()
        self.club.look()
        self._say_end()
        self.club.log(f"went back to before month {self.plan.month}; what was newer is in undone/{self.plan.folder}")
        remove_file(self.places.record("back"))

    def _keep_campaign(self, newest: Campaign | None) -> None:
        """The newest state stays club.db there; one that a call before kept gets a number."""
        kept = self.kept / "club.db"
        if kept.exists() and filecmp.cmp(kept, self.places.campaign, shallow=False):
            return
        if kept.exists():
            move_file(kept, numbered(kept))
        for file in ([] if newest else logs_of(self.places.campaign)):
            if file.exists():
                copy_file(file, self.kept / file.name)
        if self.places.campaign.exists():
            copy_file(self.places.campaign, kept)

    def _keep_state(self) -> None:
        files = [*self.places.state.glob("*.json"), self.places.players, self.places.log]
        for file in files:
            target = self.kept / file.relative_to(self.places.root)
            if file != self.places.record("back") and file.exists() and not target.exists():
                copy_file(file, target)

    def _lay_mailings(self, newest: Campaign | None) -> None:
        """Those of the months since, and those of the open month. The copy has the mail of its own month."""
        before = read_campaign(self.places.copy_before(self.plan.month))
        counted = {faction.number: faction.mailing for faction in before.factions}
        for month, root in self._newer_months():
            folder = MonthFolder(root)
            for listed in folder.read_factions():
                mailing = read_bytes(folder.mail(listed.number)) if listed.sent is Sent.MAIL else None
                if mailing is not None and (month > self.plan.month or counted.get(listed.number) != mailing):
                    self._lay(month, listed.number, mailing)
        if newest is None:
            self.say("the newest campaign can't be read, so the mail of the open month isn't in mail/again")
            return
        for faction in newest.factions:
            if faction.mailing is not None:
                self._lay(newest.open_month, faction.number, faction.mailing)

    def _newer_months(self) -> list[tuple[int, Path]]:
        """The folders of the months since, wherever they are at this moment."""
        found = {month: self.kept / "months" / str(month) for month in months_in(self.kept / "months")}
        left = [month for month in months_in(self.places.months) if month >= self.plan.month]
        found |= {month: self.places.month(month) for month in left}
        return sorted(found.items())

    def _lay(self, month: int, number: int, mailing: bytes) -> None:
        path = self.places.again / f"again-{month}-{number}.txt"
        if path.exists() and path.read_bytes() == mailing:
            return
        if path.exists():
            older = self.kept / "mail" / "again" / path.name
            move_file(path, numbered(older) if older.exists() else older)
        write_file(path, mailing)

    def _move_newer(self) -> None:
        """Months from M on, and mail, copies and letters of later ones."""
        month, places = self.plan.month, self.places
        self._move(path for path in places.months.iterdir()
                   if (number := path.name.removesuffix(".part")).isdigit() and int(number) >= month)
        self._move(path for path in (places.root / "mail" / "taken").glob("*")
                   if path.name.isdigit() and int(path.name) > month)
        self._move(path for path in places.root.glob("before-*")
                   if (found := _COPY.fullmatch(path.name)) and int(found[1]) > month)
        for folder in (places.out, places.sent, places.failed):
            self._move(path for path in folder.iterdir()
                       if (found := _REPORT_LETTER.fullmatch(path.name)) and int(found[1]) >= month)

    def _move(self, paths: Iterator[Path]) -> None:
        for path in sorted(paths):
            move_file(path, self.kept / path.relative_to(self.places.root))

    def _replace_campaign(self) -> None:
        """The logs of the newer campaign would spoil the older one, so they go first."""
        for log in logs_of(self.places.campaign):
            if log.exists():
                remove_file(log)
        copy_file(self.places.copy_before(self.plan.month), self.places.campaign)

    def _keep_pass_texts(self) -> None:
        """Players and the moderator know the newer pass texts, so these stay."""
        older = read_campaign(self.places.campaign)
        for number, old in enumerate((older.pass_text, *(faction.pass_text for faction in older.factions))):
            if number < len(self.plan.pass_texts) and self.plan.pass_texts[number] != old:
                set_pass_text(self.places.campaign, number, self.plan.pass_texts[number])

    def _note_again(self) -> None:
        names = {str(number): name for number, name in enumerate(self.plan.names, 1)}
        write_json(self.places.record("again"), {
            "names": names, "joinings": [asdict(joining) for joining in self.plan.joinings]})

    def _say_end(self) -> None:
        for joining in self.plan.joinings:
            when = f"joins again when month {joining.month} is open" if joining.same_seed else \
                "isn't joined again, since the seed is another: call join"
            self.say(f"faction {joining.faction} {joining.name} (pass text {joining.pass_text}) {when}")
        waiting = sorted(path.name for path in self.places.again.glob("again-*.txt"))
        if waiting:
            what = "1 mailing lies" if len(waiting) == 1 else f"{len(waiting)} mailings lie"
            self.say(f"{what} in mail/again, each to be taken when its month is open: "
                     f"{', '.join(waiting[:10])}{' ..' if len(waiting) > 10 else ''}")
        self.say(f"the campaign is that from before month {self.plan.month}, with the mail that it had. What was newer "
                 f"is in undone/{self.plan.folder}")


def take_again(club: Club, say: Say) -> int:
    """Joins the factions and hands in the mailings that a going back left for the open month, and gives the number of
    mailings that the program took. A faction that has sent something newer keeps that. Called before other mail is
    taken, and after each closing."""
    names, joinings = _read_again(club)
    if not joinings and not any(club.places.again.glob("again-*.txt")):
        return 0
    with club.with_campaign() as campaign:
        _join_again(club, campaign, joinings, names, say)
        campaign = club.look()
        taken = 0
        for path in sorted(club.places.again.glob("again-*.txt")):
            found = _AGAIN.fullmatch(path.name)
            if found and int(found[1]) == campaign.open_month:
                taken += _hand_in_again(club, campaign, path, int(found[2]), names, say)
        return taken


def _read_again(club: Club) -> tuple[dict[int, str], list[Joining]]:
    value = read_json(club.places.record("again"), {"names": {}, "joinings": []})
    names = {int(number): name for number, name in value["names"].items()}
    return names, [Joining(**each) for each in value["joinings"]]


def _join_again(club: Club, campaign: Campaign, joinings: list[Joining], names: dict[int, str], say: Say) -> None:
    """The factions of the open month and of earlier ones, in their order, up to one that can't join."""
    known = [faction.joined_as for faction in campaign.factions]
    rest = list(joinings)
    while rest and rest[0].month <= campaign.open_month:
        joining = rest[0]
        if joining.faction > len(known):
            if not joining.same_seed or joining.faction != len(known) + 1:
                say(f"faction {joining.faction} {joining.name} has to join again by hand: call join")
                return
            _, unit = club.program.join(joining.name, joining.pass_text, club.seed())
            known.append(joining.name)
            say(f"faction {joining.faction} {joining.name} has joined again, with unit {unit}")
        rest.pop(0)
        write_json(club.places.record("again"), {"names": {str(number): name for number, name in names.items()},
                                                 "joinings": [asdict(each) for each in rest]})


def _hand_in_again(club: Club, campaign: Campaign, path: Path, number: int, names: dict[int, str], say: Say) -> int:
    """1 where the mailing counts, 0 where it doesn't."""
    if number > len(campaign.factions):
        say(f"{path.name} waits: faction {number} hasn't joined again")
        return 0
    faction, mailing = campaign.faction(number), path.read_bytes()
    if names.get(number, faction.joined_as) != faction.joined_as:
        say(f"{path.name} isn't taken: faction {number} is another one now. The file is in mail/aside")
    elif faction.mailing not in (None, mailing):
        say(f"{path.name} isn't taken: faction {number} has sent other orders since. The file is in mail/aside")
    else:
        try:
            club.program.hand_in(number, faction.pass_text, mailing)
        except Refusal as refusal:
            say(f"{path.name} isn't taken: {refusal.text}. The file is in mail/aside")
        else:
            move_file(path, club.places.taken(campaign.open_month) / path.name)
            say(f"{path.name} is taken again")
            return 1
    move_file(path, club.places.aside / path.name)
    return 0
